//! `sab help` and `sab version`.

use super::{Command, Session, find, unknown};
use crate::args::flag;
use crate::failure::Outcome;
use crate::help;
use crate::json::Object;
use crate::out::Status;

/// `sab help`.
pub const HELP: Command = Command {
    name: "help",
    usage: &["help [COMMAND..]", "help --all", "help --man"],
    summary: "the list of commands, or the page of a command",
    page: "\
Without a command it prints the list; with commands their pages, as sab COMMAND
--help does. With --all it prints every page, which is docs/COMMANDS.md, and with
--man the manual page sab(1).",
    options: &[
        flag("all", None, "print all pages, as docs/COMMANDS.md has them"),
        flag("man", None, "print the manual page sab(1)"),
    ],
    statuses: "0 printed; 2 there is no such command",
    run: run_help,
};

/// `sab version`.
pub const VERSION: Command = Command {
    name: "version",
    usage: &["version"],
    summary: "the version of this program, and what it reads",
    page: "Prints the version of this program and the format that it reads and writes.",
    options: &[],
    statuses: "0 printed",
    run: run_version,
};

fn run_help(session: &mut Session) -> Outcome<Status> {
    let text = if session.args.has("all") {
        help::markdown()
    } else if session.args.has("man") {
        help::man()
    } else if session.args.words().is_empty() {
        help::overview()
    } else {
        let words = session.args.words().iter();
        let names: Vec<String> = words
            .map(|word| word.to_string_lossy().into_owned())
            .collect();
        if let Some(name) = names.iter().find(|name| find(name).is_none()) {
            let advice = Some("sab help lists the commands");
            session.out.complain(None, unknown(name), advice);
            return Ok(Status::Usage);
        }
        let pages: Vec<String> = names
            .iter()
            .filter_map(|name| find(name).map(help::page))
            .collect();
        pages.join("\n")
    };
    session.out.bytes(text.as_bytes());
    Ok(Status::Yes)
}

fn run_version(session: &mut Session) -> Outcome<Status> {
    let version = env!("CARGO_PKG_VERSION");
    session.out.object(|| {
        Object::new("version")
            .text("version", version)
            .texts("forms", ["SAB1", "SAB2"])
    });
    session.out.line(format_args!(
        "sab {version}, archive files of the forms SAB1 and SAB2"
    ));
    Ok(Status::Yes)
}
