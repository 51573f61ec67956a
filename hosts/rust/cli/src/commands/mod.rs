//! The commands, one a module, and how a command line finds its own.

mod act;
mod asides;
mod check;
mod compare;
mod convert;
mod diff;
mod explain;
mod find;
mod fold;
mod list;
mod log;
mod ls;
mod meet;
mod merge;
mod mv;
mod new;
mod order;
mod pack;
mod page;
mod pass;
mod plan;
mod salvage;
mod settle;
mod take;
mod tree;
mod try_row;
mod words;

use crate::args::{Args, Opt, Usage, flag, nearest, value};
use crate::failure::{Failure, Outcome};
use crate::help;
use crate::out::{Out, Status};
use crate::system::System;
use std::ffi::OsString;

/// What a command is given.
pub struct Session<'s, 'o> {
    /// The machine.
    pub system: &'s dyn System,
    /// The two outputs.
    pub out: Out<'o>,
    /// Words and options.
    pub args: Args,
}

/// A command: what it is called, how it is used, what it does.
pub struct Command {
    /// Its name.
    pub name: &'static str,
    /// Its words and options on the command line, a line for each form.
    pub usage: &'static [&'static str],
    /// What it does, in a line.
    pub summary: &'static str,
    /// What it does, in full: paragraphs, and examples indented by four.
    pub page: &'static str,
    /// Its own options, beside [`COMMON`].
    pub options: &'static [Opt],
    /// What its statuses mean.
    pub statuses: &'static str,
    /// Does it.
    pub run: fn(&mut Session) -> Outcome<Status>,
}

/// Options that every command has.
pub const COMMON: &[Opt] = &[
    flag("quiet", Some('q'), "print nothing; only the status answers"),
    flag("json", None, "print objects of JSON, one a line"),
    value(
        "color",
        None,
        "WHEN",
        "auto, always or never; NO_COLOR is obeyed",
    ),
    flag("help", Some('h'), "print this page"),
];

/// The commands by what they are for.
pub const GROUPS: &[(&str, &[&Command])] = &[
    (
        "look at a card",
        &[
            &check::COMMAND,
            &list::COMMAND,
            &tree::COMMAND,
            &ls::COMMAND,
            &find::COMMAND,
            &log::COMMAND,
            &asides::COMMAND,
            &page::COMMAND,
            &order::COMMAND,
        ],
    ),
    (
        "two cards",
        &[
            &compare::COMMAND,
            &diff::COMMAND,
            &meet::COMMAND,
            &pass::COMMAND,
            &pack::COMMAND,
            &try_row::COMMAND,
            &take::COMMAND,
            &merge::COMMAND,
        ],
    ),
    ("damaged cards", &[&salvage::COMMAND]),
    ("visits to come", &[&plan::COMMAND]),
    (
        "an archive whose only home is this machine",
        &[
            &new::COMMAND,
            &act::COMMAND,
            &mv::COMMAND,
            &settle::COMMAND,
            &fold::COMMAND,
        ],
    ),
    ("forms of a file", &[&convert::COMMAND]),
    ("help", &[&explain::COMMAND, &words::HELP, &words::VERSION]),
];

/// All commands.
pub fn all() -> impl Iterator<Item = &'static Command> {
    GROUPS
        .iter()
        .flat_map(|(_, commands)| commands.iter().copied())
}

/// The command of a name.
pub fn find(name: &str) -> Option<&'static Command> {
    all().find(|command| command.name == name)
}

/// What is said of a name that no command has.
pub fn unknown(name: &str) -> String {
    let near = nearest(name, all().map(|command| command.name))
        .map(|near| format!(": did you mean {near}?"));
    format!(
        "no command {}{}",
        name.escape_debug(),
        near.unwrap_or_default()
    )
}

/// Runs a command line; what it comes to.
pub fn run(words: impl IntoIterator<Item = OsString>, system: &dyn System, mut out: Out) -> Status {
    let (name, words) = parted(words.into_iter().collect());
    let Some(name) = name else {
        out.complain_text(&help::overview());
        return out.end(Status::Usage);
    };
    let Some(command) = find(&name) else {
        let advice = Some("sab help lists the commands");
        out.complain(None, unknown(&name), advice);
        return out.end(Status::Usage);
    };
    let known: Vec<Opt> = command.options.iter().chain(COMMON).copied().collect();
    let args = Args::read(words, &known).and_then(|args| {
        common(&args, &mut out)?;
        Ok(args)
    });
    let mut session = match args {
        Ok(args) => Session { system, out, args },
        Err(usage) => {
            let status = Failure::Usage(usage).tell(command.name, &mut out);
            return out.end(status);
        }
    };
    if session.args.has("help") {
        session.out.bytes(help::page(command).as_bytes());
        return session.out.end(Status::Yes);
    }
    session.out.opening(command.name);
    let status = match (command.run)(&mut session) {
        Ok(status) => status,
        Err(failure) => failure.tell(command.name, &mut session.out),
    };
    session.out.end(status)
}

/// The name of the command, and the other words. Options may stand before it.
fn parted(mut words: Vec<OsString>) -> (Option<String>, Vec<OsString>) {
    let mut at = 0;
    while let Some(word) = words.get(at).map(|word| word.to_string_lossy()) {
        match word.as_ref() {
            "-h" | "--help" => return (Some("help".to_string()), Vec::new()),
            "-V" | "--version" => return (Some("version".to_string()), Vec::new()),
            "--color" => at += 2,
            option if option.starts_with('-') && option.len() > 1 => at += 1,
            _ => {
                let name = words.remove(at).to_string_lossy().into_owned();
                return (Some(name), words);
            }
        }
    }
    (None, words)
}

/// Obeys the options that every command has.
fn common(args: &Args, out: &mut Out) -> Result<(), Usage> {
    out.quiet = args.has("quiet");
    out.json = args.has("json");
    match args.text("color")? {
        None | Some("auto") => {}
        Some("always") => out.color = true,
        Some("never") => out.color = false,
        Some(other) => {
            return Err(Usage(format!(
                "--color: {} is not auto, always or never",
                other.escape_debug()
            )));
        }
    }
    out.color &= !out.json;
    Ok(())
}
