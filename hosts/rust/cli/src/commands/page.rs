//! `sab html`: one page of an archive.

use super::{Command, Session};
use crate::archive::Archive;
use crate::args::{flag, value};
use crate::failure::{Failure, Outcome, usage};
use crate::files::{self, Over, is_standard};
use crate::html;
use crate::out::{Status, shown};
use std::path::Path;

/// `sab html`.
pub const COMMAND: Command = Command {
    name: "html",
    usage: &["html FILE [-o PAGE] [-f] [--title=TITLE]"],
    summary: "one page of an archive, for a browser or for paper",
    page: "\
Writes one page that needs nothing else, no script and no link outside: archive
and unit, the room in the log, the vector, the tree with disputed entries linked to
the asides that dispute them, and every aside in words. It can be read on a phone
and printed. The same file gives the same page, byte for byte.

    $ sab html bench.sab -o bench.html
    bench.html: archive 7, 2 entries, 1 aside, 1 open

Without -o the page goes to standard output. A refused file gives a page that says
so, and the status 4.",
    options: &[
        value(
            "output",
            Some('o'),
            "PAGE",
            "the file to write; - is standard output",
        ),
        flag("force", Some('f'), "overwrite PAGE; never an archive file"),
        value(
            "title",
            None,
            "TITLE",
            "the heading; without it the archive's number",
        ),
    ],
    statuses: "0 written; 3 a file cannot be read or written; 4 the file is refused",
    run,
};

fn run(session: &mut Session) -> Outcome<Status> {
    let names = session.args.files(1..=1, "one FILE")?;
    let title = session.args.text("title")?.map(str::to_string);
    let target = session.args.path("output");
    if let Some(target) = &target {
        deny_archive(session, target)?;
    }
    let made = Archive::read(session.system, &names[0]).and_then(|archive| {
        let tree = archive.tree()?;
        let page = html::page(&archive, &tree, title.as_deref());
        let totals = crate::records::Story::new(&archive.log, &tree).totals();
        let words = format!(
            "archive {}, {}, {}",
            archive.log.archive(),
            entries(totals.folders + totals.traces),
            totals.aside_words()
        );
        Ok((page, words))
    });
    match made {
        Ok((page, words)) => {
            put(session, target.as_deref(), &page, &words)?;
            Ok(Status::Yes)
        }
        Err(Failure::Refused(refused)) => {
            let page = html::refused(title.as_deref(), &refused.words(), refused.advice());
            put(
                session,
                target.as_deref(),
                &page,
                "a page that tells of the refusal",
            )?;
            Err(Failure::Refused(refused))
        }
        Err(failure) => Err(failure),
    }
}

fn entries(count: usize) -> String {
    match count {
        1 => "1 entry".to_string(),
        some => format!("{some} entries"),
    }
}

/// An archive file is never overwritten by a page.
fn deny_archive(session: &Session, target: &Path) -> Outcome<()> {
    if is_standard(target) || session.system.facts(target).is_err() {
        return Ok(());
    }
    let there = files::read(session.system, target, 4)?;
    match there.bytes.starts_with(b"SAB") {
        true => Err(usage(format!(
            "{} is an archive file, and no page is written over it",
            shown(target)
        ))),
        false => Ok(()),
    }
}

/// Writes the page, and says so.
fn put(session: &mut Session, target: Option<&Path>, page: &str, words: &str) -> Outcome<()> {
    let Some(target) = target.filter(|target| !is_standard(target)) else {
        session.out.bytes(page.as_bytes());
        return Ok(());
    };
    let over = match session.args.has("force") {
        true => Over::Forced,
        false => Over::Not,
    };
    files::create(session.system, target, page.as_bytes(), over, &|_| true)?;
    session.out.line(format_args!("{}: {words}", shown(target)));
    Ok(())
}
