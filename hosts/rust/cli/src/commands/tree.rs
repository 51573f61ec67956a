//! `sab tree`: folders and traces, drawn.

use super::{Command, Session};
use crate::archive::Archive;
use crate::args::{as_text, flag, parsed, value};
use crate::failure::{Outcome, usage};
use crate::out::{Ink, Out, Status};
use crate::records::Story;
use sab::{Entry, Identity, Kind};
use std::path::PathBuf;

/// `sab tree`.
pub const COMMAND: Command = Command {
    name: "tree",
    usage: &["tree FILE [FOLDER] [-d N] [--ascii]"],
    summary: "the folders and traces, drawn as a tree",
    page: "\
Draws the tree: folders first, then by label, each with its identity and the date
of its last contents. A disputed entry has a ! before it, and behind it the
asides that dispute it. FOLDER is the identity of a folder; only what lies in it
is drawn.

    $ sab tree bench.sab
    archive 7, unit 0
    └── Bench/  0.1  2025-03-03
        └── ! Gain \"A\"  0.2  2025-03-04  disputed by 1.1
    1 folder, 1 trace, 1 disputed; 1 aside, 1 open",
    options: &[
        value("depth", Some('d'), "N", "draw so many levels at the most"),
        flag("ascii", None, "draw with plain ASCII"),
    ],
    statuses: "0 drawn; 1 no such folder; 3 the file cannot be read; 4 it is refused",
    run,
};

/// How lines are drawn: a branch, the last branch, what goes on, nothing.
type Strokes = [&'static str; 4];
const LINES: Strokes = ["├── ", "└── ", "│   ", "    "];
const ASCII: Strokes = ["|-- ", "`-- ", "|   ", "    "];

fn run(session: &mut Session) -> Outcome<Status> {
    let words = session.args.words();
    let (name, folder) = match words {
        [name] => (PathBuf::from(name), None),
        [name, folder] => {
            let folder: Identity = parsed(as_text(folder, "FOLDER")?, "FOLDER")?;
            (PathBuf::from(name), Some(folder))
        }
        _ => return Err(usage("one FILE wanted, and a FOLDER at the most")),
    };
    let depth = session.args.number("depth", 1..=usize::MAX)?;
    let ascii = session.args.has("ascii");

    let archive = Archive::read(session.system, &name)?;
    let tree = archive.tree()?;
    let story = Story::new(&archive.log, &tree);
    session.out.object(|| archive.object());
    let top = folder.unwrap_or(Identity::ROOT);
    let head = match story.entry(top) {
        None if top.is_root() => {
            format!(
                "archive {}, unit {}",
                archive.log.archive(),
                archive.log.unit()
            )
        }
        Some(entry) if entry.kind() == Kind::Folder => described(&story, &session.out, entry),
        _ => {
            let words = format!("no folder {top} in the tree");
            session.out.complain(Some(&name), words, None);
            return Ok(Status::No);
        }
    };
    session.out.line(head);
    let mut drawing = Drawing {
        story: &story,
        out: &mut session.out,
        strokes: if ascii { &ASCII } else { &LINES },
        depth: depth.unwrap_or(usize::MAX),
    };
    drawing.draw(top, "", 1);
    let totals = story.totals();
    session.out.line(format_args!(
        "{}; {}",
        totals.entries(),
        totals.aside_words()
    ));
    Ok(Status::Yes)
}

/// An entry's line, without the strokes before it.
fn described(story: &Story, out: &Out, entry: Entry) -> String {
    let stroke = if entry.kind() == Kind::Folder {
        "/"
    } else {
        ""
    };
    let facts = out.ink(
        Ink::Faint,
        format_args!("{}  {}", entry.identity(), entry.date()),
    );
    let line = format!("{}{stroke}  {facts}", entry.label());
    if !entry.is_disputed() {
        return line;
    }
    let by: Vec<String> = story
        .disputing(entry.identity())
        .map(|aside| aside.to_string())
        .collect();
    let disputed = out.ink(Ink::Alarm, format_args!("disputed by {}", by.join(", ")));
    format!("{} {line}  {disputed}", out.ink(Ink::Alarm, "!"))
}

struct Drawing<'d, 'a, 'o> {
    story: &'d Story<'a>,
    out: &'d mut Out<'o>,
    strokes: &'static Strokes,
    depth: usize,
}

impl Drawing<'_, '_, '_> {
    fn draw(&mut self, folder: Identity, before: &str, level: usize) {
        if level > self.depth {
            return;
        }
        let inside = self.story.inside(folder);
        for (at, entry) in inside.iter().enumerate() {
            let last = at + 1 == inside.len();
            let line = described(self.story, self.out, *entry);
            self.out.object(|| self.story.entry_object(*entry));
            self.out.line(format_args!(
                "{before}{}{line}",
                self.strokes[usize::from(last)]
            ));
            if entry.kind() == Kind::Folder {
                let deeper = format!("{before}{}", self.strokes[2 + usize::from(last)]);
                self.draw(entry.identity(), &deeper, level + 1);
            }
        }
    }
}
