//! `sab diff`: what two trees show differently.

use super::{Command, Session};
use crate::archive::Archive;
use crate::args::flag;
use crate::failure::Outcome;
use crate::json::Object;
use crate::marks;
use crate::numbers::{Case, advice};
use crate::out::{Ink, Status};
use crate::records::Story;
use sab::Record;

/// `sab diff`.
pub const COMMAND: Command = Command {
    name: "diff",
    usage: &["diff FILE FILE [--exit-code]"],
    summary: "what the trees of two files show differently",
    page: "\
Prints the lines in which the listings of two files differ: - for a line that only
the first has, + for one that only the second has. Entries come first, then asides.
Both are read by the rules of now. Where they differ, a file that an analyser before
version 4 shows otherwise, since it tells capitals from small letters, is named in a
last line.

Where the two hold the same records but for content marks, this is said, also if
both listings are the same: for each such record its two marks, whether the trace
shown differs by it or why not, and that nothing else differs. The status goes by
the listings.

    $ sab diff card0.sab card1.sab
    --- card0.sab: archive 12 unit 0 records 2
    +++ card1.sab: archive 12 unit 1 records 2
    -trace 0.2 in 0.1 \"Gain\" 2025-03-04 11111111111111111111111111111111
    +trace 1.1 in 0.1 \"Gain\" 2025-03-05 22222222222222222222222222222222",
    options: &[flag("exit-code", None, "status 1 if there is a difference")],
    statuses: "0 printed; 1 with --exit-code, there is a difference; 3 a file cannot be read; 4 a file is refused",
    run,
};

fn run(session: &mut Session) -> Outcome<Status> {
    let names = session.args.files(2..=2, "two FILEs")?;
    let first = Archive::read(session.system, &names[0])?;
    let second = Archive::read(session.system, &names[1])?;
    let (old, new) = (first.listing()?, second.listing()?);
    let (old, new): (Vec<&str>, Vec<&str>) = (old.lines().collect(), new.lines().collect());
    let (old_rest, new_rest) = (old.get(2..).unwrap_or(&[]), new.get(2..).unwrap_or(&[]));
    let lines = differing(old_rest, new_rest);
    session.out.object(|| first.object());
    session.out.object(|| second.object());
    if !lines.is_empty() {
        let head = |lines: &[&str]| lines.first().copied().unwrap_or_default().to_string();
        session
            .out
            .line(format_args!("--- {}: {}", first.shown(), head(&old)));
        session
            .out
            .line(format_args!("+++ {}: {}", second.shown(), head(&new)));
    }
    for (sign, line) in &lines {
        session.out.object(|| {
            Object::new("difference")
                .text("sign", sign)
                .text("line", line)
        });
        let ink = if *sign == '-' { Ink::Alarm } else { Ink::Well };
        let text = session.out.ink(ink, format_args!("{sign}{line}"));
        session.out.line(text);
    }
    tell_marks(session, &first, &second)?;
    if !lines.is_empty() {
        first.tell_otherwise(&mut session.out)?;
        second.tell_otherwise(&mut session.out)?;
    }
    Ok(Status::no_if(
        session.args.has("exit-code") && !lines.is_empty(),
    ))
}

/// Says if two files differ in content marks alone: of which records, and what is
/// shown of them.
fn tell_marks(session: &mut Session, first: &Archive, second: &Archive) -> Outcome<()> {
    let pairs = marks::alone(&first.log, &second.log);
    if pairs.is_empty() {
        return Ok(());
    }
    let tree = first.tree()?;
    let story = Story::new(&first.log, &tree);
    for &(one, other) in &pairs {
        session.out.object(|| marks::object(&story, (one, other)));
        session.out.line(format_args!(
            "record {} has two marks: {}",
            one.identity(),
            story.sentence(one)
        ));
        let mark = |record: Record| record.mark().map_or(String::new(), |mark| mark.to_string());
        session.out.line(format_args!(
            "  {} in {}, {} in {}",
            mark(one),
            first.shown(),
            mark(other),
            second.shown()
        ));
        session
            .out
            .line(format_args!("  {}", marks::words(&story, one)));
    }
    session.out.object(|| {
        let records = pairs.iter().map(|(one, _)| one.identity());
        Object::new("marks_alone").texts("records", records)
    });
    session.out.line(
        "nothing else differs: entries, labels, places, dates, disputes and asides are the same",
    );
    if let Some(advice) = advice(10, Case::Taking) {
        session.out.line(format_args!("  {advice}"));
    }
    Ok(())
}

/// What a line is about: its first two words, kind and identity.
fn key(line: &str) -> &str {
    let end = line.match_indices(' ').nth(1).map(|(at, _)| at);
    &line[..end.unwrap_or(line.len())]
}

/// The lines that differ. Both lists are in rank order, so lines about the same
/// record stand in the same order in both.
fn differing<'a>(old: &[&'a str], new: &[&'a str]) -> Vec<(char, &'a str)> {
    let has = |lines: &[&str], line: &str| lines.iter().any(|one| key(one) == key(line));
    let mut lines = Vec::new();
    let (mut old, mut new) = (old, new);
    loop {
        match (old.split_first(), new.split_first()) {
            (None, None) => return lines,
            (Some((line, rest)), _) if !has(new, line) => {
                lines.push(('-', *line));
                old = rest;
            }
            (_, Some((line, rest))) if !has(old, line) => {
                lines.push(('+', *line));
                new = rest;
            }
            (Some((one, old_rest)), Some((other, new_rest))) => {
                if one != other {
                    lines.push(('-', one));
                    lines.push(('+', other));
                }
                (old, new) = (old_rest, new_rest);
            }
            (Some((line, rest)), None) => {
                lines.push(('-', *line));
                old = rest;
            }
            (None, Some((line, rest))) => {
                lines.push(('+', *line));
                new = rest;
            }
        }
    }
}
