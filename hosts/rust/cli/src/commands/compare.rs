//! `sab compare`: who lacks what?

use super::{Command, Session};
use crate::archive::Archive;
use crate::failure::Outcome;
use crate::json::Object;
use crate::meeting::{deny_other_archive, held_otherwise, twice_words};
use crate::numbers::{Case, advice};
use crate::out::{Ink, Status, for_shell};
use crate::why::counted;
use sab::{Comparison, blocks_for};

/// `sab compare`.
pub const COMMAND: Command = Command {
    name: "compare",
    usage: &["compare FILE FILE.."],
    summary: "which file lacks records of another? (checklist B)",
    page: "\
Prints the vector of each file, and for each two files how they stand to each
other: identical, the one or the other ahead, or both ahead; how many records each
lacks, and in how many blocks they come; and what to do.

    $ sab compare card0.sab card1.sab
    card0.sab: seen 2 0 0 0 0 0 0 0
    card1.sab: seen 1 1 0 0 0 0 0 0
    card0.sab, card1.sab: both ahead: card0.sab lacks 1, card1.sab lacks 1 record (1 block, 1 block)
      sab meet card0.sab card1.sab

Vectors only count. Where both files hold a record of one identity, its bytes are
compared too, and a difference is cried out: then a unit used a number twice, and
the two files show different trees, also if their vectors are equal.",
    options: &[],
    statuses: "0 all are identical; 1 not so; 3 a file cannot be read; 4 a file is refused, or of another archive",
    run,
};

fn run(session: &mut Session) -> Outcome<Status> {
    let names = session.args.files(2..=usize::MAX, "two FILEs or more")?;
    let mut archives = Vec::new();
    let mut worst = Status::Yes;
    for name in &names {
        match Archive::read(session.system, name) {
            Ok(archive) => archives.push(archive),
            Err(failure) => worst = worst.max(failure.tell(COMMAND.name, &mut session.out)),
        }
    }
    for archive in &archives {
        session.out.object(|| archive.object());
        session
            .out
            .line(format_args!("{}: seen {}", archive.shown(), archive.vector));
    }
    for (at, first) in archives.iter().enumerate() {
        for second in &archives[at + 1..] {
            worst = worst.max(pair(session, first, second));
        }
    }
    Ok(worst)
}

/// Says how two files stand to each other.
fn pair(session: &mut Session, first: &Archive, second: &Archive) -> Status {
    if let Err(refused) = deny_other_archive(&second.name, &first.log, &second.log) {
        refused.tell(&mut session.out);
        return Status::Refused;
    }
    let apart = first.vector.distance(&second.vector);
    let answer = apart.comparison;
    let twice = held_otherwise(&first.log, &second.log);
    session.out.object(|| {
        Object::new("comparison")
            .text("first", first.shown())
            .text("second", second.shown())
            .number("answer", number(answer))
            .number("first_lacks", apart.first_lacks)
            .number("second_lacks", apart.second_lacks)
            .texts("held_otherwise", &twice)
    });
    let (one, other) = (first.shown(), second.shown());
    let both = format!("{one}, {other}");
    if !twice.is_empty() {
        let words = session.out.ink(
            Ink::Alarm,
            format_args!("NOT THE SAME RECORDS: {}", twice_words(&twice)),
        );
        let equal = match answer {
            Comparison::Identical => "; the vectors are equal and do not show it",
            _ => "",
        };
        session.out.line(format_args!("{both}: {words}{equal}"));
        if let Some(advice) = advice(10, Case::Taking) {
            session.out.line(format_args!("  {advice}"));
        }
        return Status::No;
    }
    let (words, todo) = match answer {
        Comparison::Identical => {
            let words = session.out.ink(Ink::Well, "identical");
            let same = match first.folded() + second.folded() {
                0 => "the same records, byte for byte",
                _ => "the same records; what is folded is not compared",
            };
            (format!("{words}: {same}"), None)
        }
        Comparison::FirstAhead => (
            format!(
                "{one} is ahead: {other} lacks {}",
                lacked(apart.second_lacks)
            ),
            Some(("pass", first, second)),
        ),
        Comparison::SecondAhead => (
            format!(
                "{other} is ahead: {one} lacks {}",
                lacked(apart.first_lacks)
            ),
            Some(("pass", second, first)),
        ),
        Comparison::BothAhead => (
            format!(
                "both ahead: {one} lacks {}, {other} lacks {} ({}, {})",
                apart.first_lacks,
                counted(apart.second_lacks as usize, "record"),
                blocks(apart.first_lacks),
                blocks(apart.second_lacks)
            ),
            Some(("meet", first, second)),
        ),
    };
    session.out.line(format_args!("{both}: {words}"));
    if let Some((command, from, to)) = todo {
        let (from, to) = (for_shell(&from.name), for_shell(&to.name));
        session
            .out
            .line(format_args!("  sab {command} {from} {to}"));
    }
    Status::no_if(answer != Comparison::Identical)
}

/// So many records, and the blocks that bring them.
fn lacked(records: u32) -> String {
    format!(
        "{} ({})",
        counted(records as usize, "record"),
        blocks(records)
    )
}

fn blocks(records: u32) -> String {
    counted(blocks_for(records) as usize, "block")
}

/// The library's number of an answer.
fn number(answer: Comparison) -> u8 {
    match answer {
        Comparison::Identical => 0,
        Comparison::FirstAhead => 1,
        Comparison::SecondAhead => 2,
        Comparison::BothAhead => 3,
    }
}
