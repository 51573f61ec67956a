//! `sab explain`: what a number means.

use super::{Command, Session};
use crate::args::{Read, Usage, as_text, flag, number};
use crate::failure::{Outcome, usage};
use crate::help::wrapped;
use crate::json::Object;
use crate::numbers::{Row, field_card, row, section};
use crate::out::{Ink, Status};

/// `sab explain`.
pub const COMMAND: Command = Command {
    name: "explain",
    usage: &["explain N..", "explain --all"],
    summary: "what a refusal's number or an aside's reason means, and what to do",
    page: "\
Prints what was found, whose fault it is and what to do next, for each number.
With --all it prints the whole field card, docs/FIELD-CARD.md.

    $ sab explain 16
    16: the folder to remove still has entries
        whose fault: wish
        what to do: remove or leave its entries first
        of an aside: a folder was removed while someone put an entry in it: it stays; sab asides tells what to do",
    options: &[flag("all", None, "print the field card")],
    statuses: "0 printed; 2 there is no such number",
    run,
};

fn run(session: &mut Session) -> Outcome<Status> {
    if session.args.has("all") {
        session.out.bytes(field_card().as_bytes());
        return Ok(Status::Yes);
    }
    let words = session.args.words();
    if words.is_empty() {
        return Err(usage("N wanted, 1 to 21, 24 to 29 or 31"));
    }
    let rows: Vec<&Row> = words
        .iter()
        .map(|word| of_table(as_text(word, "N")?))
        .collect::<Read<_>>()?;
    for row in rows {
        tell(session, row);
    }
    Ok(Status::Yes)
}

/// The row that a word names.
fn of_table(word: &str) -> Read<&'static Row> {
    let number = number(word, 1..=u8::MAX, "N").ok();
    number.and_then(row).ok_or_else(|| {
        Usage(format!(
            "N: {word:?} is no number of the table, 1 to 21, 24 to 29 or 31"
        ))
    })
}

/// What a reason means where it stands behind an aside.
fn of_aside(number: u8) -> Option<&'static str> {
    Some(match number {
        12 => "the entry was removed, or its make stands aside",
        13 => "the folder was removed, or its make stands aside",
        14 => "a trace was used as a folder, or a folder stored to: made by other software",
        15 => "two people gave one label in one folder, in any case",
        16 => "a folder was removed while someone put an entry in it: it stays",
        17 => "two people changed one entry",
        18 => "a settle of something that does not stand aside, or no longer does",
        25 => "two people moved folders, and one would lie in or below itself: one move acts",
        _ => return None,
    })
}

fn tell(session: &mut Session, row: &Row) {
    session.out.object(|| {
        Object::new("number")
            .number("number", row.number)
            .text("cause", row.cause.all())
            .text("fault", row.fault)
            .text("todo", row.advice.all())
            .maybe("aside", of_aside(row.number))
    });
    let indent = " ".repeat(row.number.to_string().len() + 2);
    let cause = session.out.ink(Ink::Strong, row.cause.all());
    session.out.line(format_args!("{}: {cause}", row.number));
    session
        .out
        .line(format_args!("{indent}whose fault: {}", row.fault));
    session
        .out
        .line(format_args!("{indent}what to do: {}", row.advice.all()));
    if let Some(aside) = of_aside(row.number) {
        session.out.line(format_args!(
            "{indent}of an aside: {aside}; sab asides tells what to do"
        ));
    }
    if let Some(section) = section(row.number) {
        session
            .out
            .line(format_args!("\n{}", wrapped(section.text, 80)));
    }
}
