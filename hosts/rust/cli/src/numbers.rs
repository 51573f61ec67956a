//! What each number of the refusal table means and what to do about it.
//!
//! The words of every message, of `sab explain` and of docs/FIELD-CARD.md come
//! from this one table.

/// Where a number was met; what to do can depend on it.
#[derive(Clone, Copy, Debug, PartialEq, Eq)]
pub enum Case {
    /// A file was read.
    File,
    /// A block was taken.
    Taking,
    /// A record was wished for.
    Act,
}

/// Words about a number.
pub enum Words {
    /// The same wherever it was met.
    Always(&'static str),
    /// For a file, for a block that is taken, for an act. None where the number
    /// cannot come.
    By {
        /// A file was read.
        file: Option<&'static str>,
        /// A block was taken.
        taking: Option<&'static str>,
        /// A record was wished for.
        act: Option<&'static str>,
    },
}

/// A row of the table.
pub struct Row {
    /// The number.
    pub number: u8,
    /// What was found.
    pub cause: Words,
    /// Whose fault it is.
    pub fault: &'static str,
    /// What to do next.
    pub advice: Words,
}

/// A number of which more is to be said than fits a row.
pub struct Section {
    /// The number.
    pub number: u8,
    /// What it comes to.
    pub title: &'static str,
    /// How it comes about, and how to go on.
    pub text: &'static str,
}

/// The sections behind the table.
pub const SECTIONS: &[Section] = &[
    Section {
        number: 10,
        title: "a number was used twice",
        text: include_str!("card/10.md"),
    },
    Section {
        number: 11,
        title: "the log is full",
        text: include_str!("card/11.md"),
    },
    Section {
        number: 15,
        title: "capitals and small letters are one label",
        text: include_str!("card/15.md"),
    },
    Section {
        number: 25,
        title: "moving an entry",
        text: include_str!("card/25.md"),
    },
    Section {
        number: 27,
        title: "behind a base",
        text: include_str!("card/27.md"),
    },
];

/// The section of a number.
pub fn section(number: u8) -> Option<&'static Section> {
    SECTIONS.iter().find(|section| section.number == number)
}

use Words::{Always, By};

/// The table.
pub const ROWS: &[Row] = &[
    Row {
        number: 1,
        cause: Always("lent memory is not of its stated length"),
        fault: "the calling program",
        advice: Always("no card is wrong: report it to who built the program"),
    },
    Row {
        number: 2,
        cause: By {
            file: Some("a file is not 1 to 86 whole blocks, or in the form SAB2 1 to 186"),
            taking: Some("a block is not 512 bytes"),
            act: None,
        },
        fault: "card",
        advice: Always(
            "the copy was cut short, is empty or has something behind it: copy the card again; if it stays, \
             `sab salvage` takes the good blocks out of it",
        ),
    },
    Row {
        number: 3,
        cause: By {
            file: Some("a block does not begin with the letters of its form, SAB1 or SAB2"),
            taking: Some("a block does not begin with SAB1"),
            act: None,
        },
        fault: "card",
        advice: Always(
            "not an archive file, or a sector is lost: copy again, then try another unit's card; `sab salvage` \
             takes the good blocks out of a damaged one. A file of the form SAB2 where SAB1 is asked for: \
             `sab convert`",
        ),
    },
    Row {
        number: 4,
        cause: Always("a sum differs: some byte of the block changed"),
        fault: "card",
        advice: Always(
            "copy again; if it stays, the card is worn: take another unit's card, since every unit holds the \
             records it has heard of; `sab salvage` takes the good blocks out of a damaged one",
        ),
    },
    Row {
        number: 5,
        cause: Always(
            "header: unit above 7, count above 6, or bytes in an unused place; the sums are right",
        ),
        fault: "peer",
        advice: Always(
            "the writer was no unit of this archive, or was faulty: name the card's unit to the workshop",
        ),
    },
    Row {
        number: 6,
        cause: Always("another archive"),
        fault: "peer",
        advice: By {
            file: Some("two cards of different archives cannot become one file"),
            taking: Some("two vans of different archives met: nothing was taken, part them"),
            act: None,
        },
    },
    Row {
        number: 7,
        cause: By {
            file: Some("a record is malformed"),
            taking: Some("a record is malformed"),
            act: Some("the wish is malformed"),
        },
        fault: "peer; for an act, wish",
        advice: By {
            file: Some("the writer was faulty: name the card's unit to the workshop"),
            taking: Some(
                "the sender was faulty: do not go on with it, name its unit to the workshop",
            ),
            act: Some("the label, date or named entry is not allowed; ask again with others"),
        },
    },
    Row {
        number: 8,
        cause: Always("a number is not its unit's next, or the record saw what is not held"),
        fault: "peer",
        advice: By {
            file: Some("the writer was faulty: name the card's unit to the workshop"),
            taking: Some(
                "take the earlier blocks first, a later meeting does that by itself; if it stays, a unit used \
                 its numbers twice",
            ),
            act: None,
        },
    },
    Row {
        number: 9,
        cause: Always("what the record saw does not hold together"),
        fault: "peer",
        advice: By {
            file: Some(
                "the records were not made by a sound unit: name the card's unit to the workshop",
            ),
            taking: Some(
                "take the earlier blocks first; if it stays, the records were not made by a sound unit",
            ),
            act: None,
        },
    },
    Row {
        number: 10,
        cause: Always("a held record came with other bytes"),
        fault: "some unit, found out as under 10",
        advice: Always(
            "a number was used twice: stop all meetings and acts, and go on as under 10 (`sab explain 10`)",
        ),
    },
    Row {
        number: 11,
        cause: By {
            file: Some("a 513th record"),
            taking: Some("a 513th record that is not folded"),
            act: Some("a 513th record that is not folded"),
        },
        fault: "own log (full); in a file, peer",
        advice: By {
            file: Some("the writer was faulty: name the card's unit to the workshop"),
            taking: Some(
                "the two hold more than 512 records together: nothing is lost, but no meeting will finish; go on \
                 as under 11 (`sab explain 11`)",
            ),
            act: Some("this log takes no record any more: go on as under 11 (`sab explain 11`)"),
        },
    },
    Row {
        number: 12,
        cause: Always("the entry to change is not there"),
        fault: "wish",
        advice: Always("look at the tree again: someone removed it, or the make stands aside"),
    },
    Row {
        number: 13,
        cause: Always("the folder is not there"),
        fault: "wish",
        advice: Always(
            "look at the tree again: someone removed it, or its make stands aside; choose another folder",
        ),
    },
    Row {
        number: 14,
        cause: Always("a trace was used as a folder, or a folder was stored to"),
        fault: "wish",
        advice: Always("choose a folder, or a trace"),
    },
    Row {
        number: 15,
        cause: Always("the label, in any case, is already in that folder"),
        fault: "wish",
        advice: Always("choose another label: capitals and small letters are the same"),
    },
    Row {
        number: 16,
        cause: Always("the folder to remove still has entries"),
        fault: "wish",
        advice: Always("remove or leave its entries first"),
    },
    Row {
        number: 17,
        cause: Always(
            "never refuses a call: a reason for standing aside, the maker had not seen the last change",
        ),
        fault: "(two people)",
        advice: Always("read both records, decide, act again, then settle the aside"),
    },
    Row {
        number: 18,
        cause: Always("the record to settle does not stand aside"),
        fault: "wish",
        advice: Always("look at the asides again: it may act by now"),
    },
    Row {
        number: 19,
        cause: Always("the lent log, list or base is not sound"),
        fault: "own log",
        advice: Always(
            "the unit's memory is damaged: keep a copy, start anew and take all from a peer or from a card's file",
        ),
    },
    Row {
        number: 20,
        cause: Always(
            "a file's blocks do not belong together, or its ranks do not rise, or its vector is not its counts",
        ),
        fault: "card or peer",
        advice: Always(
            "blocks of two files were mixed or one is missing: copy again; if it stays, `sab salvage`, and name \
             the card's unit to the workshop",
        ),
    },
    Row {
        number: 21,
        cause: Always("the unit's own number is above 7"),
        fault: "the calling program",
        advice: Always("set the unit to 0 to 7"),
    },
    Row {
        number: 24,
        cause: Always("the label of a new record has a stroke, /"),
        fault: "wish",
        advice: Always(
            "choose a label without a stroke: office machines part folder from name there",
        ),
    },
    Row {
        number: 25,
        cause: Always("a folder would go into itself or below itself"),
        fault: "wish",
        advice: Always("choose a folder that does not lie in the one to move"),
    },
    Row {
        number: 26,
        cause: By {
            file: Some("a record is of a unit that is not in the file's list"),
            taking: Some("a record is of a unit that is not in this file's list"),
            act: Some("the list lacks a unit"),
        },
        fault: "own list; in a file, peer; for an act, wish",
        advice: By {
            file: Some("the writer was faulty: name the card's unit to the workshop"),
            taking: Some(
                "if the unit belongs to the archive, list it with `sab fold --units`, and go on as under 27",
            ),
            act: Some("list the own unit and every unit that makes records (`sab help fold`)"),
        },
    },
    Row {
        number: 27,
        cause: Always(
            "records are folded that the other lacks, or a record had not seen what is folded here",
        ),
        fault: "own base or the peer's",
        advice: Always(
            "take from another unit that has not folded so far; go on as under 27 (`sab explain 27`)",
        ),
    },
    Row {
        number: 28,
        cause: Always("the unit has used its last number, 65,535"),
        fault: "own unit",
        advice: Always("this unit makes no record any more: go on under another unit number"),
    },
    Row {
        number: 29,
        cause: Always("records are folded: no file of the form SAB1 holds them, and no order is checked"),
        fault: "own base",
        advice: Always(
            "keep the file as SAB2; for an analyser that knows SAB1 alone use the last card from before the fold",
        ),
    },
    Row {
        number: 30,
        cause: Always("an event of a plan is not one"),
        fault: "the plan",
        advice: Always(
            "no card is wrong: `sab plan run` says which event and why; `sab plan compile` makes plans that pass",
        ),
    },
    Row {
        number: 31,
        cause: By {
            file: Some("the list or base of an SAB2 file breaks its layout, or is not sound; the sums are right"),
            taking: None,
            act: None,
        },
        fault: "peer",
        advice: By {
            file: Some("the writer was faulty: name the card's unit to the workshop, and take another unit's card"),
            taking: None,
            act: None,
        },
    },
];

/// The row of a number.
pub fn row(number: u8) -> Option<&'static Row> {
    ROWS.iter().find(|row| row.number == number)
}

/// What was found, in words.
pub fn cause(number: u8, case: Case) -> &'static str {
    row(number)
        .and_then(|row| row.cause.of(case))
        .unwrap_or("a number that is not in the table")
}

/// What to do about a number that was met there.
pub fn advice(number: u8, case: Case) -> Option<&'static str> {
    row(number)?.advice.of(case)
}

impl Words {
    /// The words for a case.
    pub fn of(&self, case: Case) -> Option<&'static str> {
        match self {
            Always(words) => Some(words),
            By { file, taking, act } => match case {
                Case::File => *file,
                Case::Taking => *taking,
                Case::Act => *act,
            },
        }
    }

    /// The words for all cases: first those of a file, then what differs.
    pub fn all(&self) -> String {
        let cases = [
            ("file", Case::File),
            ("block", Case::Taking),
            ("act", Case::Act),
        ];
        let mut all: Vec<(Vec<&str>, &str)> = Vec::new();
        for (name, case) in cases {
            let Some(words) = self.of(case) else { continue };
            match all.iter_mut().find(|(_, known)| *known == words) {
                Some((names, _)) => names.push(name),
                None => all.push((vec![name], words)),
            }
        }
        match all.as_slice() {
            [(_, words)] => words.to_string(),
            _ => {
                let texts: Vec<String> = all
                    .iter()
                    .map(|(names, words)| format!("{}: {words}", capital(&names.join(" or "))))
                    .collect();
                texts.join(". ")
            }
        }
    }
}

fn capital(word: &str) -> String {
    let mut letters = word.chars();
    match letters.next() {
        Some(first) => first.to_uppercase().collect::<String>() + letters.as_str(),
        None => String::new(),
    }
}

/// The whole of docs/FIELD-CARD.md.
pub fn field_card() -> String {
    let mut card = String::from(include_str!("card/head.md"));
    card += "\n| No. | Cause | Whose fault | What to do next |\n|---|---|---|---|\n";
    for row in ROWS {
        card += &format!(
            "| {} | {} | {} | {} |\n",
            row.number,
            row.cause.all(),
            row.fault,
            row.advice.all()
        );
    }
    card += "\n";
    card += include_str!("card/tail.md");
    for section in SECTIONS {
        card += &format!(
            "\n## {}: {}\n\n{}",
            section.number, section.title, section.text
        );
    }
    card += "\n";
    card += include_str!("card/mark.md");
    card += "\n";
    card += include_str!("card/merge.md");
    card += "\n";
    card + include_str!("card/example.md")
}
