//! Plans as text: a line for each event.
//!
//! The text is read and written here; whether a plan is one is the library's
//! answer.

use crate::args::{nearest, number};
use crate::records::quoted;
use sab::{Date, Event, Identity, Mark, Plan, Unit, Wish};
use std::fmt::{Display, Write};
use std::str::FromStr;

/// What is wrong with a text, and where: line and column from 1 on.
#[derive(Debug, PartialEq, Eq)]
pub struct Fault {
    /// The line.
    pub line: usize,
    /// The column of the line, in letters.
    pub column: usize,
    /// What is wrong there.
    pub words: String,
}

type Read<T> = Result<T, Fault>;

/// A word of a line, and where it begins.
#[derive(Debug)]
struct Word {
    column: usize,
    text: String,
}

/// The words of a line, one after another.
struct Words {
    line: usize,
    words: std::vec::IntoIter<Word>,
    /// Where the last word ended.
    column: usize,
}

impl Words {
    /// Words parted by spaces; one between quotes may have spaces. `#` ends the
    /// line.
    fn of(line: usize, text: &str) -> Read<Words> {
        let mut letters = text.chars().enumerate().peekable();
        let mut words = Vec::new();
        while let Some((at, letter)) = letters.next() {
            let fault = |words: &str| Fault {
                line,
                column: at + 1,
                words: words.to_string(),
            };
            let mut word = String::new();
            match letter {
                ' ' | '\t' => continue,
                '#' => break,
                '"' => loop {
                    match letters.next() {
                        Some((_, '"')) => break,
                        Some((_, '\\')) => word.extend(letters.next().map(|(_, letter)| letter)),
                        Some((_, letter)) => word.push(letter),
                        None => return Err(fault("a quote without its second")),
                    }
                },
                _ => {
                    word.push(letter);
                    while let Some((_, letter)) =
                        letters.next_if(|(_, letter)| !matches!(letter, ' ' | '\t' | '#'))
                    {
                        word.push(letter);
                    }
                }
            }
            words.push(Word {
                column: at + 1,
                text: word,
            });
        }
        let column = text.chars().count() + 1;
        Ok(Words {
            line,
            words: words.into_iter(),
            column,
        })
    }

    fn fault(&self, column: usize, words: impl Display) -> Fault {
        Fault {
            line: self.line,
            column,
            words: words.to_string(),
        }
    }

    fn word(&mut self, wanted: &str) -> Read<Word> {
        let missing = self.fault(self.column, format_args!("{wanted} wanted"));
        self.words.next().ok_or(missing)
    }

    fn parsed<T: FromStr<Err: Display>>(&mut self, wanted: &str) -> Read<T> {
        let Word { column, text } = self.word(wanted)?;
        text.parse()
            .map_err(|error| self.fault(column, format_args!("{text}: {error}")))
    }

    fn end(&mut self) -> Read<()> {
        match self.words.next() {
            None => Ok(()),
            Some(Word { column, text }) => {
                Err(self.fault(column, format_args!("{text}: nothing more wanted")))
            }
        }
    }
}

/// The plan of a text.
pub fn compile(text: &str) -> Read<Plan> {
    let mut plan = None;
    for (at, line) in text.lines().enumerate() {
        let mut words = Words::of(at + 1, line)?;
        let Some(word) = words.words.next() else {
            continue;
        };
        match (&mut plan, word.text.as_str()) {
            (None, "archive") => plan = Some(Plan::new(archive(&mut words)?)),
            (None, _) => return Err(words.fault(word.column, "archive NUMBER wanted first")),
            (Some(plan), "act") => plan.push(act(&mut words)?),
            (Some(plan), "pass") => pass(plan, &mut words)?,
            (Some(plan), "block") => plan.push_block(),
            (Some(_), "archive") => return Err(words.fault(word.column, "archive is given twice")),
            (Some(_), other) => {
                let wanted = format_args!("{other}: act, pass or block wanted");
                return Err(words.fault(word.column, wanted));
            }
        }
        words.end()?;
    }
    plan.ok_or(Fault {
        line: 1,
        column: 1,
        words: "archive NUMBER wanted first".to_string(),
    })
}

fn archive(words: &mut Words) -> Read<u32> {
    let Word { column, text } = words.word("NUMBER")?;
    number(&text, 0..=u32::MAX, "archive").map_err(|usage| words.fault(column, usage.0))
}

fn pass(plan: &mut Plan, words: &mut Words) -> Read<()> {
    let from: Unit = words.parsed("a unit")?;
    let Word { column, text } = words.word("the other unit")?;
    let to: Unit = text
        .parse()
        .map_err(|error| words.fault(column, format_args!("{text}: {error}")))?;
    if from == to {
        return Err(words.fault(column, "a unit does not pass to itself"));
    }
    let mut times = 1;
    if let Some(Word { column, text }) = words.words.next() {
        if text != "x" {
            return Err(words.fault(column, format_args!("{text}: x TIMES wanted")));
        }
        let Word { column, text } = words.word("how many times")?;
        times = number(&text, 1..=20_480, "x").map_err(|usage| words.fault(column, usage.0))?;
    }
    (0..times).for_each(|_| plan.push(Event::Pass(from, to)));
    Ok(())
}

const OPERATIONS: [&str; 8] = [
    "make-folder",
    "make-trace",
    "store",
    "rename",
    "move",
    "remove",
    "settle",
    "record",
];

/// What stands behind the words of an operation, in any order.
#[derive(Default)]
struct Clauses {
    folder: Option<Identity>,
    date: Option<Date>,
    mark: Option<Mark>,
}

impl Clauses {
    fn read(words: &mut Words, allowed: &[&str]) -> Read<Clauses> {
        let mut clauses = Clauses::default();
        while let Some(Word { column, text }) = words.words.next() {
            if !allowed.contains(&text.as_str()) {
                let allowed = allowed.join(" or ");
                return Err(words.fault(column, format_args!("{text}: {allowed} wanted")));
            }
            let again = match text.as_str() {
                "in" => clauses.folder.replace(words.parsed("a folder")?).is_some(),
                "on" => clauses.date.replace(words.parsed("a date")?).is_some(),
                _ => clauses.mark.replace(words.parsed("a mark")?).is_some(),
            };
            if again {
                return Err(words.fault(column, format_args!("{text} is given twice")));
            }
        }
        Ok(clauses)
    }

    fn folder(&self) -> Identity {
        self.folder.unwrap_or(Identity::ROOT)
    }

    fn date(&self, words: &Words) -> Read<Date> {
        self.date
            .ok_or_else(|| words.fault(words.column, "on DATE wanted"))
    }

    fn mark(&self, words: &Words) -> Read<Mark> {
        self.mark
            .ok_or_else(|| words.fault(words.column, "mark MARK wanted"))
    }
}

fn act(words: &mut Words) -> Read<Event> {
    let unit: Unit = words.parsed("a unit")?;
    let Word { column, text } = words.word("an operation")?;
    let line = words.line;
    let long = |label: &Word| Fault {
        line,
        column: label.column,
        words: "a label has at most 32 bytes, and no zero".to_string(),
    };
    let wish = match text.as_str() {
        "make-folder" | "make-trace" => {
            let label = words.word("a label")?;
            let trace = text == "make-trace";
            let allowed: &[&str] = if trace { &["in", "on", "mark"] } else { &["in", "on"] };
            let clauses = Clauses::read(words, allowed)?;
            let (folder, date) = (clauses.folder(), clauses.date(words)?);
            let made = if trace {
                Wish::make_trace(folder, &label.text, date, clauses.mark(words)?)
            } else {
                Wish::make_folder(folder, &label.text, date)
            };
            made.map_err(|_| long(&label))?
        }
        "store" => {
            let trace = words.parsed("a trace")?;
            let clauses = Clauses::read(words, &["on", "mark"])?;
            Wish::store(trace, clauses.date(words)?, clauses.mark(words)?)
        }
        "rename" => {
            let entry = words.parsed("an entry")?;
            let label = words.word("a label")?;
            let clauses = Clauses::read(words, &["on"])?;
            Wish::rename(entry, &label.text, clauses.date(words)?)
                .map_err(|_| long(&label))?
        }
        "move" => {
            let entry = words.parsed("an entry")?;
            let label = words.word("a label")?;
            let clauses = Clauses::read(words, &["in", "on"])?;
            Wish::move_to(entry, clauses.folder(), &label.text, clauses.date(words)?)
                .map_err(|_| long(&label))?
        }
        "remove" => {
            let entry = words.parsed("an entry")?;
            Wish::remove(entry, Clauses::read(words, &["on"])?.date(words)?)
        }
        "settle" => {
            let record = words.parsed("a record")?;
            Wish::settle(record, Clauses::read(words, &["on"])?.date(words)?)
        }
        "record" => Wish::from_bytes(record(words)?),
        other => {
            let near = nearest(other, OPERATIONS.into_iter())
                .map(|near| format!(": did you mean {near}?"))
                .unwrap_or_default();
            return Err(words.fault(column, format_args!("no operation {other}{near}")));
        }
    };
    Ok(Event::Act(unit, wish))
}

/// Eighty bytes in hexadecimal.
fn record(words: &mut Words) -> Read<[u8; 80]> {
    let Word { column, text } = words.word("160 hexadecimal digits")?;
    let digits: Option<Vec<u8>> = text
        .chars()
        .map(|digit| digit.to_digit(16).map(|digit| digit as u8))
        .collect();
    match digits {
        Some(digits) if digits.len() == 160 => Ok(std::array::from_fn(|i| {
            16 * digits[2 * i] + digits[2 * i + 1]
        })),
        _ => Err(words.fault(column, "160 hexadecimal digits wanted")),
    }
}

/// The text of a plan; compiled it gives the same bytes.
pub fn show(plan: &Plan) -> String {
    let mut text = format!("archive {}\n", plan.archive());
    let mut full = true;
    for (at, events) in plan.blocks().enumerate() {
        // A block begins by itself behind a full one, and the first one.
        if events.is_empty() || (at > 0 && !full) {
            text += "block\n";
        }
        full = events.len() == 5;
        for event in events {
            // Writing into a string cannot fail.
            let _ = match event {
                Event::Pass(from, to) => writeln!(text, "pass {from} {to}"),
                Event::Act(unit, wish) => writeln!(text, "act {unit} {}", wish_words(*unit, wish)),
            };
        }
    }
    text
}

/// A wish in words that compile to it; where there are none, its bytes.
fn wish_words(unit: Unit, wish: &Wish) -> String {
    let bytes = wish.to_bytes(unit);
    let words = in_words(&bytes).filter(|words| {
        let line = format!("{unit} {words}");
        let read = Words::of(1, &line).and_then(|mut line| act(&mut line));
        read.is_ok_and(|event| matches!(event, Event::Act(_, again) if again.to_bytes(unit) == bytes))
    });
    words.unwrap_or_else(|| {
        let digits: Vec<String> = bytes.iter().map(|byte| format!("{byte:02x}")).collect();
        format!("record {}", digits.concat())
    })
}

fn in_words(record: &[u8; 80]) -> Option<String> {
    let identity = |at: usize| {
        let number = u16::from_le_bytes([record[at + 2], record[at + 3]]);
        format!("{}.{number}", record[at])
    };
    let (object, folder) = (identity(20), identity(24));
    let year = u16::from_le_bytes([record[28], record[29]]);
    let date = format!("on {year:04}-{:02}-{:02}", record[30], record[31]);
    let label = || {
        let end = record[32..64].iter().rposition(|byte| *byte != 0)?;
        let label = str::from_utf8(&record[32..=32 + end]).ok()?;
        (!label.contains(char::is_control)).then(|| quoted(label))
    };
    let mark: Vec<String> = record[64..].iter().map(|byte| format!("{byte:02x}")).collect();
    let mark = mark.concat();
    Some(match record[1] {
        1 => format!("make-folder {} in {folder} {date}", label()?),
        2 => format!("make-trace {} in {folder} {date} mark {mark}", label()?),
        3 => format!("store {object} {date} mark {mark}"),
        4 => format!("remove {object} {date}"),
        5 => format!("rename {object} {} {date}", label()?),
        6 => format!("settle {object} {date}"),
        7 => format!("move {object} {} in {folder} {date}", label()?),
        _ => return None,
    })
}
