//! The small functions: comparing, dates, records, sums, sound logs.

use crate::blocks::unsound_logs;
use crate::damaged::{MALFORMED, MALFORMED_MOVE, moving};
use crate::kit::{Shown, Written, changed, log_of};
use make_vectors::chain::blocks_of_six;
use make_vectors::examples::paper;
use make_vectors::text::{bytes, compared, vector};
use plain::LOG;

struct Tables {
    text: String,
    cases: Vec<Shown>,
}

impl Tables {
    fn row(&mut self, shows: &str, row: String, answer: String) {
        self.text += &format!("# {shows}\n{row} = {answer}\n");
        self.cases.push(Shown {
            shows: shows.to_string(),
            answer,
        });
    }
}

pub fn all() -> Written {
    let mut tables = Tables {
        text: String::new(),
        cases: Vec::new(),
    };
    compares(&mut tables);
    dates(&mut tables);
    records(&mut tables);
    sums(&mut tables);
    logs(&mut tables);
    distances(&mut tables);
    counts(&mut tables);
    Written {
        name: "tables",
        about: "the small functions",
        text: tables.text,
        cases: tables.cases,
    }
}

impl Tables {
    fn compare(&mut self, answer: &str, shows: &str, first: [u16; 8], second: [u16; 8]) {
        let said = compared(&plain::compare(&first, &second));
        assert_eq!(said, answer, "{shows}");
        let row = format!("compare {} {}", vector(&first), vector(&second));
        self.row(&format!("compare: {shows}"), row, said);
    }
}

fn compares(tables: &mut Tables) {
    let mut row =
        |answer: &str, shows: &str, first, second| tables.compare(answer, shows, first, second);
    row("0 0 0", "zeros", [0; 8], [0; 8]);
    row("0 0 0", "the greatest counts", [65_535; 8], [65_535; 8]);
    row(
        "1 0 1",
        "the first is ahead at the last unit",
        [2, 2, 2, 0, 0, 0, 0, 1],
        [2, 2, 2, 0, 0, 0, 0, 0],
    );
    row(
        "1 0 1",
        "256 against 255: the high byte decides",
        [256, 0, 0, 0, 0, 0, 0, 0],
        [255, 0, 0, 0, 0, 0, 0, 0],
    );
    row(
        "2 2 0",
        "the second is ahead at two units",
        [1, 1, 0, 0, 0, 0, 0, 0],
        [2, 1, 0, 1, 0, 0, 0, 0],
    );
    row(
        "3 1 1",
        "both are ahead",
        [2, 1, 1, 0, 0, 0, 0, 0],
        [1, 2, 1, 0, 0, 0, 0, 0],
    );
}

fn distances(tables: &mut Tables) {
    let mut row =
        |answer: &str, shows: &str, first, second| tables.compare(answer, shows, first, second);
    row(
        "3 5 1",
        "a lead of one unit makes up for nothing, and the last unit counts",
        [2, 1, 0, 0, 0, 0, 0, 0],
        [1, 4, 0, 0, 0, 0, 0, 2],
    );
    row(
        "3 1 5",
        "the same, exchanged",
        [1, 4, 0, 0, 0, 0, 0, 2],
        [2, 1, 0, 0, 0, 0, 0, 0],
    );
    row(
        "2 65536 0",
        "a number above 16 bits",
        [0; 8],
        [65_535, 1, 0, 0, 0, 0, 0, 0],
    );
    row("2 524280 0", "the greatest number", [0; 8], [65_535; 8]);
}

fn counts(tables: &mut Tables) {
    let mut row = |answer: u32, shows: &str, held: [u16; 8], asked: [u16; 8]| {
        let count = plain::compare(&asked, &held).first_lacks.min(6);
        assert_eq!(count, answer, "{shows}");
        let row = format!("count {} {}", vector(&held), vector(&asked));
        tables.row(&format!("count: {shows}"), row, count.to_string());
    };
    let held = [4, 0, 3, 0, 0, 0, 0, 2];
    row(0, "nothing is lacked", held, held);
    row(0, "the asked vector is ahead", held, [9; 8]);
    row(
        5,
        "five are lacked, and unit 1 is ahead",
        held,
        [1, 7, 3, 0, 0, 0, 0, 0],
    );
    row(6, "six are lacked", held, [1, 0, 0, 0, 0, 0, 0, 2]);
    row(6, "nine are lacked", held, [0; 8]);
}

fn dates(tables: &mut Tables) {
    let mut row = |answer: bool, shows: &str, (year, month, day): (u16, u8, u8)| {
        assert_eq!(plain::is_date(year, month, day), answer, "{shows}");
        let row = format!("date {year} {month} {day}");
        tables.row(&format!("date: {shows}"), row, (answer as u8).to_string());
    };
    row(true, "the first", (1990, 1, 1));
    row(false, "the day before it", (1989, 12, 31));
    row(true, "the last", (2199, 12, 31));
    row(false, "the day behind it", (2200, 1, 1));
    row(true, "a year that divides by 4", (2024, 2, 29));
    row(false, "a year that does not", (2023, 2, 29));
    row(false, "a year that divides by 100", (2100, 2, 29));
    row(true, "a year that divides by 400", (2000, 2, 29));
    row(false, "never the 30th", (2000, 2, 30));
    row(true, "the 30th in a month of 30 days", (2025, 11, 30));
    row(false, "the 31st there", (2025, 11, 31));
    row(true, "the 31st in a month of 31 days", (2025, 8, 31));
    row(false, "the 32nd", (2025, 8, 32));
    row(false, "month 0", (2025, 0, 1));
    row(false, "month 13", (2025, 13, 1));
    row(false, "day 0", (2025, 1, 0));
    row(false, "zeros", (0, 0, 0));
}

fn records(tables: &mut Tables) {
    let good = &blocks_of_six(2)[6..];
    let mut row = |answer: bool, shows: &str, record: &[u8]| {
        let record: &[u8; 80] = record.try_into().expect("a record");
        assert_eq!(plain::well_formed(record), answer, "{shows}");
        let row = format!("record {}", bytes(record));
        tables.row(&format!("record: {shows}"), row, (answer as u8).to_string());
    };
    let names = [
        "a make folder",
        "a make trace",
        "a store",
        "a rename",
        "a remove",
        "a settle",
    ];
    for (name, record) in names.iter().zip(good) {
        row(true, name, record);
    }
    for (_, shows, record, changes) in MALFORMED {
        row(false, shows, &changed(&good[*record], changes));
    }
    let [_, _, _, good] = moving();
    row(true, "a move", &good);
    let root = changed(&good, &[(26, 0)]);
    row(true, "a move into the root", &root);
    row(
        true,
        "a move whose folder is its object: the fit is judged later",
        &changed(&good, &[(26, 2)]),
    );
    for (_, shows, changes) in MALFORMED_MOVE {
        row(false, shows, &changed(&good, changes));
    }
}

fn sums(tables: &mut Tables) {
    let mut row = |shows: &str, body: [u8; 508]| {
        let mut block = [0; 512];
        block[..508].copy_from_slice(&body);
        let (first, second) = plain::sums(&block);
        let row = format!("sums {}", bytes(&body));
        tables.row(&format!("sums: {shows}"), row, format!("{first} {second}"));
    };
    let mut letters = [0; 508];
    letters[..4].copy_from_slice(b"SAB1");
    let first: [u8; 508] = std::array::from_fn(|i| (i == 0) as u8);
    let last: [u8; 508] = std::array::from_fn(|i| (i == 507) as u8);
    let modulus: [u8; 508] = std::array::from_fn(|i| match i {
        0 => 0xf1,
        1 => 0xff,
        _ => 0,
    });
    row("zeros", [0; 508]);
    row("the worked sum of docs/FORMAT.md", letters);
    row("1 in the first word: it counts 254 times", first);
    row("256 in the last word: it counts once", last);
    row("65521 in the first word is 0", modulus);
    row("all ones", [0xff; 508]);
}

fn logs(tables: &mut Tables) {
    let mut row = |answer: bool, shows: &str, log: &[u8]| {
        assert_eq!(plain::sound(log, &plain::EMPTY_BASE), answer, "{shows}");
        let row = format!("sound {}", bytes(log));
        tables.row(&format!("sound: {shows}"), row, (answer as u8).to_string());
    };
    row(true, "an empty log", &[0; LOG]);
    row(true, "three records", &log_of(&paper()));
    row(false, "a log one byte short", &[0; LOG - 1]);
    row(false, "a log one byte long", &[0; LOG + 1]);
    row(
        false,
        "a log with a byte in its last place",
        &changed(&log_of(&paper()), &[(LOG - 1, 1)]),
    );
    for (what, log) in unsound_logs() {
        row(false, &format!("a log with {what}"), &log);
    }
}
