//! Orders of another maker: which condition fails first.

use crate::kit::{Shown, Written, log_of};
use make_vectors::examples::{ROOT, record};
use make_vectors::text::bytes;
use plain::{EMPTY_BASE, LOG, RECORDS, TREE};

type Record = [u8; 80];

/// An identity, unit and number.
type Id = (u8, u16);

pub fn all() -> Written {
    let mut orders = Orders {
        text: String::new(),
        cases: Vec::new(),
    };
    names(&mut orders);
    seen(&mut orders);
    trees(&mut orders);
    refused(&mut orders);
    full(&mut orders);
    Written {
        name: "order",
        about: "another maker's order",
        text: orders.text,
        cases: orders.cases,
    }
}

struct Orders {
    text: String,
    cases: Vec<Shown>,
}

/// The four bytes of each name.
fn list(names: &[Id]) -> Vec<u8> {
    let name = |(unit, number): &Id| {
        let [low, high] = number.to_le_bytes();
        [*unit, 0, low, high]
    };
    names.iter().flat_map(name).collect()
}

impl Orders {
    /// A list of bytes against the bytes of a log; the words of its line before the
    /// answer.
    fn row(&mut self, expected: Result<u16, u8>, shows: &str, log: &[u8], list: &[u8], words: &str) {
        let (mut ours, mut theirs) = (vec![9; TREE], vec![9; TREE]);
        let came = plain::check_order(log, &EMPTY_BASE, list, &mut ours, &mut theirs)
            .map_err(|refusal| refusal.number);
        assert_eq!(came, expected, "{shows}");
        let (told, answer) = match came {
            Ok(failed) => (format!("0 - {failed}"), failed.to_string()),
            Err(number) => (format!("{number} - -"), format!("refused {number}")),
        };
        self.text += &format!("# {shows}\n{words} = {told}\n");
        let shows = shows.to_string();
        self.cases.push(Shown { shows, answer });
    }

    /// Records by rank, and the names of an order.
    fn order(&mut self, failed: u16, shows: &str, records: &[Record], names: &[Id]) {
        let log = log_of(records);
        let told: Vec<String> = names.iter().map(|(unit, number)| format!("{unit}.{number}")).collect();
        let told = if told.is_empty() { "-".to_string() } else { told.join(",") };
        let words = format!("order {} {told}", bytes(&log));
        self.row(Ok(failed), shows, &log, &list(names), &words);
    }

    /// The same with the bytes of a list.
    fn bytes(&mut self, failed: u16, shows: &str, records: &[Record], list: &[u8]) {
        let log = log_of(records);
        let words = format!("names {} {}", bytes(&log), bytes(list));
        self.row(Ok(failed), shows, &log, list, &words);
    }
}

fn trace(unit: u8, seen: &[u16], label: &str) -> Record {
    record(unit, seen, 2, ROOT, label, 0x11, 3)
}

/// Two traces of two labels, apart.
fn apart() -> Vec<Record> {
    vec![trace(0, &[], "A"), trace(1, &[], "B")]
}

/// 1.1 has seen 0.1, and 2.1 nothing.
fn behind() -> Vec<Record> {
    vec![trace(0, &[], "A"), trace(2, &[], "C"), trace(1, &[1], "B")]
}

/// Two traces of one label, apart.
fn clash() -> Vec<Record> {
    vec![trace(0, &[], "A"), trace(1, &[], "A")]
}

fn names(orders: &mut Orders) {
    let (a, b) = ((0, 1), (1, 1));
    orders.order(0, "an empty log, and no names", &[], &[]);
    orders.order(1, "an empty log, and the root named", &[], &[ROOT]);
    orders.order(0, "two records apart, by rank", &apart(), &[a, b]);
    orders.order(0, "the same, exchanged: the same entries", &apart(), &[b, a]);
    orders.order(1, "no names", &apart(), &[]);
    orders.order(1, "a record missing", &apart(), &[a]);
    orders.order(1, "a record named twice, another missing", &apart(), &[a, a]);
    orders.order(1, "all records, one of them again", &apart(), &[a, b, a]);
    orders.order(1, "all records, and one that is not held", &apart(), &[a, b, (0, 2)]);
    orders.order(1, "one that is not held in the place of one that is", &apart(), &[a, (2, 1)]);
    orders.order(1, "the root", &apart(), &[a, b, ROOT]);
    orders.order(1, "number 0 of unit 1", &apart(), &[a, (1, 0)]);
    orders.order(1, "unit 8", &apart(), &[a, (8, 1)]);
    orders.order(1, "unit 255", &apart(), &[a, (255, 1)]);
    orders.order(1, "number 65535", &apart(), &[a, (1, 65535)]);
    orders.bytes(0, "names by their bytes", &apart(), &list(&[a, b]));
    orders.bytes(1, "a set second byte", &apart(), &[0, 0, 1, 0, 1, 1, 1, 0]);
    for part in 1..4 {
        let list = [&list(&[a, b])[..], &[0; 3][..part]].concat();
        orders.bytes(1, &format!("{part} of the four bytes of a name behind the last one"), &apart(), &list);
    }
    orders.bytes(1, "the last name cut short", &apart(), &list(&[a, b])[..7]);
    let many: Vec<Id> = (1..=RECORDS as u16 + 1).map(|number| (0, number)).collect();
    orders.order(1, "513 names", &apart(), &many);
}

fn seen(orders: &mut Orders) {
    let (a, b, c) = ((0, 1), (1, 1), (2, 1));
    orders.order(0, "one record has seen another, by rank", &behind(), &[a, c, b]);
    orders.order(0, "what it has not seen may follow it", &behind(), &[a, b, c]);
    orders.order(2, "it stands before the one it has seen", &behind(), &[b, a, c]);
    orders.order(2, "with another between", &behind(), &[b, c, a]);
    let own = [trace(0, &[], "A"), trace(0, &[1], "B")];
    orders.order(2, "a record before its unit's last", &own, &[(0, 2), (0, 1)]);
    orders.order(1, "that, and one named twice: the first condition", &own, &[(0, 2), (0, 1), (0, 1)]);
    let aside = [trace(0, &[], "A"), trace(1, &[1], "A")];
    orders.order(2, "before what it has seen, and another tree: the second", &aside, &[b, a]);
}

fn trees(orders: &mut Orders) {
    let (a, b, c) = ((0, 1), (1, 1), (2, 1));
    orders.order(0, "one label twice, by rank", &clash(), &[a, b]);
    orders.order(3, "exchanged: the other trace stands aside", &clash(), &[b, a]);
    orders.order(1, "that, and one named twice: the first condition", &clash(), &[b, a, a]);
    let three = [trace(0, &[], "A"), trace(1, &[], "A"), trace(2, &[], "A")];
    orders.order(0, "two asides exchanged: a set", &three, &[a, c, b]);
    orders.order(3, "three of one label, another one first", &three, &[b, a, c]);
    let stores = [
        trace(0, &[], "A"),
        record(0, &[1], 3, (0, 1), "", 0x22, 4),
        record(1, &[1], 3, (0, 1), "", 0x33, 5),
    ];
    orders.order(3, "two stores apart: the other one acts", &stores, &[(0, 1), (1, 1), (0, 2)]);
    let moved = [
        trace(0, &[], "A"),
        record(0, &[1], 3, (0, 1), "", 0x22, 4),
        record(1, &[1], 5, (0, 1), "B", 0, 5),
    ];
    orders.order(0, "a store and a rename apart: both act, either way", &moved, &[(0, 1), (1, 1), (0, 2)]);
    let removed = [
        trace(0, &[], "A"),
        record(0, &[1], 4, (0, 1), "", 0, 4),
        record(1, &[1], 5, (0, 1), "B", 0, 5),
    ];
    orders.order(3, "a remove and a rename apart: 12 or 17", &removed, &[(0, 1), (1, 1), (0, 2)]);
    let settled = [
        trace(0, &[], "A"),
        trace(1, &[], "A"),
        record(0, &[1], 5, (0, 1), "B", 0, 3),
        record(2, &[0, 1], 6, (1, 1), "", 0, 3),
        trace(0, &[2], "A"),
    ];
    let by_rank = [(0, 1), (1, 1), (0, 2), (2, 1), (0, 3)];
    orders.order(0, "an aside that is settled, by rank", &settled, &by_rank);
    orders.order(
        3,
        "the settled aside marks 0.3 in place of 0.1: nothing else differs",
        &settled,
        &[(0, 1), (0, 2), (0, 3), (1, 1), (2, 1)],
    );
    let late = [
        trace(0, &[], "A"),
        trace(1, &[], "A"),
        record(0, &[1, 1], 6, (1, 1), "", 0, 4),
        record(2, &[1, 1], 5, (0, 1), "B", 0, 5),
    ];
    orders.order(0, "a settle and a rename apart, exchanged", &late, &[(0, 1), (1, 1), (2, 1), (0, 2)]);
}

fn refused(orders: &mut Orders) {
    let two = list(&[(0, 1), (1, 1)]);
    for length in [LOG - 1, LOG + 1] {
        let mut log = log_of(&apart());
        log.resize(length, 0);
        let words = format!("order {} 0.1,1.1", bytes(&log));
        orders.row(Err(1), &format!("a log of {length} bytes"), &log, &two, &words);
    }
    let log = log_of(&[apart()[1], apart()[0]]);
    let words = format!("order {} -", bytes(&log));
    orders.row(Err(19), "a log that is not sound, and no names", &log, &[], &words);
}

/// A full log, of which each record has seen the one before.
fn full(orders: &mut Orders) {
    let records: Vec<Record> = (0..RECORDS as u16).map(|own| trace(0, &[own], &own.to_string())).collect();
    let mut names: Vec<Id> = (1..=RECORDS as u16).map(|number| (0, number)).collect();
    orders.order(0, "512 records, by rank", &records, &names);
    names.swap(510, 511);
    orders.order(2, "the last two exchanged", &records, &names);
    names[511] = names[0];
    orders.order(1, "the last name is the first again", &records, &names);
    let mut names: Vec<Id> = (1..=RECORDS as u16).map(|number| (0, number)).collect();
    names.push((0, 1));
    orders.order(1, "513 names: all by rank, and the first again", &records, &names);
}
