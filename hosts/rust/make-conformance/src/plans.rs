//! Plans of visits: good ones, and each way in which one is refused.

use crate::kit::{Case, changed};
use make_vectors::chain::seal;
use make_vectors::examples::{ROOT, moved, record};
use plain::{BLOCK, LOGS, PLAN_TEXT, try_plan};

type Event = [u8; 84];

/// What is printed of a plan.
fn text(plan: &[u8]) -> String {
    let mut logs = vec![0; LOGS];
    let mut text = [0; PLAN_TEXT];
    let round = logs.first_chunk_mut().expect("eight logs");
    let (_, length) = try_plan(plan, round, &mut text);
    String::from_utf8_lossy(&text[..length]).into_owned()
}

fn case(name: String, shows: &str, plan: Vec<u8>) -> Case {
    Case {
        listing: text(&plan),
        name,
        shows: shows.to_string(),
        file: plan,
    }
}

/// A plan that is accepted, and with so many acts skipped.
fn good(skipped: usize, name: &str, shows: &str, plan: Vec<u8>) -> Case {
    let case = case(format!("good-{name}"), shows, plan);
    let end = format!("skipped {skipped}\n");
    assert!(case.listing.starts_with("unit 0"), "{}", case.name);
    assert!(case.listing.ends_with(&end), "{}", case.name);
    case
}

/// A plan that is refused with a number at a place.
fn refused(number: u8, place: usize, name: &str, shows: &str, plan: Vec<u8>) -> Case {
    let case = case(format!("n{number:02}-{name}"), shows, plan);
    let line = format!("refused {number} at {place}\n");
    assert_eq!(case.listing, line, "{}", case.name);
    case
}

/// An act of a unit: operation, folder or object, label.
fn act(unit: u8, operation: u8, named: (u8, u16), label: &str) -> Event {
    let mark = if operation == 2 { unit + 1 } else { 0 };
    let mut wish = record(unit, &[], operation, named, label, mark, 3);
    wish[2..20].fill(0);
    acting(unit, &wish)
}

fn acting(unit: u8, wish: &[u8; 80]) -> Event {
    let mut event = [0; 84];
    event[..2].copy_from_slice(&[1, unit]);
    event[4..].copy_from_slice(wish);
    event
}

/// A make of a trace in the root.
fn makes(unit: u8, label: &str) -> Event {
    act(unit, 2, ROOT, label)
}

fn pass(from: u8, to: u8) -> Event {
    let mut event = [0; 84];
    event[..3].copy_from_slice(&[2, from, to]);
    event
}

/// A block of archive 7.
fn block(events: &[Event]) -> Vec<u8> {
    let mut block = vec![0; BLOCK];
    block[..4].copy_from_slice(b"PLN1");
    block[4] = 7;
    block[9] = events.len() as u8;
    block[28..28 + 84 * events.len()].copy_from_slice(events.as_flattened());
    seal(&mut block);
    block
}

fn blocks(events: &[Event]) -> Vec<u8> {
    events.chunks(5).flat_map(block).collect()
}

/// The same with bytes changed, and the sums put right.
fn but(events: &[Event], changes: &[(usize, u8)]) -> Vec<u8> {
    let mut block = changed(&block(events), changes);
    seal(&mut block);
    block
}

pub fn all() -> Vec<Case> {
    let mut cases = accepted();
    cases.extend(lengths());
    cases.extend(headers());
    cases.extend(events());
    cases
}

fn accepted() -> Vec<Case> {
    let two = [makes(0, "A"), pass(0, 1)];
    let seven: Vec<Event> = (0..7).map(|i| makes(0, &format!("T{i}"))).collect();
    let full: Vec<Event> = (0..513).map(|i| makes((i % 8) as u8, &format!("T{i}"))).collect();
    let crossing = [
        makes(0, "A"),
        makes(1, "a"),
        pass(0, 1),
        pass(1, 0),
        act(1, 6, (1, 1), ""),
        pass(1, 0),
    ];
    let mut to_itself = moved(0, &[], (0, 1), (0, 1), "B", 3);
    to_itself[2..20].fill(0);
    let skipped = [
        act(0, 1, ROOT, "A"),
        makes(0, "a"),
        makes(0, "A/B"),
        act(0, 9, ROOT, "C"),
        acting(0, &[0; 80]),
        act(0, 4, (1, 1), ""),
        acting(0, &to_itself),
    ];
    vec![
        good(0, "none", "no block: eight empty units, 37 lines", Vec::new()),
        good(0, "empty-block", "a block without events; 4,096 of it print the same, 4,097 `refused 2 at 0`", block(&[])),
        good(
            0,
            "short-blocks",
            "blocks of 0 to 4 events stand anywhere",
            [block(&two[..1]), block(&[]), block(&two[1..])].concat(),
        ),
        good(0, "act-and-pass", "a record is made and passed on", block(&two)),
        good(0, "pass-of-nothing", "a pass that has nothing to pass is no skip", block(&[pass(3, 4)])),
        good(
            0,
            "seven-by-one",
            "seven records lacking: one pass brings six",
            [blocks(&seven), block(&[pass(0, 1)])].concat(),
        ),
        good(
            0,
            "seven-by-two",
            "a second brings the seventh",
            [blocks(&seven), block(&[pass(0, 1), pass(0, 1)])].concat(),
        ),
        good(
            0,
            "around",
            "eight units, each of which passes to the next: the last has heard of all",
            blocks(&(0..8).map(|u| makes(u, "A")).chain((0..7).map(|u| pass(u, u + 1))).collect::<Vec<_>>()),
        ),
        good(
            0,
            "crossing",
            "two makes of one label that crossed, passed both ways; the one that stands aside is settled",
            blocks(&crossing),
        ),
        good(
            6,
            "skipped",
            "acts that are refused are skipped: 15, 24, an operation 9, a record of zeros, 7 for an entry beyond the vector, 25",
            blocks(&skipped),
        ),
        good(
            1,
            "513th",
            "of 513 makes, each unit its own, the last is refused by 11",
            blocks(&full),
        ),
        good(
            0,
            "greatest-archive",
            "archive 4,294,967,295",
            but(&two, &[(4, 255), (5, 255), (6, 255), (7, 255)]),
        ),
    ]
}

fn lengths() -> Vec<Case> {
    let one = block(&[makes(0, "A")]);
    vec![
        refused(2, 0, "part", "a part of a block", one[..511].to_vec()),
        refused(2, 0, "byte", "one byte", vec![80]),
        refused(
            2,
            0,
            "part-behind",
            "a part behind a good block",
            [&one[..], &one[..100]].concat(),
        ),
        refused(
            3,
            0,
            "before-part",
            "a block without letters, and a part behind it: the block comes first",
            [vec![0; BLOCK], vec![0]].concat(),
        ),
    ]
}

fn headers() -> Vec<Case> {
    let act = [makes(0, "A")];
    let one = block(&act);
    let five = [makes(0, "A"), pass(0, 1), pass(0, 2), pass(0, 3), pass(0, 4)];
    let other = but(&act, &[(4, 8)]);
    vec![
        refused(3, 0, "sab1", "the letters SAB1", but(&act, &[(0, b'S'), (1, b'A'), (2, b'B')])),
        refused(3, 1, "second", "the second block has other letters", [&one[..], &but(&act, &[(3, b'2')])].concat()),
        refused(3, 0, "before-4", "other letters and a sum: 3", changed(&one, &[(0, 0)])),
        refused(4, 0, "first-sum", "a changed byte", changed(&one, &[(60, 65)])),
        refused(4, 0, "before-5", "a sum and a count of 6: 4", changed(&one, &[(9, 6)])),
        refused(5, 0, "six", "a count of 6", but(&act, &[(9, 6)])),
        refused(5, 0, "unit", "a unit in the header", but(&act, &[(8, 1)])),
        refused(5, 0, "place", "a place in the header", but(&act, &[(10, 1)])),
        refused(5, 0, "vector", "the last byte of the vector is set", but(&act, &[(27, 1)])),
        refused(5, 0, "behind-one", "the first byte behind the events is set", but(&act, &[(112, 1)])),
        refused(5, 0, "behind-five", "the first byte behind five events is set", but(&five, &[(448, 1)])),
        refused(5, 0, "last-byte", "the last byte before the sums is set", but(&act, &[(507, 1)])),
        refused(
            5,
            1,
            "before-6",
            "of another archive, and a unit in the header: 5",
            [&one[..], &but(&act, &[(4, 8), (8, 1)])].concat(),
        ),
        refused(6, 1, "second", "the second block is of another archive", [&one[..], &other].concat()),
        refused(
            6,
            1,
            "before-30",
            "of another archive, and an event of kind 3: 6",
            [&one[..], &but(&act, &[(4, 8), (28, 3)])].concat(),
        ),
    ]
}

fn events() -> Vec<Case> {
    let act = [makes(0, "A")];
    let two = [pass(0, 1), pass(2, 3)];
    let first = |name, shows, changes: &[(usize, u8)]| refused(30, 0, name, shows, but(&act, changes));
    let passing = |name, shows, changes: &[(usize, u8)]| refused(30, 0, name, shows, but(&two, changes));
    vec![
        first("kind-0", "kind 0", &[(28, 0)]),
        first("kind-3", "kind 3", &[(28, 3)]),
        first("act-unit-8", "an act of unit 8, with its record", &[(29, 8), (32, 8)]),
        first("act-other", "an act with another unit", &[(30, 1)]),
        first("act-zero", "the byte behind the units is set", &[(31, 1)]),
        first("act-record", "an act record of another unit", &[(32, 1)]),
        first("act-number", "a number in an act's record", &[(34, 1)]),
        first("act-seen", "a count in an act's seen", &[(51, 1)]),
        passing("pass-unit-8", "a pass from unit 8", &[(29, 8)]),
        passing("pass-to-8", "a pass to unit 8", &[(30, 8)]),
        passing("pass-itself", "a pass to itself", &[(30, 0)]),
        passing("pass-zero", "the byte behind the units is set", &[(31, 1)]),
        passing("pass-first", "the first byte of a pass's record is set", &[(32, 1)]),
        passing("pass-last", "the last byte of a pass's record is set", &[(111, 1)]),
        passing("second", "the second event passes to itself", &[(114, 2)]),
        refused(
            30,
            0,
            "before-next",
            "an event of the first block, and the letters of the second",
            [but(&act, &[(28, 3)]), vec![0; BLOCK]].concat(),
        ),
    ]
}
