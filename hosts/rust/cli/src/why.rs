//! The bytes behind a refusal, in words.
//!
//! The library has judged by then. Here the bytes are only looked at again to
//! say which of them it was; where nothing is found, nothing is said.

use crate::base_rows::{self, Front};
use sab::raw::{BLOCK, WISH};
use sab::{Log, PlanRefusal, Refusal, Unit, Units, Vector};

/// A record's bytes.
pub type Bytes = [u8; WISH];

/// What was wrong with a file, of which so many bytes were read and which is
/// so long.
pub fn of_file(bytes: &[u8], length: Option<u64>, refusal: Refusal) -> Option<String> {
    let place = usize::from(refusal.place);
    match refusal.number {
        2 => Some(length_text(bytes.len(), length)),
        3..=5 => {
            let block = block_at(bytes, place)?;
            let found = block_text(block, refusal.number)?;
            Some(format!("{}: {found}", place_text(place)))
        }
        20 => disagreement(bytes, place),
        31 => base_rows::fault(bytes),
        7 | 8 | 9 | 11 | 26 => {
            let front = Front::of(bytes);
            let all = records(bytes);
            let before: Vec<&Bytes> = all.iter().map(|(_, record)| *record).collect();
            let mut here = all
                .iter()
                .enumerate()
                .filter(|(_, (at, _))| at / BLOCK == place);
            here.find_map(|(i, (at, record))| {
                let fault = record_text(record, &before[..i], &front, refusal.number)?;
                Some(format!(
                    "record {} in bytes {at} to {}: {fault}",
                    identity(record),
                    at + WISH - 1
                ))
            })
        }
        _ => None,
    }
}

/// What was wrong with a plan.
pub fn of_plan(plan: &[u8], refusal: PlanRefusal) -> Option<String> {
    let (blocks, _) = plan.as_chunks::<BLOCK>();
    let block = blocks.get(usize::from(refusal.place));
    match refusal.number {
        2 => Some(length_text(plan.len(), None)),
        3 => Some(format!("it begins with {}", hex(&block?[..4]))),
        5 => {
            let (block, count) = (block?, usize::from(block?[9]));
            if count > 5 {
                return Some(format!("it counts {count} events"));
            }
            let set = |at: &usize| block[*at] != 0;
            let at = [8].into_iter().chain(10..28).chain(28 + 84 * count..508).find(set)?;
            Some(format!("byte {at} is set"))
        }
        6 => Some(format!(
            "it is of archive {}, the first block of archive {}",
            number32(&block?[4..8]),
            number32(&blocks.first()?[4..8])
        )),
        30 => {
            let (events, _) = block?[28..508].as_chunks();
            let mut events = events.iter().take(block?[9].into()).enumerate();
            events.find_map(|(at, event)| Some(format!("event {at}: {}", event_text(event)?)))
        }
        _ => None,
    }
}

/// What makes an event none.
fn event_text(event: &[u8; 84]) -> Option<String> {
    let [kind, unit, other, zero, record @ ..] = event;
    let set = |from: usize, to: usize| (from..to).find(|at| record[*at] != 0);
    let byte = |at: usize| format!("byte {at} of the record is set");
    match kind {
        1 | 2 if *unit > 7 => Some(format!("unit {unit}")),
        1 | 2 if *zero != 0 => Some("the byte behind the units is set".to_string()),
        1 if *other != 0 => Some("an act has another unit".to_string()),
        1 if record[0] != *unit => Some(format!("a record of unit {}", record[0])),
        1 => set(2, 20).map(byte),
        2 if *other > 7 => Some(format!("unit {other}")),
        2 if other == unit => Some(format!("unit {unit} passes to itself")),
        2 => set(0, 80).map(byte),
        _ => Some(format!("kind {kind}")),
    }
}

/// What was wrong with a block that a log was to take.
pub fn of_block(block: &[u8], log: &Log, refusal: Refusal) -> Option<String> {
    match refusal.number {
        2 => Some(length_text(block.len(), None)),
        3..=5 => block_text(block.try_into().ok()?, refusal.number),
        6 => Some(format!(
            "the block is of archive {}, the log of archive {}",
            number32(block.get(4..8)?),
            log.archive()
        )),
        // Which is the next, and what was seen, is told by folded records too.
        8 | 9 if !log.base().is_empty() => None,
        26 => {
            let listed = log.base().units();
            let mut records = in_block(block).iter();
            let unlisted = records.find(|record| !listed.contains(unit_of(record)))?;
            Some(format!("record {}; listed are {listed}", identity(unlisted)))
        }
        27 => {
            let folded = log.base().vector();
            let mut records = in_block(block).iter();
            records.find_map(|record| {
                let seen = Vector::from_bytes(&std::array::from_fn(|i| record[4 + i]));
                let unit = Unit::ALL.into_iter().find(|unit| seen[*unit] < folded[*unit])?;
                let is_new = number16(&record[2..]) > folded[unit_of(record)];
                is_new.then(|| format!("record {} {}", identity(record), behind(unit, &seen, &folded)))
            })
        }
        7..=11 => {
            let mut before: Vec<&Bytes> = log.records().map(sab::Record::as_bytes).collect();
            for record in in_block(block) {
                let held = before.iter().find(|held| same_identity(held, record));
                let fault = match (refusal.number, held) {
                    (10, Some(held)) if *held != record => Some(other_bytes(held, record)),
                    (10, _) | (_, Some(_)) => None,
                    (number, None) => record_text(record, &before, &Front::NONE, number),
                };
                if let Some(fault) = fault {
                    return Some(format!("record {}: {fault}", identity(record)));
                }
                if held.is_none() {
                    before.push(record);
                }
            }
            None
        }
        _ => None,
    }
}

/// What of the records that one has folded a vector lacks.
pub fn of_asked(held: &Vector, folded: &Vector) -> Option<String> {
    let unit = Unit::ALL.into_iter().find(|unit| held[*unit] < folded[*unit])?;
    Some(format!("it {}", behind(unit, held, folded)))
}

/// How far a vector is behind what is folded of a unit.
fn behind(unit: Unit, seen: &Vector, folded: &Vector) -> String {
    format!(
        "has seen {} of unit {unit}, of which {} are folded",
        seen[unit], folded[unit]
    )
}

/// The unit of a record's bytes.
fn unit_of(record: &Bytes) -> Unit {
    Unit::ALL[usize::from(record[0] & 7)]
}

/// What was wrong with a wish of a unit that holds this vector: the first fault
/// of form.
pub fn of_wish(wish: &Bytes, vector: &Vector) -> Option<String> {
    let mut record = *wish;
    let held = vector.counts().get(usize::from(wish[0]))?;
    record[2..4].copy_from_slice(&held.checked_add(1)?.to_le_bytes());
    record[4..20].copy_from_slice(&vector.to_bytes());
    malformed(&record)
}

/// Which byte of a wish's label is a stroke.
pub fn of_stroke(wish: &Bytes) -> Option<String> {
    let at = wish[32..64].iter().position(|byte| *byte == b'/')?;
    Some(format!("byte 2f in the label, letter {}", at + 1))
}

/// The block of a file that lies there.
pub fn block_at(bytes: &[u8], place: usize) -> Option<&[u8; BLOCK]> {
    let (blocks, _) = bytes.as_chunks();
    blocks.get(place)
}

fn place_text(place: usize) -> String {
    let first = place * BLOCK;
    format!("block {place}, bytes {first} to {}", first + BLOCK - 1)
}

/// A number of two bytes.
pub fn number16(bytes: &[u8]) -> u16 {
    u16::from_le_bytes([bytes[0], bytes[1]])
}

fn number32(bytes: &[u8]) -> u32 {
    u32::from_le_bytes([bytes[0], bytes[1], bytes[2], bytes[3]])
}

/// Bytes in hexadecimal.
pub fn hex(bytes: &[u8]) -> String {
    let digits: Vec<String> = bytes.iter().map(|byte| format!("{byte:02x}")).collect();
    digits.join(" ")
}

/// A number with commas between the thousands.
pub fn grouped(number: u64) -> String {
    let digits = number.to_string();
    let mut text = String::new();
    for (at, digit) in digits.chars().enumerate() {
        if at > 0 && (digits.len() - at).is_multiple_of(3) {
            text.push(',');
        }
        text.push(digit);
    }
    text
}

/// One of a thing, or so many.
pub fn counted(count: usize, one: &str) -> String {
    let ending = if count == 1 { "" } else { "s" };
    format!("{count} {one}{ending}")
}

fn length_text(read: usize, length: Option<u64>) -> String {
    let length = length.unwrap_or(read as u64);
    let (blocks, rest) = (length / BLOCK as u64, length % BLOCK as u64);
    match (blocks, rest) {
        (0, 0) => "it is empty".to_string(),
        (0, _) => format!("{}, less than a block", counted(length as usize, "byte")),
        (_, 0) => format!("{} bytes, {} blocks", grouped(length), grouped(blocks)),
        (1, _) => format!(
            "{length} bytes, 1 block and {}",
            counted(rest as usize, "byte")
        ),
        _ => format!(
            "{} bytes, {} blocks and {}",
            grouped(length),
            grouped(blocks),
            counted(rest as usize, "byte")
        ),
    }
}

/// The two sums that are due.
fn sums(block: &[u8; BLOCK]) -> (u16, u16) {
    let (mut first, mut second) = (0u32, 0u32);
    for word in block[..508].chunks(2) {
        first = (first + u32::from(number16(word))) % 65_521;
        second = (second + first) % 65_521;
    }
    (first as u16, second as u16)
}

/// What 3, 4 or 5 found in a block.
fn block_text(block: &[u8; BLOCK], number: u8) -> Option<String> {
    match number {
        3 if block.iter().all(|byte| *byte == 0) => Some("it is all zeros".to_string()),
        3 => Some(format!("it begins with {}", hex(&block[..4]))),
        4 => {
            let due = sums(block);
            Some(format!(
                "its sums are {} {}, due are {} {}",
                number16(&block[508..]),
                number16(&block[510..]),
                due.0,
                due.1
            ))
        }
        _ if block[8] > 7 => Some(format!("unit {}", block[8])),
        _ if block[9] > 6 => Some(format!("count {}", block[9])),
        _ => {
            let begin = 28 + WISH * usize::from(block[9]);
            let at = begin + block[begin..508].iter().position(|byte| *byte != 0)?;
            let what = if block.starts_with(b"SAB2") { "place" } else { "record" };
            Some(format!(
                "byte {at} of it is {:02x} behind {}",
                block[at],
                counted(block[9].into(), what)
            ))
        }
    }
}

/// The records of a block, as many as its count says.
fn in_block(block: &[u8]) -> &[Bytes] {
    let Some(places) = block.get(28..508) else {
        return &[];
    };
    let (records, _) = places.as_chunks();
    &records[..usize::from(block[9]).min(records.len())]
}

/// The records of a file, with their offsets. Rows of an SAB2 file are none.
fn records(bytes: &[u8]) -> Vec<(usize, &Bytes)> {
    let rows = Front::of(bytes).blocks;
    let (blocks, _) = bytes.as_chunks::<BLOCK>();
    let of_block = |(place, block)| {
        let records: &[Bytes] = in_block(block);
        let begin = BLOCK * place + 28;
        let records = records.iter().enumerate();
        records.map(move |(i, record)| (begin + WISH * i, record))
    };
    let blocks = blocks.iter().map(|block| block.as_slice());
    blocks.enumerate().skip(rows).flat_map(of_block).collect()
}

fn identity(record: &Bytes) -> String {
    format!("{}.{}", record[0], number16(&record[2..]))
}

fn same_identity(one: &Bytes, other: &Bytes) -> bool {
    one[0] == other[0] && one[2..4] == other[2..4]
}

fn seen(record: &Bytes, unit: usize) -> u16 {
    number16(&record[4 + 2 * unit..])
}

/// What 7, 8, 9, 11 or 26 found in a record, beside those before it and behind what
/// is folded.
fn record_text(record: &Bytes, before: &[&Bytes], front: &Front, number: u8) -> Option<String> {
    match number {
        7 => malformed(record),
        8 => not_next(record, before, front),
        9 => not_closed(record, before),
        11 => (before.len() >= 512).then(|| "the log has 512".to_string()),
        26 => {
            let listed = Units::from_byte(front.list);
            let unlisted = !listed.contains(unit_of(record));
            unlisted.then(|| format!("listed are {listed}"))
        }
        _ => None,
    }
}

fn other_bytes(held: &Bytes, record: &Bytes) -> String {
    let differing = |(one, other): (&u8, &u8)| one != other;
    let count = held
        .iter()
        .zip(record)
        .filter(|pair| differing(*pair))
        .count();
    format!("held with {} of 80 that differ", counted(count, "byte"))
}

fn count_of(before: &[&Bytes], unit: usize) -> usize {
    let of_unit = |record: &&&Bytes| usize::from(record[0]) == unit;
    before.iter().filter(of_unit).count()
}

fn not_next(record: &Bytes, before: &[&Bytes], front: &Front) -> Option<String> {
    let unit = usize::from(record[0]);
    let number = usize::from(number16(&record[2..]));
    let held = |unit: usize| front.folded[unit] + count_of(before, unit);
    if number != held(unit) + 1 {
        return Some(format!("the next of unit {unit} is {unit}.{}", held(unit) + 1));
    }
    (0..8).find_map(|unit| {
        let (wanted, held) = (seen(record, unit), held(unit));
        let above = usize::from(wanted) > held;
        above.then(|| format!("it has seen {unit}.{wanted}, and {held} of unit {unit} are held"))
    })
}

fn not_closed(record: &Bytes, before: &[&Bytes]) -> Option<String> {
    (0..8).find_map(|unit| {
        let last = seen(record, unit);
        let one = before
            .iter()
            .find(|held| usize::from(held[0]) == unit && number16(&held[2..]) == last)?;
        let other = (0..8).find(|other| seen(one, *other) > seen(record, *other))?;
        Some(format!(
            "it has seen {}, but not {other}.{}, which that one saw",
            identity(one),
            seen(one, other)
        ))
    })
}

/// The first fault of form of a record.
fn malformed(record: &Bytes) -> Option<String> {
    bad_head(record)
        .or_else(|| bad_names(record))
        .or_else(|| bad_date(&record[28..32]))
        .or_else(|| bad_label(record))
        .or_else(|| bad_mark(record))
}

fn bad_head(record: &Bytes) -> Option<String> {
    let (unit, number) = (usize::from(record[0]), number16(&record[2..]));
    if unit > 7 {
        Some(format!("unit {unit}"))
    } else if !(1..=7).contains(&record[1]) {
        Some(format!("operation {}", record[1]))
    } else if number == 0 {
        Some("number 0".to_string())
    } else if seen(record, unit) != number - 1 {
        let own = seen(record, unit);
        Some(format!(
            "it has seen {own} of its own unit, not {}",
            number - 1
        ))
    } else {
        None
    }
}

const RENAME: u8 = 5;
const MOVE: u8 = 7;

fn unused(field: &[u8], what: &str) -> Option<String> {
    let set = field.iter().any(|byte| *byte != 0);
    set.then(|| format!("{what}, which this operation does not use"))
}

fn bad_names(record: &Bytes) -> Option<String> {
    let (object, folder) = (&record[20..24], &record[24..28]);
    let placed = || {
        let root = folder == [0; 4];
        let fault = (!root).then(|| unnamed(folder, record, "folder"));
        fault.flatten()
    };
    let named = || unnamed(object, record, "object");
    match record[1] {
        1 | 2 => unused(object, "an object").or_else(placed),
        MOVE => named().or_else(placed),
        _ => unused(folder, "a folder").or_else(named),
    }
}

/// What is wrong with an identity that a record names.
fn unnamed(field: &[u8], record: &Bytes, what: &str) -> Option<String> {
    let (unit, number) = (usize::from(field[0]), number16(&field[2..]));
    let name = format!("{unit}.{number}");
    if unit > 7 {
        Some(format!("{what} {name}: a unit is 0 to 7"))
    } else if field[1] != 0 {
        Some(format!(
            "{what}: the byte behind its unit is {:02x}",
            field[1]
        ))
    } else if number == 0 {
        Some(format!("{what} {name} is no record"))
    } else if number > seen(record, unit) {
        let held = seen(record, unit);
        let held = counted(held.into(), "record");
        Some(format!("{what} {name}: of unit {unit} {held} can be named"))
    } else {
        None
    }
}

/// What is wrong with a date.
pub fn bad_date(field: &[u8]) -> Option<String> {
    let (year, month, day) = (number16(field), field[2], field[3]);
    let leap = year % 4 == 0 && (year % 100 != 0 || year % 400 == 0);
    let days = match month {
        1 | 3 | 5 | 7 | 8 | 10 | 12 => 31,
        4 | 6 | 9 | 11 => 30,
        2 if leap => 29,
        2 => 28,
        _ => 0,
    };
    let real = (1990..=2199).contains(&year) && (1..=days).contains(&day);
    (!real).then(|| format!("{year:04}-{month:02}-{day:02} is no date from 1990 to 2199"))
}

fn bad_label(record: &Bytes) -> Option<String> {
    let field = &record[32..64];
    match record[1] {
        1 | 2 | RENAME | MOVE => no_label(field),
        _ => unused(field, "a label"),
    }
}

/// What is wrong with a label, 32 bytes.
pub fn no_label(field: &[u8]) -> Option<String> {
    let end = field.iter().position(|byte| *byte == 0).unwrap_or(32);
    let (text, behind) = field.split_at(end);
    if let Some(at) = text.iter().position(|byte| !(0x20..=0x7e).contains(byte)) {
        return Some(format!(
            "byte {:02x} in the label, letter {}: only plain ASCII (20 to 7e) is allowed",
            text[at],
            at + 1
        ));
    }
    if behind.iter().any(|byte| *byte != 0) {
        return Some("the label has bytes behind its end".to_string());
    }
    match (text.first(), text.last()) {
        (None, _) => Some("the label is empty".to_string()),
        (Some(b' '), _) => Some("the label begins with a space".to_string()),
        (_, Some(b' ')) => Some("the label ends with a space".to_string()),
        _ => None,
    }
}

fn bad_mark(record: &Bytes) -> Option<String> {
    match record[1] {
        2 | 3 => None,
        _ => unused(&record[64..], "a mark"),
    }
}

/// A record's rank, as one number.
fn rank(record: &Bytes) -> u32 {
    let sum: u32 = (0..8).map(|unit| u32::from(seen(record, unit))).sum();
    8 * sum + u32::from(record[0])
}

/// What 20 found at a block.
fn disagreement(bytes: &[u8], place: usize) -> Option<String> {
    let (first, block) = (block_at(bytes, 0)?, block_at(bytes, place)?);
    let front = Front::of(bytes);
    let last = bytes.len() / BLOCK - 1;
    let here = place_text(place);
    let own_place = usize::from(number16(&block[10..]));
    let count = block[9];
    let fault = if own_place != place {
        Some(format!("it says place {own_place}"))
    } else if block[8] != first[8] {
        Some(format!(
            "it is of unit {}, block 0 of unit {}",
            block[8], first[8]
        ))
    } else if block[4..8] != first[4..8] {
        Some(format!(
            "it is of archive {}, block 0 of archive {}",
            number32(&block[4..]),
            number32(&first[4..])
        ))
    } else if block[12..28] != first[12..28] {
        Some("its vector is not that of block 0".to_string())
    } else if let Some(fault) = front.row_fault(place, count.into(), place == last) {
        Some(fault)
    } else if count != 6 && place != last && place >= front.blocks {
        Some(format!(
            "it has {} and is not the last",
            counted(count.into(), "record")
        ))
    } else if count == 0 && place > 0 {
        Some("it has no record".to_string())
    } else {
        rank_fault(bytes, place).or_else(|| count_fault(bytes, first))
    };
    fault.map(|fault| format!("{here}: {fault}"))
}

fn rank_fault(bytes: &[u8], place: usize) -> Option<String> {
    records(bytes).windows(2).find_map(|pair| {
        let [(_, last), (at, record)] = pair else {
            return None;
        };
        let falls = at / BLOCK == place && rank(record) <= rank(last);
        falls.then(|| {
            format!(
                "record {} does not rank above {}, which stands before it",
                identity(record),
                identity(last)
            )
        })
    })
}

fn count_fault(bytes: &[u8], first: &[u8; BLOCK]) -> Option<String> {
    let all: Vec<&Bytes> = records(bytes).iter().map(|(_, record)| *record).collect();
    let folded = Front::of(bytes).folded;
    (0..8).find_map(|unit| {
        let says = usize::from(number16(&first[12 + 2 * unit..]));
        let (has, folded) = (count_of(&all, unit), folded[unit]);
        let folded_words = match folded {
            0 => String::new(),
            some => format!(" and {some} folded"),
        };
        (says != has + folded).then(|| {
            format!("the header counts {says} of unit {unit}, the file has {has}{folded_words}")
        })
    })
}
