//! The plain implementation's shortcuts against the paper's words, taken slowly.

use plain::{EMPTY_BASE, LOG, RECORD};
use workload::{Chance, Mix, log_of};

fn seen(record: &[u8]) -> [u16; 8] {
    std::array::from_fn(|i| u16::from_le_bytes([record[4 + 2 * i], record[5 + 2 * i]]))
}

fn number(record: &[u8]) -> u16 {
    u16::from_le_bytes([record[2], record[3]])
}

fn rank(record: &[u8]) -> (u32, u8) {
    (
        seen(record).iter().map(|count| *count as u32).sum(),
        record[0],
    )
}

/// Why a log is not sound.
#[derive(Clone, Copy, Debug, PartialEq, Eq)]
enum Fault {
    Malformed,
    Rank,
    Number,
    Seen,
    Closed,
    Unused,
}

fn fault(log: &[u8]) -> Option<Fault> {
    let (records, _) = log.as_chunks::<RECORD>();
    let used = records
        .iter()
        .take_while(|record| **record != [0; RECORD])
        .count();
    let (held, rest) = records.split_at(used);
    if rest.iter().any(|record| *record != [0; RECORD]) {
        return Some(Fault::Unused);
    }
    for (i, record) in held.iter().enumerate() {
        if !plain::well_formed(record) {
            return Some(Fault::Malformed);
        }
        if i > 0 && rank(record) <= rank(&held[i - 1]) {
            return Some(Fault::Rank);
        }
        let count = |unit: usize| {
            held[..i]
                .iter()
                .filter(|other| other[0] as usize == unit)
                .count()
        };
        if number(record) as usize != count(record[0] as usize) + 1 {
            return Some(Fault::Number);
        }
        let seen_counts = seen(record);
        if (0..8).any(|unit| seen_counts[unit] as usize > count(unit)) {
            return Some(Fault::Seen);
        }
        for (unit, last) in seen_counts
            .iter()
            .enumerate()
            .filter(|(_, count)| **count > 0)
        {
            let find = |other: &&[u8; 80]| other[0] as usize == unit && number(*other) == *last;
            let other = held.iter().find(find).expect("a record within the counts");
            if (0..8).any(|unit| seen(other)[unit] > seen_counts[unit]) {
                return Some(Fault::Closed);
            }
        }
    }
    None
}

#[test]
fn sound_logs() {
    let mut chance = Chance::new(41);
    let mut found = [0; 6];
    for round in 0..6000 {
        let units = 2 + round % 7;
        let mut log = log_of(
            4 + chance.below(30),
            units,
            1 + chance.below(4),
            &[Mix::CONFLICTS, Mix::MOVES][round % 2],
            round as u64,
        );
        assert_eq!(fault(&log), None);
        assert!(plain::sound(&log, &EMPTY_BASE));
        let used = log
            .chunks(RECORD)
            .take_while(|record| number(record) > 0)
            .count();
        for _ in 0..=chance.below(2) {
            let at = RECORD * chance.below(used);
            match chance.below(8) {
                0 => log[at + chance.below(80)] ^= 1 << chance.below(8),
                1 => log.copy_within(at..at + RECORD, LOG - RECORD),
                2 if at + 2 * RECORD <= RECORD * used => {
                    log[at..at + 2 * RECORD].rotate_left(RECORD)
                }
                3 => log[at..LOG].rotate_left(RECORD),
                _ => {
                    let count = at + 4 + 2 * chance.below(units);
                    let moved = if chance.one_in(2) { 1 } else { 255 };
                    log[count] = log[count].wrapping_add(moved);
                }
            }
        }
        let expected = fault(&log);
        assert_eq!(plain::sound(&log, &EMPTY_BASE), expected.is_none(), "{expected:?}");
        if let Some(fault) = expected {
            found[fault as usize] += 1;
        }
    }
    assert!(found.iter().all(|count| *count > 20), "{found:?}");
}

#[test]
fn sums_word_by_word() {
    let mut chance = Chance::new(42);
    let mut blocks = vec![[0; 512], [0xff; 512]];
    for _ in 0..500 {
        let mut block = [0; 512];
        chance.bytes(&mut block);
        blocks.push(block);
    }
    for block in blocks {
        let (mut first, mut second) = (0u32, 0u32);
        for word in block[..508].as_chunks::<2>().0 {
            first = (first + u16::from_le_bytes(*word) as u32) % 65_521;
            second = (second + first) % 65_521;
        }
        assert_eq!(plain::sums(&block), (first as u16, second as u16));
    }
}

#[test]
fn vectors_count_by_count() {
    let mut chance = Chance::new(43);
    let edges = [0, 1, 2, 32_767, 32_768, 32_769, 65_534, 65_535];
    for _ in 0..20_000 {
        let first: [u16; 8] = std::array::from_fn(|_| *chance.pick(&edges));
        let mut second = first;
        for _ in 0..chance.below(3) {
            second[chance.below(8)] = *chance.pick(&edges);
        }
        let at_least = |a: &[u16; 8], b: &[u16; 8]| a.iter().zip(b).all(|(a, b)| a >= b);
        let expected = match (at_least(&first, &second), at_least(&second, &first)) {
            (true, true) => 0,
            (true, false) => 1,
            (false, true) => 2,
            (false, false) => 3,
        };
        let lacks = |a: &[u16; 8], b: &[u16; 8]| -> i64 {
            let more = a.iter().zip(b).map(|(a, b)| i64::from(*b) - i64::from(*a));
            more.filter(|more| *more > 0).sum()
        };
        let compared = plain::compare(&first, &second);
        assert_eq!(compared.answer, expected);
        assert_eq!(i64::from(compared.first_lacks), lacks(&first, &second));
        assert_eq!(i64::from(compared.second_lacks), lacks(&second, &first));
    }
}

#[test]
fn dates_day_by_day() {
    for year in 0..=65_535u16 {
        let (months, days) = if (1980..2210).contains(&year) {
            (255, 255)
        } else {
            (1, 1)
        };
        let leap = year % 4 == 0 && (year % 100 != 0 || year % 400 == 0);
        for month in 0..=months {
            let last = match month {
                1 | 3 | 5 | 7 | 8 | 10 | 12 => 31,
                4 | 6 | 9 | 11 => 30,
                2 => 28 + leap as u8,
                _ => 0,
            };
            for day in 0..=days {
                let expected = (1990..=2199).contains(&year) && (1..=last).contains(&day);
                assert_eq!(
                    plain::is_date(year, month, day),
                    expected,
                    "{year} {month} {day}"
                );
            }
        }
    }
}
