//! Tables of the small functions.

use crate::chain::blocks_of_six;
use crate::text::{bytes, compared, vector};
use plain::{EMPTY_BASE, LOG};
use workload::{Chance, Mix, log_of};

pub fn all() -> String {
    let mut chance = Chance::new(21);
    let mut text = String::from("# small functions\n");
    compares(&mut chance, &mut text);
    dates(&mut chance, &mut text);
    records(&mut chance, &mut text);
    sums(&mut chance, &mut text);
    logs(&mut chance, &mut text);
    counts(&mut chance, &mut text);
    text
}

fn compares(chance: &mut Chance, text: &mut String) {
    let edges = [0, 1, 2, 255, 256, 32_767, 32_768, 65_534, 65_535];
    for i in 0..64 {
        let first: [u16; 8] = std::array::from_fn(|_| *chance.pick(&edges));
        let mut second = first;
        for _ in 0..i % 4 {
            second[chance.below(8)] = *chance.pick(&edges);
        }
        let said = compared(&plain::compare(&first, &second));
        let (first, second) = (vector(&first), vector(&second));
        *text += &format!("compare {first} {second} = {said}\n");
    }
}

/// What a block counts that is handed out: of logs, and of vectors that no log has.
fn counts(chance: &mut Chance, text: &mut String) {
    for i in 0..32 {
        let most = if i % 2 == 0 { 20 } else { 65_535 };
        let held: [u16; 8] = std::array::from_fn(|_| chance.below(most + 1) as u16);
        let mut asked = held;
        for _ in 0..i % 4 {
            let unit = chance.below(8);
            asked[unit] = asked[unit]
                .saturating_add(chance.below(5) as u16)
                .saturating_sub(3);
        }
        let count = plain::compare(&asked, &held).first_lacks.min(6);
        *text += &format!("count {} {} = {count}\n", vector(&held), vector(&asked));
    }
}

fn dates(chance: &mut Chance, text: &mut String) {
    let mut asked = vec![(0, 0, 0), (65_535, 255, 255), (1989, 12, 31), (1990, 1, 1)];
    asked.extend([
        (2199, 12, 31),
        (2200, 1, 1),
        (2000, 2, 29),
        (2100, 2, 29),
        (2100, 2, 28),
    ]);
    for month in 0..=13 {
        let year = *chance.pick(&[1990, 1992, 2000, 2023, 2024, 2100, 2199]);
        asked.extend([0, 1, 28, 29, 30, 31, 32].map(|day| (year, month, day)));
    }
    for (year, month, day) in asked {
        let answer = plain::is_date(year, month, day) as u8;
        *text += &format!("date {year} {month} {day} = {answer}\n");
    }
}

fn records(chance: &mut Chance, text: &mut String) {
    let good = blocks_of_six(2);
    for record in &good[6..] {
        row(text, record);
        // Each byte that a field begins or ends with, and some between.
        for at in [
            0, 1, 2, 3, 4, 19, 20, 21, 22, 24, 25, 26, 28, 30, 31, 32, 33, 63, 64, 79,
        ] {
            let mut record = *record;
            record[at] = *chance.pick(&[0, 1, 3, 6, 7, 8, 9, 0x1f, 0x20, 0x7e, 0x7f, 0xff]);
            row(text, &record);
        }
    }
    for length in [1, 31, 32] {
        let mut record = good[0];
        record[32..64].fill(0);
        record[32..32 + length].fill(b'~');
        row(text, &record);
        record[31 + length] = b' ';
        row(text, &record);
    }
}

fn row(text: &mut String, record: &[u8; 80]) {
    let answer = plain::well_formed(record) as u8;
    *text += &format!("record {} = {answer}\n", bytes(record));
}

fn sums(chance: &mut Chance, text: &mut String) {
    let mut asked = vec![[0; 512], [0xff; 512]];
    for _ in 0..4 {
        let mut block = [0; 512];
        chance.bytes(&mut block);
        asked.push(block);
    }
    for block in asked {
        let (first, second) = plain::sums(&block);
        *text += &format!("sums {} = {first} {second}\n", bytes(&block[..508]));
    }
}

fn logs(chance: &mut Chance, text: &mut String) {
    let mut row = |log: &[u8]| {
        let answer = plain::sound(log, &EMPTY_BASE) as u8;
        *text += &format!("sound {} = {answer}\n", bytes(log));
    };
    row(&[]);
    row(&[0; LOG]);
    row(&[0; LOG - 1]);
    row(&[0; LOG + 1]);
    let log = log_of(7, 3, 2, &Mix::CONFLICTS, 22);
    row(&log);
    for _ in 0..12 {
        let mut log = log.clone();
        log[chance.below(80 * 8)] ^= 1 << chance.below(8);
        row(&log);
    }
    let mut gap = log.clone();
    gap.copy_within(80 * 6..80 * 7, 80 * 7);
    gap[80 * 6..80 * 7].fill(0);
    row(&gap);
    let mut swapped = log.clone();
    swapped[80 * 5..80 * 7].rotate_left(80);
    row(&swapped);
}
