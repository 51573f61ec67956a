//! Tables of the small functions. What an implementation does not offer by
//! itself is asked through its entry points.

use crate::lists::{answer, kept};
use crate::words::{Fault, Words, hash};
use library::{LOG, Library, empty_base};

const MODULUS: i64 = 65_521;

/// Runs one line.
pub fn row(library: &dyn Library, line: &str) -> Result<(), Fault> {
    let mut words = Words::of(line);
    match words.word()? {
        "compare" => {
            let (first, second) = (words.vector()?, words.vector()?);
            words.equals()?;
            let said = library.compare(&first, &second);
            let numbers = [said.answer.into(), said.first_lacks, said.second_lacks];
            // The answer alone, or what each lacks too.
            let told = if words.word_ahead(1).is_ok() { 3 } else { 1 };
            words.expect(&numbers.map(|number| number.to_string())[..told])
        }
        "count" => {
            let (held, asked) = (words.vector()?, words.vector()?);
            words.equals()?;
            let lacked = library.compare(&asked, &held).first_lacks.min(6);
            same(lacked, count_by_hand_out(library, &held, &asked))?;
            words.expect(&[lacked.to_string()])
        }
        "date" => {
            let (year, month, day) = (words.number()?, words.number()?, words.number()?);
            words.equals()?;
            let asked = date_by_act(library, year, month, day);
            same(asked, library.is_date(year, month, day))?;
            words.expect(&[(asked as u8).to_string()])
        }
        "record" => {
            let record: [u8; 80] = words.bytes()?.try_into().map_err(|_| "not 80 bytes")?;
            words.equals()?;
            let asked = record_by_take(library, &record);
            same(asked, library.well_formed(&record))?;
            words.expect(&[(asked as u8).to_string()])
        }
        "sound" => {
            let log = words.bytes()?;
            words.equals()?;
            let (base, mut tree) = (empty_base(), vec![0; library::TREE]);
            let asked = library.show(&log, &base, &mut tree).is_ok();
            same(asked, library.sound(&log, &base))?;
            words.expect(&[(asked as u8).to_string()])
        }
        "sums" => sums(library, words),
        "wish" => wish(library, words),
        "byte" => {
            let byte = words.number()?;
            words.equals()?;
            words.expect(&[(stands_by_act(library, byte) as u8).to_string()])
        }
        name => Err(format!("no table {name}")),
    }
}

/// What an implementation offers agrees with what its entry points tell.
fn same<T: PartialEq + std::fmt::Debug>(asked: T, offered: Option<T>) -> Result<(), Fault> {
    match offered {
        Some(offered) if offered != asked => Err(format!("{offered:?}, but {asked:?} by a call")),
        _ => Ok(()),
    }
}

/// The count of the block that a log with a vector hands out, where such a log
/// fits its bytes: the units make folders, one after the other.
fn count_by_hand_out(library: &dyn Library, held: &[u16; 8], asked: &[u16; 8]) -> Option<u32> {
    if held.iter().map(|count| u32::from(*count)).sum::<u32>() > 512 {
        return None;
    }
    let mut log = [0; LOG];
    for (unit, count) in (0..).zip(held) {
        for number in 1..=*count {
            let mut wish = [0; 80];
            wish[0] = unit;
            wish[1] = 1;
            wish[28..32].copy_from_slice(&[0xe9, 7, 3, 3]);
            let label = format!("{unit}.{number}");
            wish[32..32 + label.len()].copy_from_slice(label.as_bytes());
            library.act(&mut log, &empty_base(), &mut [], 0, unit.into(), &wish).ok()?;
        }
    }
    let mut block = [0; 512];
    library.hand_out(&log, &empty_base(), 0, 0, asked, &mut block).ok()?;
    Some(block[9].into())
}

/// A wish with the date is accepted by an empty log.
fn date_by_act(library: &dyn Library, year: u16, month: u8, day: u8) -> bool {
    let mut wish = [0; 80];
    wish[1] = 1;
    wish[28..30].copy_from_slice(&year.to_le_bytes());
    wish[30] = month;
    wish[31] = day;
    wish[32] = b'a';
    library.act(&mut [0; LOG], &empty_base(), &mut [], 0, 0, &wish).is_ok()
}

/// A block with the record is not refused as malformed by an empty log.
fn record_by_take(library: &dyn Library, record: &[u8; 80]) -> bool {
    let mut block = [0; 512];
    block[..4].copy_from_slice(b"SAB1");
    block[9] = 1;
    block[28..108].copy_from_slice(record);
    seal(&mut block);
    match library.take(&mut [0; LOG], &empty_base(), &mut [], 0, 0, &block) {
        Ok(()) => true,
        Err(refusal) => matches!(refusal.number, 8 | 9),
    }
}

/// A wish with the byte inside its label is accepted by an empty log.
fn stands_by_act(library: &dyn Library, byte: u8) -> bool {
    let mut wish = [0; 80];
    wish[1] = 1;
    wish[28..32].copy_from_slice(&[0xe9, 7, 3, 3]);
    wish[32..35].copy_from_slice(&[b'a', byte, b'a']);
    library.act(&mut [0; LOG], &empty_base(), &mut [], 0, 0, &wish).is_ok()
}

/// An act of a lent log, whatever the log holds.
fn wish(library: &dyn Library, mut words: Words) -> Result<(), Fault> {
    let mut log = words.bytes()?;
    let (archive, unit) = (words.number()?, words.number()?);
    let wish = words.bytes()?;
    words.equals()?;
    let before = log.clone();
    let given = library.act(&mut log, &empty_base(), &mut [], archive, unit, &wish);
    if given.is_err() {
        kept("log", &log, &before)?;
    }
    let [number, place] = answer(&given);
    words.expect(&[number, place, hash(&log)])
}

/// Writes the sums of a block, word by word as the paper says.
fn seal(block: &mut [u8; 512]) {
    let (mut first, mut second) = (0u32, 0u32);
    for word in block[..508].as_chunks::<2>().0 {
        first = (first + u16::from_le_bytes(*word) as u32) % 65_521;
        second = (second + first) % 65_521;
    }
    put_sums(block, [first as i64, second as i64]);
}

fn put_sums(block: &mut [u8; 512], [first, second]: [i64; 2]) {
    block[508..510].copy_from_slice(&(first as u16).to_le_bytes());
    block[510..512].copy_from_slice(&(second as u16).to_le_bytes());
}

/// The sums are asked of a take, which wants the letters SAB1 first. Both sums
/// are linear in the words, so what the letters change is put right.
fn sums(library: &dyn Library, mut words: Words) -> Result<(), Fault> {
    let bytes = words.bytes()?;
    words.equals()?;
    let expected: [i64; 2] = [words.number::<u16>()? as i64, words.number::<u16>()? as i64];
    words.end()?;
    if bytes.len() != 508 {
        return Err("not 508 bytes".to_string());
    }
    let mut block = [0; 512];
    block[..508].copy_from_slice(&bytes);
    if let Some((first, second)) = library.sums(&block)
        && expected != [first as i64, second as i64]
    {
        return Err(format!("{expected:?} expected, {first} {second} came"));
    }
    let word = |bytes: &[u8], i: usize| u16::from_le_bytes([bytes[2 * i], bytes[2 * i + 1]]) as i64;
    let moved = [0, 1].map(|i| word(b"SAB1", i) - word(&bytes, i));
    block[..4].copy_from_slice(b"SAB1");
    let right = [
        (expected[0] + moved[0] + moved[1]).rem_euclid(MODULUS),
        (expected[1] + 254 * moved[0] + 253 * moved[1]).rem_euclid(MODULUS),
    ];
    for (wrong, sums) in [
        (false, right),
        (true, [right[0] ^ 1, right[1]]),
        (true, [right[0], right[1] ^ 1]),
    ] {
        put_sums(&mut block, sums);
        let answer = library.take(&mut [0; LOG], &empty_base(), &mut [], 0, 0, &block);
        if answer.is_err_and(|refusal| refusal.number == 4) != wrong {
            return Err(format!("{expected:?} expected, a take says otherwise"));
        }
    }
    Ok(())
}
