//! SAB2 files of states that fold: written and read back, converted, with every
//! single byte changed, cut after every byte, and changed under right sums.

use crate::study::{End, Plan, Tally, incorrect};
use crate::world::ARCHIVE;
use library::{Answer, FILE, Head, LISTING, Library, Plain, Refusal, SAB2_FILE};
use plain::{BASE, BLOCK, LOG};
use workload::{Chance, Mix, Units};

/// A log and a base.
type State = (Vec<u8>, Vec<u8>);

const MIXES: [Mix; 3] = [Mix::BENCH, Mix::CONFLICTS, Mix::MOVES];

/// A state of three units that acted, met and folded: so many calls.
fn state(seed: u64, calls: usize) -> State {
    let mut chance = Chance::new(seed);
    let mut life = Units::empty(3, ARCHIVE);
    let mix = MIXES[seed as usize % 3];
    for call in 0..calls {
        let unit = chance.below(3);
        life.act(&mut chance, &mix, unit);
        life.pass(unit, chance.below(3));
        if call == 2 * calls / 3 {
            life.fold(0, 0b111).expect("all are listed");
        }
    }
    (life.logs.swap_remove(0), life.bases.swap_remove(0))
}

/// The blocks of a file that a call writes into lent memory, zeros behind them.
fn written(length: usize, call: impl FnOnce(&mut [u8]) -> Answer<u16>) -> Result<Vec<u8>, String> {
    let mut file = vec![0xa5; length];
    match call(&mut file) {
        Ok(blocks) => {
            let rest = file.split_off(BLOCK * usize::from(blocks));
            match rest.iter().all(|byte| *byte == 0) {
                true => Ok(file),
                false => Err("no zeros behind the file".to_string()),
            }
        }
        Err(refusal) if file.iter().all(|byte| *byte == 0xa5) => Err(format!("{refusal:?}")),
        Err(refusal) => Err(format!("{refusal:?}, but bytes changed")),
    }
}

fn file_of(library: &dyn Library, (log, base): &State) -> Result<Vec<u8>, String> {
    written(SAB2_FILE, |file| {
        library.write_sab2(log, base, ARCHIVE, 3, file)
    })
}

/// States written, read back, listed, and converted.
pub fn whole(library: &dyn Library, plan: &Plan) -> Tally {
    let mut tally = Tally::default();
    for round in 0..plan.count(60, 4000) {
        if !tally.goes_on(plan) {
            return tally;
        }
        let calls = [0, 4, 30, 120, 300][round as usize % 5];
        let end = there_and_back(library, &state(31 * plan.seed + round, calls));
        tally.count(|| format!("state {round}"), end);
    }
    tally
}

fn there_and_back(library: &dyn Library, state: &State) -> End {
    let (log, base) = state;
    let file = match file_of(library, state) {
        Ok(file) => file,
        Err(what) => return incorrect(format!("not written: {what}")),
    };
    if file_of(&Plain, state).as_ref() != Ok(&file) {
        return incorrect("another file than the plain one");
    }
    let mut read = Lent::new();
    if read.file(library, &file).is_err() || read.log != *log || read.base != *base {
        return incorrect("not read back as the state");
    }
    let back = written(FILE, |out| library.to_sab1(&file, out));
    let sab1 = written(FILE, |out| library.write_file(log, base, ARCHIVE, 3, out));
    if back != sab1 {
        return incorrect("the way back is not the SAB1 file, or its refusal");
    }
    if listing(library, &file) != listing(&Plain, &file) {
        return incorrect("another listing than the plain one");
    }
    let Ok(sab1) = sab1 else {
        return Ok(base[4..6] != [0, 0]);
    };
    let sab2 = written(SAB2_FILE, |out| library.to_sab2(&sab1, out));
    let again = sab2.and_then(|sab2| written(FILE, |out| library.to_sab1(&sab2, out)));
    match again == Ok(sab1) {
        true => Ok(base[4..6] != [0, 0]),
        false => incorrect("SAB1 to SAB2 and back gives other bytes"),
    }
}

fn listing(library: &dyn Library, file: &[u8]) -> Option<Vec<u8>> {
    let mut out = vec![0xa5; LISTING];
    let length = library.listing_into(file, &mut out)?;
    out.truncate(length);
    Some(out)
}

/// Memory that a file is read into.
struct Lent {
    log: Vec<u8>,
    base: Vec<u8>,
}

impl Lent {
    fn new() -> Lent {
        let pattern = |length: usize| (0..length).map(|i| (5 + 31 * i) as u8).collect();
        Lent {
            log: pattern(LOG),
            base: pattern(BASE),
        }
    }

    fn file(&mut self, library: &dyn Library, file: &[u8]) -> Answer<Head> {
        library.read_file(&mut self.log, &mut self.base, file)
    }

    /// The file must be refused so, and leave all bytes.
    fn refused(&mut self, library: &dyn Library, file: &[u8], number: u8, place: usize) -> End {
        let answer = self.file(library, file).map(drop);
        let before = Lent::new();
        let is_kept = self.log == before.log && self.base == before.base;
        if !is_kept {
            *self = before;
        }
        let place = place as u8;
        match answer == Err(Refusal { number, place }) {
            true if is_kept => Ok(false),
            true => incorrect("refused, but log or base changed"),
            false => incorrect(format!("{answer:?}, not {number} at {place}")),
        }
    }
}

/// What a changed byte gives, and where. In the first letters it changes the form:
/// then the letters, or the sum, or the length are wrong.
fn expected(file: &[u8], place: usize, byte: u8) -> (u8, usize) {
    match place {
        0..4 if file.len() > FILE => (2, 0),
        3 if byte == b'1' => (4, 0),
        _ if place % BLOCK < 4 => (3, place / BLOCK),
        _ => (4, place / BLOCK),
    }
}

/// Every byte of several files changed alone: by three values, in a long run by all.
pub fn changed(library: &dyn Library, plan: &Plan) -> Tally {
    let mut tally = Tally::default();
    let mut lent = Lent::new();
    let sizes: &[usize] = plan.count(&[12, 40], &[4, 12, 40, 120, 300, 600]);
    for (round, calls) in sizes.iter().enumerate() {
        let Ok(good) = file_of(library, &state(plan.seed + round as u64, *calls)) else {
            tally.count(|| format!("file {round}"), incorrect("not written"));
            continue;
        };
        let mut file = good.clone();
        for place in 0..file.len() {
            if !tally.goes_on(plan) {
                return tally;
            }
            let all: Vec<u8> = (1..=255).collect();
            for change in plan.count(&[0x01, 0x80, 0xff][..], &all) {
                let byte = good[place] ^ change;
                file[place] = byte;
                let (number, block) = expected(&good, place, byte);
                let end = lent.refused(library, &file, number, block);
                tally.count(|| format!("file {round}, byte {place} is {byte}"), end);
            }
            // The letters of the other form.
            if place == 3 {
                file[place] = b'1';
                let (number, block) = expected(&good, place, b'1');
                let end = lent.refused(library, &file, number, block);
                tally.count(|| format!("file {round}, letters of SAB1"), end);
            }
            file[place] = good[place];
        }
    }
    tally
}

/// Files cut after every byte: 2, or 20 where whole blocks are left.
pub fn short(library: &dyn Library, plan: &Plan) -> Tally {
    let mut tally = Tally::default();
    let mut lent = Lent::new();
    let sizes: &[usize] = plan.count(&[12, 60], &[4, 12, 40, 120, 300, 600]);
    for (round, calls) in sizes.iter().enumerate() {
        let Ok(good) = file_of(library, &state(plan.seed + round as u64, *calls)) else {
            tally.count(|| format!("file {round}"), incorrect("not written"));
            continue;
        };
        for length in 0..good.len() {
            if !tally.goes_on(plan) {
                return tally;
            }
            // Rows or records are missing at the end, or the last block is no longer
            // the one that may be short.
            let (number, place) = match length > 0 && length % BLOCK == 0 {
                true => (20, length / BLOCK - 1),
                false => (2, 0),
            };
            let end = lent.refused(library, &good[..length], number, place);
            tally.count(|| format!("file {round}, {length} bytes"), end);
        }
    }
    tally
}

/// Changed bytes under right sums: the library says what the plain implementation
/// says, of reading, listing and the way back; what is accepted is written again
/// byte for byte.
pub fn sealed(library: &dyn Library, plan: &Plan) -> Tally {
    let mut tally = Tally::default();
    let mut chance = Chance::new(plan.seed);
    let mut accepted = 0;
    for round in 0..plan.count(6, 60) {
        let Ok(good) = file_of(
            library,
            &state(97 * plan.seed + round, 20 + 10 * (round as usize % 12)),
        ) else {
            tally.count(|| format!("file {round}"), incorrect("not written"));
            continue;
        };
        let blocks = good.len() / BLOCK;
        for _ in 0..plan.count(300, 4000) {
            if !tally.goes_on(plan) {
                return tally;
            }
            let mut file = good.clone();
            for _ in 0..=chance.below(2) {
                let at = match chance.below(6) {
                    0 => BLOCK * chance.below(blocks) + chance.below(28),
                    1 => 28 + chance.below(80),
                    _ => BLOCK * chance.below(blocks) + 28 + chance.below(480),
                };
                file[at] = match chance.below(3) {
                    0 => file[at] ^ 1 << chance.below(8),
                    1 => file[at].wrapping_add(1),
                    _ => chance.below(8) as u8,
                };
            }
            file.chunks_mut(BLOCK).for_each(seal);
            let end = as_plain(library, &file);
            accepted += matches!(end, Ok(true)) as usize;
            tally.count(|| format!("file {round}"), end.map(|_| false));
        }
    }
    if accepted == 0 {
        tally.count(|| "all files".to_string(), incorrect("none was accepted"));
    }
    tally
}

/// Whether the file is accepted, by both alike.
fn as_plain(library: &dyn Library, file: &[u8]) -> End {
    let read = |library: &dyn Library| {
        let mut lent = Lent::new();
        let answer = lent.file(library, file);
        (answer, lent.log, lent.base)
    };
    let (ours, plain) = (read(library), read(&Plain));
    if ours != plain {
        return incorrect(format!("read: {:?}, plain {:?}", ours.0, plain.0));
    }
    if listing(library, file) != listing(&Plain, file) {
        return incorrect("another listing than the plain one");
    }
    let back = |library: &dyn Library| written(FILE, |out| library.to_sab1(file, out));
    if back(library) != back(&Plain) {
        return incorrect("another way back than the plain one");
    }
    let (Ok(head), log, base) = ours else {
        return Ok(false);
    };
    let unit = u32::from(head.unit);
    let again = written(SAB2_FILE, |out| {
        library.write_sab2(&log, &base, head.archive, unit, out)
    });
    match again.as_deref() == Ok(file) || !file.starts_with(b"SAB2") {
        true => Ok(true),
        false => incorrect("written again, the file differs"),
    }
}

/// Writes the sums of a block.
fn seal(block: &mut [u8]) {
    let (first, second) = plain::sums((&*block).try_into().expect("a block"));
    block[508..510].copy_from_slice(&first.to_le_bytes());
    block[510..].copy_from_slice(&second.to_le_bytes());
}
