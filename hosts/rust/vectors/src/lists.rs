//! Call lists: eight units, one call a line.

use crate::converts::wrote;
use crate::readout;
use crate::words::{self, Fault, Words, bytes, hash};
use library::{
    Answer, BASE, FILE, INDEX, LOG, Library, REPORT, SAB2_FILE, TREE, Trial, empty_base, tree,
};

/// A log, its base, and the index that is kept with them.
struct Slot {
    log: Vec<u8>,
    base: Vec<u8>,
    index: Vec<u8>,
}

/// The eight units of a list.
pub struct Slots([Slot; 8]);

impl Slots {
    pub fn empty() -> Slots {
        Slots(std::array::from_fn(|_| Slot {
            log: vec![0; LOG],
            base: empty_base(),
            index: vec![0; INDEX],
        }))
    }
}

/// Bytes of no meaning, which a refused call must leave.
pub fn junk(length: usize) -> Vec<u8> {
    (0..length).map(|i| (7 + 31 * i) as u8).collect()
}

/// The number and the place as they are written: only these have a place.
pub fn answer<T>(answer: &Answer<T>) -> [String; 2] {
    match answer {
        Ok(_) => ["0".to_string(), "-".to_string()],
        Err(refusal) => {
            let place = match refusal.number {
                2..=11 | 20 | 24..=31 => refusal.place.to_string(),
                _ => "-".to_string(),
            };
            [refusal.number.to_string(), place]
        }
    }
}

/// The lent bytes are as they were.
pub fn kept(what: &str, after: &[u8], before: &[u8]) -> Result<(), Fault> {
    if after == before {
        Ok(())
    } else {
        Err(format!("refused, but the {what} changed"))
    }
}

/// Runs one call; `shown` are the lines behind it that tell a tree.
pub fn call(
    library: &dyn Library,
    slots: &mut Slots,
    line: &str,
    shown: &[&str],
) -> Result<(), Fault> {
    let mut words = Words::of(line);
    let name = words.word()?;
    let slot: usize = words.number()?;
    let own = slots.0.get_mut(slot).ok_or("no such slot")?;
    match name {
        "end" => return end(library, own, words),
        "list" => return list(library, &own.index, words),
        "find" => return find(library, &own.index, words),
        "readout2" => return readout2(library, own, words, shown),
        "back" => return back(library, own, words),
        _ => (),
    }
    let lent = words.word()?;
    if lent == "@" {
        return call_on(library, own, name, words, shown);
    }
    let mut lent = Slot {
        log: bytes(lent)?,
        base: empty_base(),
        index: junk(INDEX),
    };
    // Of a log that is not sound there is none.
    let _ = library.index(&lent.log, &lent.base, &mut lent.index);
    call_on(library, &mut lent, name, words, shown)
}

fn call_on(
    library: &dyn Library,
    slot: &mut Slot,
    name: &str,
    mut words: Words,
    shown: &[&str],
) -> Result<(), Fault> {
    match name {
        "show" => return show(library, slot, words, shown),
        "fold" => return fold(library, slot, words, shown),
        _ => (),
    }
    let Slot { log, base, index } = slot;
    if !shown.is_empty() {
        return Err("lines of a tree behind another call".to_string());
    }
    let archive = words.number()?;
    let unit = words.number()?;
    let (before, based, listed) = (log.to_vec(), base.to_vec(), index.to_vec());
    let mut came: Vec<String> = Vec::new();
    match name {
        "start" => {
            words.equals()?;
            came.extend(answer(&library.start(log, base, index, archive, unit)));
        }
        "act" => {
            let wish = words.bytes()?;
            words.equals()?;
            came.extend(answer(&library.act(log, base, index, archive, unit, &wish)));
        }
        "take" => {
            let block = words.bytes()?;
            words.equals()?;
            came.extend(answer(&library.take(log, base, index, archive, unit, &block)));
        }
        "handout" => {
            let asked = words.vector()?;
            let lent = words.lent()?;
            words.equals()?;
            let mut block = lent.clone();
            let given = library.hand_out(log, base, archive, unit, &asked, &mut block);
            came.extend(answer(&given));
            came.push(hash(log));
            if given.is_err() {
                kept("block", &block, &lent)?;
                came.push("-".to_string());
            } else {
                came.push(written(words.word_ahead(3)?, &block)?);
            }
        }
        "try" => {
            let row = words.bytes()?;
            words.equals()?;
            came.extend(try_row(library, log, base, archive, unit, &row)?);
        }
        "write" | "write2" => {
            let lent = words.lent()?;
            words.equals()?;
            let mut file = lent.clone();
            let count = if name == "write" {
                library.write_file(log, base, archive, unit, &mut file)
            } else {
                library.write_sab2(log, base, archive, unit, &mut file)
            };
            came.extend(answer(&count));
            came.push(hash(log));
            if let Ok(count) = count {
                came.extend([count.to_string(), hash(&file)]);
            } else {
                kept("file", &file, &lent)?;
                came.extend(["-".to_string(), "-".to_string()]);
            }
        }
        _ => return Err(format!("no call {name}")),
    }
    if came.len() == 2 {
        came.push(hash(log));
    }
    if came[0] != "0" || matches!(name, "handout" | "try" | "write" | "write2") {
        kept("log", log, &before)?;
        kept("index", index, &listed)?;
    } else if fresh(library, log, base)? != *index {
        return Err("the index is not the one made afresh".into());
    }
    if name == "start" && came[0] == "0" {
        kept("base not empty", base, &empty_base())?;
    } else {
        kept("base", base, &based)?;
    }
    words.expect(&came)
}

/// Folds, and tells the base as it is left. The index stays right.
fn fold(
    library: &dyn Library,
    slot: &mut Slot,
    mut words: Words,
    shown: &[&str],
) -> Result<(), Fault> {
    let Slot { log, base, index } = slot;
    let (archive, unit) = (words.number()?, words.number()?);
    let list = words.units()?;
    words.equals()?;
    let (before, based) = (log.to_vec(), base.to_vec());
    let given = library.fold(log, base, archive, unit, list);
    let mut came = answer(&given).to_vec();
    came.push(hash(log));
    let Ok(folded) = given else {
        kept("log", log, &before)?;
        kept("base", base, &based)?;
        came.extend(std::iter::repeat_n("-".to_string(), 4));
        words.expect(&came)?;
        return tree::same(&[], shown);
    };
    if base[0] != list {
        return Err("another list is stored".to_string());
    }
    if fresh(library, log, base)? != *index {
        return Err("the fold has changed the index".to_string());
    }
    // The base alone, with no records behind it.
    let (bare, mut table) = (vec![0; LOG], junk(TREE));
    if let Err(refusal) = library.show(&bare, base, &mut table) {
        return Err(format!("the base is refused: {refusal:?}"));
    }
    let lines = tree::lines(&table)?;
    came.extend([
        folded.to_string(),
        words::vector(&base_vector(base)),
        lines.entries.len().to_string(),
        lines.asides.len().to_string(),
    ]);
    words.expect(&came)?;
    tree::same(&lines.all(), shown)
}

/// The SAB2 file of a slot, with an archive and a unit.
fn sab2(library: &dyn Library, slot: &Slot, words: &mut Words) -> Result<Vec<u8>, Fault> {
    let (archive, unit) = (words.number()?, words.number()?);
    words.equals()?;
    let (given, file) = wrote(SAB2_FILE, |out| {
        library.write_sab2(&slot.log, &slot.base, archive, unit, out)
    })?;
    match given {
        Ok(_) => Ok(file),
        Err(refusal) => Err(format!("not written: refused {}", refusal.number)),
    }
}

/// The state of a slot as an SAB2 file, which must read out so, and back as that
/// state.
fn readout2(
    library: &dyn Library,
    slot: &Slot,
    mut words: Words,
    shown: &[&str],
) -> Result<(), Fault> {
    let file = sab2(library, slot, &mut words)?;
    words.expect(&[shown.len().to_string()])?;
    let expected: String = shown.iter().map(|line| format!("{line}\n")).collect();
    readout::case(library, &file, expected.as_bytes())?;
    let (mut log, mut base) = (junk(LOG), junk(BASE));
    match library.read_file(&mut log, &mut base, &file) {
        Ok(_) if log == slot.log && base == slot.base => Ok(()),
        Ok(_) => Err("the file reads back as another state".to_string()),
        Err(refusal) => Err(format!("written, but refused {}", refusal.number)),
    }
}

/// The way back from the SAB2 file of a slot.
fn back(library: &dyn Library, slot: &Slot, mut words: Words) -> Result<(), Fault> {
    let sab2 = sab2(library, slot, &mut words)?;
    let (given, sab1) = wrote(FILE, |out| library.to_sab1(&sab2, out))?;
    let mut came = answer(&given).to_vec();
    came.extend(match given {
        Ok(blocks) => [blocks.to_string(), hash(&sab1)],
        Err(_) => ["-".to_string(), "-".to_string()],
    });
    words.expect(&came)
}

/// The vector of a base.
fn base_vector(base: &[u8]) -> [u16; 8] {
    std::array::from_fn(|unit| u16::from_le_bytes([base[8 + 2 * unit], base[9 + 2 * unit]]))
}

/// The index of a log and its base, made afresh.
fn fresh(library: &dyn Library, log: &[u8], base: &[u8]) -> Result<Vec<u8>, Fault> {
    let mut index = junk(INDEX);
    match library.index(log, base, &mut index) {
        Ok(()) => Ok(index),
        Err(refusal) => Err(format!("no index: refused {}", refusal.number)),
    }
}

/// The entries that an index lists for a folder.
fn list(library: &dyn Library, index: &[u8], mut words: Words) -> Result<(), Fault> {
    let folder = words.identity()?;
    words.equals()?;
    let range = library.list(index, folder).map_err(|_| "refused")?;
    let (rows, _) = index[4..].as_chunks::<40>();
    let rows = rows.iter().skip(range.first.into()).take(range.count.into());
    let named: Vec<String> = rows.map(|row| identity(&row[36..])).collect();
    let named = if named.is_empty() { "-".to_string() } else { named.join(",") };
    words.expect(&[named])
}

/// The entry of a folder that has a label. One of more than 32 bytes no entry has,
/// and the call refuses it with 1.
fn find(library: &dyn Library, index: &[u8], mut words: Words) -> Result<(), Fault> {
    let folder = words.identity()?;
    let mut label = words.label()?;
    words.equals()?;
    label.resize(label.len().max(32), 0);
    let found = match library.find(index, folder, &label) {
        Ok(found) => found,
        Err(refusal) if refusal.number == 1 && label.len() > 32 => None,
        Err(refusal) => return Err(format!("refused {}", refusal.number)),
    };
    let found = found.map(|(unit, number)| format!("{unit}.{number}"));
    words.expect(&[found.unwrap_or("-".to_string())])
}

/// An identity in four bytes, as it is written.
fn identity(bytes: &[u8]) -> String {
    format!("{}.{}", bytes[0], u16::from_le_bytes([bytes[2], bytes[3]]))
}

/// Tries a row; then takes it into another copy, which must leave the same.
fn try_row(
    library: &dyn Library,
    log: &[u8],
    base: &[u8],
    archive: u32,
    unit: u32,
    row: &[u8],
) -> Result<Vec<String>, Fault> {
    let mut trial = Trial {
        copy: junk(LOG),
        tree: junk(TREE),
        report: junk(REPORT),
    };
    let given = library.try_row(log, base, archive, unit, row, &mut trial);
    let (mut taken, mut index) = (log.to_vec(), junk(INDEX));
    let _ = library.index(log, base, &mut index);
    let listed = index.clone();
    let took = library.take_row(&mut taken, base, &mut index, archive, unit, row);
    let mut came = answer(&given).to_vec();
    came.push(hash(log));
    if given.is_err() {
        kept("copy", &trial.copy, &junk(LOG))?;
        kept("tree", &trial.tree, &junk(TREE))?;
        kept("report", &trial.report, &junk(REPORT))?;
        kept("log", &taken, log)?;
        kept("index", &index, &listed)?;
        if took.err() != given.err() {
            return Err("the take of the row answers otherwise".into());
        }
        came.extend(std::iter::repeat_n("-".to_string(), 4));
        return Ok(came);
    }
    let report = &trial.report;
    let (took, stop) = (took.map(|row| (row.taken, row.stopped)), (report[0], report[1]));
    if took != Ok(stop) || taken != trial.copy {
        return Err("the take of the row leaves another log".into());
    }
    if index != fresh(library, &taken, base)? {
        return Err("the take of the row leaves another index".into());
    }
    let pair = |at: usize| u16::from_le_bytes([report[at], report[at + 1]]);
    let vector = std::array::from_fn(|unit| pair(4 + 2 * unit));
    let named: Vec<String> = (0..usize::from(pair(2)))
        .map(|i| identity(&report[20 + 4 * i..]))
        .collect();
    let named = if named.is_empty() { "-".to_string() } else { named.join(",") };
    came.extend([stop.0.to_string(), stop.1.to_string(), words::vector(&vector), named]);
    Ok(came)
}

/// A block as the list writes it: the expected word itself if it tells the same
/// bytes.
fn written(expected: &str, block: &[u8]) -> Result<String, Fault> {
    if bytes(expected).is_ok_and(|bytes| bytes == block) {
        return Ok(expected.to_string());
    }
    let hex: String = block.iter().map(|byte| format!("{byte:02x}")).collect();
    Ok(format!("{}:{}", block.len(), hex))
}

fn show(
    library: &dyn Library,
    slot: &Slot,
    mut words: Words,
    shown: &[&str],
) -> Result<(), Fault> {
    words.equals()?;
    let lent = junk(TREE);
    let mut table = lent.clone();
    let given = library.show(&slot.log, &slot.base, &mut table);
    let mut came = answer(&given).to_vec();
    came.push(hash(&slot.log));
    if given.is_err() {
        kept("tree", &table, &lent)?;
        came.extend(["-".to_string(), "-".to_string()]);
        words.expect(&came)?;
        return tree::same(&[], shown);
    }
    let lines = tree::lines(&table)?;
    came.extend([
        lines.entries.len().to_string(),
        lines.asides.len().to_string(),
    ]);
    words.expect(&came)?;
    tree::same(&lines.all(), shown)
}

/// The slot's vector and hash at the end of a list; and its list and the vector
/// of its base, where these stand behind.
fn end(library: &dyn Library, slot: &Slot, mut words: Words) -> Result<(), Fault> {
    let counts = match library.vector(&slot.log, &slot.base) {
        Ok(counts) => counts,
        Err(refusal) => return Err(format!("no vector: refused {}", refusal.number)),
    };
    let mut came = vec![words::vector(&counts), hash(&slot.log)];
    if words.word_ahead(2).is_ok() {
        let list = words::units(slot.base[0]);
        came.extend([list, words::vector(&base_vector(&slot.base))]);
    }
    words.expect(&came)
}
