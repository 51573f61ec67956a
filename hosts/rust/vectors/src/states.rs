//! States: a list, a base and a log written out, and questions to them.

use crate::lists::{answer, junk, kept};
use crate::orders;
use crate::words::{Fault, Words, hash};
use library::{BASE, LOG, Library, TREE};

const ENTRIES: usize = 24;
const ASIDES: usize = ENTRIES + ROWS * ENTRY;
const ROWS: usize = 512;
const ENTRY: usize = 72;
const ASIDE: usize = 12;

/// A state as it is laid into memory.
pub struct State {
    log: Vec<u8>,
    base: Vec<u8>,
    entries: usize,
    asides: usize,
    /// The layout has room for all of it.
    laid: bool,
}

impl State {
    pub fn none() -> State {
        State {
            log: vec![0; LOG],
            base: vec![0; BASE],
            entries: 0,
            asides: 0,
            laid: true,
        }
    }

    /// Reads a line that tells of the state.
    pub fn line(&mut self, line: &str) -> Result<(), Fault> {
        let mut words = Words::of(line);
        match words.word()? {
            "state" => *self = State::none(),
            "units" => self.base[0] = words.units()?,
            "vector" => {
                for (place, count) in self.base[8..24].chunks_mut(2).zip(words.vector()?) {
                    place.copy_from_slice(&count.to_le_bytes());
                }
            }
            "entry" => self.entry(words)?,
            "aside" => self.aside(words)?,
            "log" => self.log = words.bytes()?,
            name => return Err(format!("no line {name} of a state")),
        }
        Ok(())
    }

    fn entry(&mut self, mut words: Words) -> Result<(), Fault> {
        let mut row = [0; ENTRY];
        row[0] = match words.word()? {
            "folder" => 1,
            "trace" => 2,
            kind => return Err(format!("{kind}: no kind")),
        };
        self.put_identity(&mut row[4..8], words.identity()?);
        self.put_identity(&mut row[8..12], words.identity()?);
        let label = words.label()?;
        match row[24..56].get_mut(..label.len()) {
            Some(place) => place.copy_from_slice(&label),
            None => self.laid = false,
        }
        self.put_identity(&mut row[12..16], words.identity()?);
        self.put_identity(&mut row[16..20], words.identity()?);
        row[20..24].copy_from_slice(&date(words.word()?)?);
        let mark = words.label()?;
        row[56..].copy_from_slice(mark.get(..16).ok_or("a short mark")?);
        match self.base[ENTRIES..ASIDES].chunks_mut(ENTRY).nth(self.entries) {
            Some(place) => place.copy_from_slice(&row),
            None => self.laid = false,
        }
        self.entries += 1;
        self.base[2..4].copy_from_slice(&(self.entries as u16).to_le_bytes());
        Ok(())
    }

    fn aside(&mut self, mut words: Words) -> Result<(), Fault> {
        let mut row = [0; ASIDE];
        self.put_identity(&mut row[..4], words.identity()?);
        row[4] = words.number()?;
        if words.word_ahead(0)? == "-" {
            words.word()?;
        } else {
            self.put_identity(&mut row[8..], words.identity()?);
        }
        row[5] = match words.word()? {
            "open" => 1,
            "settled" => 2,
            state => return Err(format!("{state}: no state")),
        };
        match self.base[ASIDES..].chunks_mut(ASIDE).nth(self.asides) {
            Some(place) => place.copy_from_slice(&row),
            None => self.laid = false,
        }
        self.asides += 1;
        self.base[4..6].copy_from_slice(&(self.asides as u16).to_le_bytes());
        Ok(())
    }

    /// An identity in four bytes, if it goes in there.
    fn put_identity(&mut self, place: &mut [u8], (unit, number): (u32, u32)) {
        let Ok(number) = u16::try_from(number) else {
            self.laid = false;
            return;
        };
        place[0] = unit as u8;
        place[2..4].copy_from_slice(&number.to_le_bytes());
    }

    /// Asks the state one question.
    pub fn ask(&self, library: &dyn Library, question: &str) -> Result<(), Fault> {
        let mut words = Words::of(question);
        let name = words.word()?;
        // What cannot be laid out breaks the layout: 19 is right, and nothing more
        // is asked.
        if !self.laid {
            return Ok(());
        }
        let (mut log, mut base) = (self.log.clone(), self.base.clone());
        let mut came: Vec<String> = Vec::new();
        let is_base_kept = if name == "show" {
            words.equals()?;
            let mut tree = junk(TREE);
            let shown = library.show(&log, &base, &mut tree);
            if shown.is_err() {
                kept("tree", &tree, &junk(TREE))?;
            }
            came.extend(answer(&shown));
            true
        } else if name == "order" {
            let list = words.names()?;
            words.equals()?;
            came.extend(orders::checked(library, &log, &base, &list)?);
            true
        } else {
            let (archive, unit) = (words.number()?, words.number()?);
            let mut is_kept = true;
            let given = match name {
                "act" => {
                    let wish = words.bytes()?;
                    answer(&library.act(&mut log, &base, &mut [], archive, unit, &wish))
                }
                "take" => {
                    let block = words.bytes()?;
                    answer(&library.take(&mut log, &base, &mut [], archive, unit, &block))
                }
                "handout" => {
                    let (asked, mut block) = (words.vector()?, junk(512));
                    answer(&library.hand_out(&log, &base, archive, unit, &asked, &mut block))
                }
                "fold" => {
                    let list = words.units()?;
                    let folded = library.fold(&mut log, &mut base, archive, unit, list);
                    is_kept = folded.is_err();
                    answer(&folded)
                }
                _ => return Err(format!("no question {name}")),
            };
            words.equals()?;
            came.extend(given);
            came.push(hash(&log));
            is_kept
        };
        if came[0] != "0" {
            kept("log", &log, &self.log)?;
        }
        if is_base_kept {
            kept("base", &base, &self.base)?;
        }
        words.expect(&came)
    }
}

/// A date, `2025-03-03`, in four bytes.
fn date(word: &str) -> Result<[u8; 4], Fault> {
    let fault = || format!("{word}: no date");
    let parts: Vec<u16> = word
        .split('-')
        .map(|part| part.parse().map_err(|_| fault()))
        .collect::<Result<_, Fault>>()?;
    let [year, month, day] = parts[..] else {
        return Err(fault());
    };
    let [low, high] = year.to_le_bytes();
    Ok([low, high, month as u8, day as u8])
}
