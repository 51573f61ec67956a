//! A call list in the making: each call is run and written down.

use crate::text::{bytes, hash, lent, units, vector};
use library::tree;
use plain::{Answer, EMPTY_BASE, FILE, INDEX, LOG, REPORT, SAB2_FILE, TREE};

/// The log lent to a call.
#[derive(Clone, Copy)]
pub enum Lent<'a> {
    /// The slot's own, with its base.
    Own,
    /// One from outside, with an empty base.
    Outside(&'a [u8]),
}
use Lent::{Outside, Own};

pub struct List {
    text: String,
    pub logs: [Vec<u8>; 8],
    /// The base of each log.
    pub bases: [Vec<u8>; 8],
    /// The index of each log.
    indexes: [Vec<u8>; 8],
    /// Blocks given so far.
    pub given: Vec<Vec<u8>>,
}

/// The number that a call answers.
fn number<T>(answer: &Answer<T>) -> u8 {
    answer.as_ref().map_or_else(|refusal| refusal.number, |_| 0)
}

/// Number and place; only these numbers have a place.
pub fn answer<T>(answer: &Answer<T>) -> String {
    match answer {
        Ok(_) => "0 -".to_string(),
        Err(refusal) => match refusal.number {
            2..=11 | 20 | 24..=31 => format!("{} {}", refusal.number, refusal.place),
            number => format!("{number} -"),
        },
    }
}

impl List {
    pub fn new(remark: &str) -> List {
        List {
            text: format!("# {remark}\n"),
            logs: std::array::from_fn(|_| vec![0; LOG]),
            bases: std::array::from_fn(|_| EMPTY_BASE.to_vec()),
            indexes: std::array::from_fn(|_| vec![0; INDEX]),
            given: Vec::new(),
        }
    }

    /// A line that no call stands in.
    pub fn remark(&mut self, remark: &str) {
        self.line(format!("# {remark}"));
    }

    fn line(&mut self, line: String) {
        self.text += &line;
        self.text.push('\n');
    }

    /// The last word of the list so far.
    pub fn last_answer(&self) -> &str {
        let line = self.text.trim_end();
        line.rsplit(' ').next().unwrap_or_default()
    }

    /// The log and the base of a call, and how the log is written.
    fn lent(&self, slot: usize, log: Lent) -> (Vec<u8>, Vec<u8>, String) {
        match log {
            Own => (self.logs[slot].clone(), self.bases[slot].clone(), "@".to_string()),
            Outside(log) => (log.to_vec(), EMPTY_BASE.to_vec(), bytes(log)),
        }
    }

    /// The vector that a slot holds.
    pub fn vector(&self, slot: usize) -> [u16; 8] {
        plain::vector(&self.logs[slot], &self.bases[slot]).expect("a sound state")
    }

    /// The tree that a slot shows.
    pub fn tree(&self, slot: usize) -> [u8; TREE] {
        let mut tree = [0; TREE];
        plain::show(&self.logs[slot], &self.bases[slot], &mut tree).expect("a sound state");
        tree
    }

    fn keep(&mut self, slot: usize, log: Lent, after: Vec<u8>) {
        if matches!(log, Own) {
            self.logs[slot] = after;
        }
    }

    /// The index that goes with the log of a call; none with one from outside.
    fn index(&mut self, slot: usize, log: Lent) -> &mut [u8] {
        match log {
            Own => &mut self.indexes[slot],
            Outside(_) => &mut [],
        }
    }

    pub fn start(&mut self, slot: usize, log: Lent, archive: u32, unit: u8) -> u8 {
        let (mut after, mut base, word) = self.lent(slot, log);
        let came = plain::start(&mut after, &mut base, self.index(slot, log), archive, unit);
        if matches!(log, Own) {
            self.bases[slot] = base;
        }
        self.line(format!(
            "start {slot} {word} {archive} {unit} = {} {}",
            answer(&came),
            hash(&after)
        ));
        self.keep(slot, log, after);
        number(&came)
    }

    pub fn act(&mut self, slot: usize, log: Lent, archive: u32, unit: u8, wish: &[u8]) -> u8 {
        let (mut after, base, word) = self.lent(slot, log);
        let came = plain::act(&mut after, &base, self.index(slot, log), archive, unit, wish);
        self.line(format!(
            "act {slot} {word} {archive} {unit} {} = {} {}",
            bytes(wish),
            answer(&came),
            hash(&after)
        ));
        self.keep(slot, log, after);
        number(&came)
    }

    pub fn take(&mut self, slot: usize, log: Lent, archive: u32, unit: u8, block: &[u8]) -> u8 {
        let (mut after, base, word) = self.lent(slot, log);
        let came = plain::take(&mut after, &base, self.index(slot, log), archive, unit, block);
        self.line(format!(
            "take {slot} {word} {archive} {unit} {} = {} {}",
            bytes(block),
            answer(&came),
            hash(&after)
        ));
        self.keep(slot, log, after);
        number(&came)
    }

    pub fn hand_out(
        &mut self,
        slot: usize,
        log: Lent,
        archive: u32,
        unit: u8,
        asked: &[u16; 8],
        (length, seed): (usize, u8),
    ) -> u8 {
        let (after, base, word) = self.lent(slot, log);
        let mut block = lent(length, seed);
        let came = plain::hand_out(&after, &base, archive, unit, asked, &mut block);
        let written = came.map_or("-".to_string(), |()| bytes(&block));
        self.line(format!(
            "handout {slot} {word} {archive} {unit} {} {length}*{seed} = {} {} {written}",
            vector(asked),
            answer(&came),
            hash(&after)
        ));
        if came.is_ok() {
            self.given.push(block);
        }
        number(&came)
    }

    pub fn write(
        &mut self,
        slot: usize,
        log: Lent,
        archive: u32,
        unit: u8,
        length: usize,
        seed: u8,
    ) -> u8 {
        let (after, base, word) = self.lent(slot, log);
        let mut file = lent(length, seed);
        let came = plain::write_file(&after, &base, archive, unit, &mut file);
        let written = came.map_or("- -".to_string(), |count| {
            format!("{count} {}", hash(&file))
        });
        self.line(format!(
            "write {slot} {word} {archive} {unit} {length}*{seed} = {} {} {written}",
            answer(&came),
            hash(&after)
        ));
        if let Ok(count) = came {
            self.given
                .extend(file.chunks(512).take(count as usize).map(<[u8]>::to_vec));
        }
        number(&came)
    }

    /// An SAB2 file, which gives no blocks to take.
    pub fn write_sab2(
        &mut self,
        slot: usize,
        log: Lent,
        archive: u32,
        unit: u8,
        length: usize,
        seed: u8,
    ) -> u8 {
        let (after, base, word) = self.lent(slot, log);
        let mut file = lent(length, seed);
        let came = plain::write_sab2(&after, &base, archive, unit, &mut file);
        let written = came.map_or("- -".to_string(), |count| {
            format!("{count} {}", hash(&file))
        });
        self.line(format!(
            "write2 {slot} {word} {archive} {unit} {length}*{seed} = {} {} {written}",
            answer(&came),
            hash(&after)
        ));
        number(&came)
    }

    /// The SAB2 file of a slot.
    fn sab2(&self, slot: usize, archive: u32, unit: u8) -> Vec<u8> {
        let mut file = vec![0; SAB2_FILE];
        let (log, base) = (&self.logs[slot], &self.bases[slot]);
        let count = plain::write_sab2(log, base, archive, unit, &mut file);
        file.truncate(512 * usize::from(count.expect("a sound state")));
        file
    }

    /// The listing of the SAB2 file of a slot.
    pub fn readout2(&mut self, slot: usize, archive: u32, unit: u8) {
        let file = self.sab2(slot, archive, unit);
        let listing = crate::readout::listing(&file);
        let text = String::from_utf8_lossy(&listing);
        let count = text.lines().count();
        self.line(format!("readout2 {slot} {archive} {unit} = {count}"));
        for line in text.lines() {
            self.line(format!("> {line}"));
        }
    }

    /// The way back from the SAB2 file of a slot.
    pub fn back(&mut self, slot: usize, archive: u32, unit: u8) -> u8 {
        let (sab2, mut sab1) = (self.sab2(slot, archive, unit), vec![0; FILE]);
        let came = plain::to_sab1(&sab2, &mut sab1);
        let written = came.map_or("- -".to_string(), |count| {
            format!("{count} {}", hash(&sab1[..512 * usize::from(count)]))
        });
        self.line(format!("back {slot} {archive} {unit} = {} {written}", answer(&came)));
        number(&came)
    }

    /// A row tried: on 0 how far it would be taken, what stops it, the vector and
    /// the entries that become disputed.
    pub fn try_row(&mut self, slot: usize, log: Lent, archive: u32, unit: u8, row: &[u8]) -> u8 {
        let (after, base, word) = self.lent(slot, log);
        let (mut copy, mut tree, mut report) = (vec![0; LOG], vec![0; TREE], [0; REPORT]);
        let came = plain::try_row(
            &after,
            &base,
            archive,
            unit,
            row,
            &mut copy,
            &mut tree,
            &mut report,
        );
        let pair = |at: usize| u16::from_le_bytes([report[at], report[at + 1]]);
        let told = came.map_or("- - - -".to_string(), |()| {
            let counts = std::array::from_fn(|unit| pair(4 + 2 * unit));
            let named: Vec<String> = (0..usize::from(pair(2)))
                .map(|i| format!("{}.{}", report[20 + 4 * i], pair(22 + 4 * i)))
                .collect();
            let named = match named.is_empty() {
                true => "-".to_string(),
                false => named.join(","),
            };
            format!("{} {} {} {named}", report[0], report[1], vector(&counts))
        });
        self.line(format!(
            "try {slot} {word} {archive} {unit} {} = {} {} {told}",
            bytes(row),
            answer(&came),
            hash(&after)
        ));
        number(&came)
    }

    pub fn show(&mut self, slot: usize, log: Lent) -> u8 {
        let (after, base, word) = self.lent(slot, log);
        let came = plain::show(&after, &base, &mut vec![0; TREE]);
        let lines = if came.is_ok() {
            lines(&after, &base)
        } else {
            Vec::new()
        };
        let asides = lines
            .iter()
            .filter(|line| line.starts_with("aside"))
            .count();
        let counts = came.map_or("- -".to_string(), |()| {
            format!("{} {asides}", lines.len() - asides)
        });
        self.line(format!(
            "show {slot} {word} = {} {} {counts}",
            answer(&came),
            hash(&after)
        ));
        for line in lines {
            self.line(format!("> {line}"));
        }
        number(&came)
    }

    /// A fold by a list of units, bit u for unit u: on 0 how many records, the
    /// vector of the base and its tree.
    pub fn fold(&mut self, slot: usize, archive: u32, unit: u8, list: u8) -> u8 {
        let (mut after, mut base, word) = self.lent(slot, Own);
        let came = plain::fold(&mut after, &mut base, archive, unit, list);
        let lines = match came {
            Ok(_) => lines(&vec![0; LOG], &base),
            Err(_) => Vec::new(),
        };
        let asides = lines.iter().filter(|line| line.starts_with("aside"));
        let (asides, all) = (asides.count(), lines.len());
        let told = came.map_or("- - - -".to_string(), |count| {
            let folded = vector(&base_vector(&base));
            format!("{count} {folded} {} {asides}", all - asides)
        });
        self.line(format!(
            "fold {slot} {word} {archive} {unit} {} = {} {} {told}",
            units(list),
            answer(&came),
            hash(&after)
        ));
        for line in lines {
            self.line(format!("> {line}"));
        }
        self.logs[slot] = after;
        self.bases[slot] = base;
        number(&came)
    }

    /// A folder listed: its entries by label.
    pub fn list(&mut self, slot: usize, folder: (u32, u32)) {
        let index = &self.indexes[slot];
        let range = plain::list(index, folder.0, folder.1).expect("an index");
        let rows = index[4..].chunks(40).skip(range.first.into());
        let named: Vec<String> = rows
            .take(range.count.into())
            .map(|row| identity(&row[36..]))
            .collect();
        let named = match named.is_empty() {
            true => "-".to_string(),
            false => named.join(","),
        };
        self.line(format!("list {slot} {}.{} = {named}", folder.0, folder.1));
    }

    /// A label looked up in a folder. No entry has one of more than 32 bytes.
    pub fn find(&mut self, slot: usize, folder: (u32, u32), label: &[u8]) {
        let mut asked = label.to_vec();
        asked.resize(label.len().max(32), 0);
        let found = plain::find(&self.indexes[slot], folder.0, folder.1, &asked);
        let found = found.ok().flatten();
        let digits: String = label.iter().map(|byte| format!("{byte:02x}")).collect();
        self.line(format!(
            "find {slot} {}.{} {} = {}",
            folder.0,
            folder.1,
            if digits.is_empty() { "-" } else { &digits },
            found.map_or("-".to_string(), |(unit, number)| format!("{unit}.{number}"))
        ));
    }

    /// The list with what the slots hold at its end.
    pub fn end(mut self) -> String {
        for slot in 0..8 {
            let (held, base) = (vector(&self.vector(slot)), &self.bases[slot]);
            let (listed, folded) = (units(base[0]), vector(&base_vector(base)));
            let hash = hash(&self.logs[slot]);
            self.line(format!("end {slot} {held} {hash} {listed} {folded}"));
        }
        self.text
    }
}

/// An identity in four bytes, as it is written.
fn identity(bytes: &[u8]) -> String {
    format!("{}.{}", bytes[0], u16::from_le_bytes([bytes[2], bytes[3]]))
}

/// The vector of a base.
fn base_vector(base: &[u8]) -> [u16; 8] {
    std::array::from_fn(|unit| u16::from_le_bytes([base[8 + 2 * unit], base[9 + 2 * unit]]))
}

/// The lines of a tree; those of a file's listing, where there is a file.
fn lines(log: &[u8], base: &[u8]) -> Vec<String> {
    let (mut table, mut file) = (vec![0; TREE], vec![0; FILE]);
    plain::show(log, base, &mut table).expect("a sound state");
    let lines = tree::lines(&table).expect("a tree table");
    let lines: Vec<String> = lines.all().into_iter().cloned().collect();
    if let Ok(count) = plain::write_file(log, base, 0, 0, &mut file) {
        let mut out = [0; plain::LISTING];
        let len = plain::listing(&file[..512 * usize::from(count)], &mut out);
        let text = String::from_utf8_lossy(&out[..len]);
        assert!(text.lines().skip(2).eq(lines.iter()));
    }
    lines
}
