//! The listing that `readout` prints.

use crate::base::{self, Base};
use crate::block::Header;
use crate::file::{Blocks, blocks_of, check_file};
use crate::held::Places;
use crate::record::Label;
use crate::replay::{Kind, Replay, Room, Source};
use crate::sab2::{self, Parts};
use crate::{Answer, BASE, BASE_ROWS, PER_BLOCK, ROWS, refuse};

/// The longest line of an entry: a trace with a label of 32 quotes, disputed.
const ENTRY_LINE: usize =
    b"trace 7.65535 in 7.65535 \"\" 2025-03-03  disputed\n".len() + 2 * 32 + 32;
/// The longest line of an aside.
const ASIDE_LINE: usize = b"aside 7.65535 reason 25 marks 7.65535 settled\n".len();
/// No listing is longer than two lines, a line for each row of a base, and a line
/// of an entry for each record.
pub const LISTING: usize = (2 + ROWS) * ENTRY_LINE + BASE_ROWS * ASIDE_LINE;

/// Writes the listing of a file of either form, or its line of refusal; answers
/// its length.
pub fn listing(file: &[u8], out: &mut [u8; LISTING]) -> usize {
    let listed = if sab2::begins(file) {
        list_sab2(file, out)
    } else {
        list_sab1(file, out)
    };
    match listed {
        Ok(len) => len,
        Err(refusal) => {
            let mut line = Line::empty();
            line.put(b"refused ");
            line.number(refusal.number as u32);
            line.put(b" at ");
            line.number(refusal.place as u32);
            line.end(out, 0)
        }
    }
}

fn list_sab1(file: &[u8], out: &mut [u8; LISTING]) -> Answer<usize> {
    let blocks = blocks_of(file)?;
    let source = Source {
        base: base::EMPTY,
        store: blocks,
    };
    let mut places = Places::none();
    let mut room = Room::of(PER_BLOCK * blocks.0.len(), true);
    let mut replay = room.replay();
    let (header, held) = check_file(blocks, &mut places, |places, fields, place| {
        replay.step(places, &source, fields, place)
    })?;
    Ok(put_lines(out, &header, held.all, &replay, &source))
}

fn list_sab2(file: &[u8], out: &mut [u8; LISTING]) -> Answer<usize> {
    let parts = Parts::of(file)?;
    let mut made = [0; BASE];
    let base = parts.base(&mut made)?;
    let mut room = Room::of(PER_BLOCK * parts.records.0.len(), base.is_bare());
    let mut replay = room.replay();
    if !replay.enter(&base) {
        return refuse(31);
    }
    let source = Source {
        base,
        store: parts.records,
    };
    let mut places = Places::none();
    let held = parts.check(&base, &mut places, |places, fields, place| {
        replay.step(places, &source, fields, place)
    })?;
    Ok(put_lines(out, &parts.header, held.all, &replay, &source))
}

/// The lines of an accepted file with so many records that are not folded.
fn put_lines(
    out: &mut [u8; LISTING],
    header: &Header,
    records: usize,
    replay: &Replay,
    source: &Source<Blocks>,
) -> usize {
    let mut line = Line::empty();
    line.put(b"archive ");
    line.number(header.archive);
    line.put(b" unit ");
    line.number(header.unit as u32);
    line.put(b" records ");
    line.number(records as u32);
    let mut len = line.end(out, 0);
    line.put(b"seen");
    for unit in 0..8 {
        line.put(b" ");
        line.number(header.vector.count(unit) as u32);
    }
    len = line.end(out, len);
    let disputed = replay.disputed();
    for slot in Replay::slots(&source.base, records) {
        if replay.entries[slot].kind != Kind::Absent {
            put_entry(&mut line, replay, source, slot, disputed[slot]);
            len = line.end(out, len);
        }
    }
    for at in Replay::fate_slots(&source.base, records) {
        if replay.fates[at].reason != 0 {
            put_aside(&mut line, replay, &source.base, at);
            len = line.end(out, len);
        }
    }
    len
}

fn put_entry(
    line: &mut Line,
    replay: &Replay,
    source: &Source<Blocks>,
    slot: usize,
    disputed: bool,
) {
    let entry = &replay.entries[slot];
    let (date, mark) = source.contents(entry.contents.slot);
    let is_trace = entry.kind == Kind::Trace;
    line.put(if is_trace { b"trace " } else { b"folder " });
    line.identity(replay.identities[slot]);
    line.put(b" in ");
    line.identity(replay.identities[entry.folder as usize]);
    line.put(b" \"");
    line.label(source.label(entry.placing.slot));
    line.put(b"\" ");
    let year = u16::from_le_bytes([date[0], date[1]]);
    line.two_digits((year / 100) as u8);
    line.two_digits((year % 100) as u8);
    line.put(b"-");
    line.two_digits(date[2]);
    line.put(b"-");
    line.two_digits(date[3]);
    if is_trace {
        line.put(b" ");
        line.mark(mark);
    }
    if disputed {
        line.put(b" disputed");
    }
}

fn put_aside(line: &mut Line, replay: &Replay, base: &Base, at: usize) {
    let fate = replay.fates[at];
    line.put(b"aside ");
    line.identity(replay.identity_aside(base, at));
    line.put(b" reason ");
    line.number(fate.reason as u32);
    line.put(b" marks ");
    match fate.marks {
        0 => line.put(b"-"),
        marked => line.identity(marked),
    }
    line.put(if fate.settled { b" settled" } else { b" open" });
}

/// A line in the making. A length of eight bits never leaves the 256 bytes, so
/// single bytes are put without a check.
struct Line {
    bytes: [u8; 256],
    len: u8,
}

impl Line {
    fn empty() -> Line {
        Line {
            bytes: [0; 256],
            len: 0,
        }
    }

    #[inline(always)]
    fn byte(&mut self, byte: u8) {
        self.bytes[self.len as usize] = byte;
        self.len = self.len.wrapping_add(1);
    }

    #[inline(always)]
    fn put(&mut self, bytes: &[u8]) {
        let at = self.len as usize;
        self.bytes[at..at + bytes.len()].copy_from_slice(bytes);
        self.len += bytes.len() as u8;
    }

    /// A number in decimal.
    #[inline(always)]
    fn number(&mut self, number: u32) {
        match number {
            0..10 => self.byte(b'0' + number as u8),
            10..100 => self.two_digits(number as u8),
            100..1000 => {
                self.byte(b'0' + (number / 100) as u8);
                self.two_digits((number % 100) as u8);
            }
            _ => self.long_number(number),
        }
    }

    #[cold]
    fn long_number(&mut self, number: u32) {
        self.number(number / 100);
        self.two_digits((number % 100) as u8);
    }

    #[inline(always)]
    fn two_digits(&mut self, number: u8) {
        self.byte(b'0' + number / 10 % 10);
        self.byte(b'0' + number % 10);
    }

    #[inline(always)]
    fn identity(&mut self, identity: u32) {
        self.byte(b'0' + (identity & 7) as u8);
        self.byte(b'.');
        self.number(identity >> 16);
    }

    /// A label, quotes and backslashes with a backslash before them. Without any it is
    /// put whole, and what follows goes over its zeros.
    #[inline(always)]
    fn label(&mut self, label: &Label) {
        let is_escaped = |byte: u8| byte == b'"' || byte == b'\\';
        let count = |test: fn(u8) -> bool| label.iter().map(|byte| test(*byte) as u8).sum::<u8>();
        let letters = count(|byte| byte != 0);
        if count(is_escaped) == 0 {
            self.put(label);
            self.len -= 32 - letters;
            return;
        }
        for byte in &label[..letters.into()] {
            if is_escaped(*byte) {
                self.byte(b'\\');
            }
            self.byte(*byte);
        }
    }

    /// A mark in hexadecimal.
    #[inline(always)]
    fn mark(&mut self, mark: &[u8]) {
        let digit = |half: u8| half + if half < 10 { b'0' } else { b'a' - 10 };
        let mut text = [0; 32];
        for i in 0..16 {
            text[2 * i] = digit(mark[i] >> 4);
            text[2 * i + 1] = digit(mark[i] & 15);
        }
        self.put(&text);
    }

    /// Ends the line behind the listing so far, and empties it.
    #[inline(always)]
    fn end(&mut self, out: &mut [u8; LISTING], len: usize) -> usize {
        self.byte(b'\n');
        let end = len + self.len as usize;
        out[len..end].copy_from_slice(&self.bytes[..self.len as usize]);
        self.len = 0;
        end
    }
}
