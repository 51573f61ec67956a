//! A plan of visits: eight units from nothing, what they do and pass on, and
//! how they end.

use crate::base::EMPTY_BASE;
use crate::block::{self, Block};
use crate::bytes::{all_zero, get16, get32};
use crate::calls::{act, hand_out, take};
use crate::vector::compare;
use crate::{BLOCK, LOG, RECORD, RECORDS};

/// Bytes of the eight logs.
pub const LOGS: usize = UNITS * LOG;
/// Bytes lent for what is printed of a plan; it is never longer.
pub const PLAN_TEXT: usize = 1_024;
/// Blocks of the longest plan.
pub const PLAN_BLOCKS: usize = 4_096;

const UNITS: usize = 8;
const EVENT: usize = 4 + RECORD;
const EVENTS: usize = 5;
const FIRST_EVENT: usize = 28;
const SUMS: usize = 508;
const ACT: u8 = 1;
const PASS: u8 = 2;

/// A plan's no: the number and the block's place.
#[derive(Clone, Copy, Debug, PartialEq, Eq)]
pub struct PlanRefusal {
    pub number: u8,
    pub place: u16,
}

/// Tries a plan: leaves the eight logs as they are at its end, and writes what
/// is printed, or the line of a refusal, which leaves the logs. Answers how long
/// the text is.
pub fn try_plan(
    plan: &[u8],
    logs: &mut [u8; LOGS],
    text: &mut [u8; PLAN_TEXT],
) -> (Result<(), PlanRefusal>, usize) {
    let mut out = Text { text, len: 0 };
    let checked = check(plan);
    match checked {
        Ok(()) => {
            logs.fill(0);
            let skipped = run(plan, logs);
            out.round(logs, skipped);
        }
        Err(refusal) => out.refusal(refusal),
    }
    (checked, out.len)
}

/// Every block is one, its events with it, before the next is looked at.
fn check(plan: &[u8]) -> Result<(), PlanRefusal> {
    let (blocks, rest) = plan.as_chunks::<BLOCK>();
    for (k, block) in blocks.iter().take(PLAN_BLOCKS).enumerate() {
        match fault(block, get32(&blocks[0], 4)) {
            0 => (),
            number => {
                return Err(PlanRefusal {
                    number,
                    place: k as u16,
                });
            }
        }
    }
    if blocks.len() > PLAN_BLOCKS || !rest.is_empty() {
        return Err(PlanRefusal {
            number: 2,
            place: 0,
        });
    }
    Ok(())
}

/// The first of 3, 4, 5, 6 and 30 that holds, or 0.
fn fault(block: &Block, archive: u32) -> u8 {
    if block[..4] != *b"PLN1" {
        return 3;
    }
    if block::sums(block) != (get16(block, SUMS), get16(block, SUMS + 2)) {
        return 4;
    }
    let count = block::count(block);
    if count > EVENTS
        || block[8] != 0
        || !all_zero(&block[10..FIRST_EVENT])
        || !all_zero(&block[FIRST_EVENT + EVENT * count..SUMS])
    {
        return 5;
    }
    if get32(block, 4) != archive {
        return 6;
    }
    if !events(block).iter().all(is_event) {
        return 30;
    }
    0
}

fn events(block: &Block) -> &[[u8; EVENT]] {
    &block[FIRST_EVENT..SUMS].as_chunks().0[..block::count(block)]
}

fn is_event(event: &[u8; EVENT]) -> bool {
    let [kind, unit, other, zero, record @ ..] = event;
    *unit < 8
        && *zero == 0
        && match *kind {
            ACT => *other == 0 && record[0] == *unit && all_zero(&record[2..20]),
            PASS => *other < 8 && other != unit && all_zero(record),
            _ => false,
        }
}

/// Does what the blocks say; answers how many acts were skipped.
fn run(plan: &[u8], logs: &mut [u8; LOGS]) -> u32 {
    let (blocks, _) = plan.as_chunks::<BLOCK>();
    let (logs, _) = logs.as_chunks_mut::<LOG>();
    let mut made = 0;
    let mut skipped = 0;
    for block in blocks {
        let archive = get32(block, 4);
        for event in events(block) {
            let [kind, unit, other, _, record @ ..] = event;
            if *kind == PASS {
                pass(logs, archive, *unit, *other);
                continue;
            }
            let log = &mut logs[*unit as usize];
            let done =
                made < RECORDS && act(log, &EMPTY_BASE, &mut [], archive, *unit, record).is_ok();
            made += usize::from(done);
            skipped += u32::from(!done);
        }
    }
    skipped
}

/// One unit hands out to the other's vector, which takes the block. Where the
/// other holds as many of each unit, there is nothing to pass.
fn pass(logs: &mut [[u8; LOG]], archive: u32, from: u8, to: u8) {
    let (ours, asked) = (held(&logs[from as usize]), held(&logs[to as usize]));
    if ours.iter().zip(&asked).all(|(ours, asked)| ours <= asked) {
        return;
    }
    let mut block = [0; BLOCK];
    let handed = hand_out(
        &logs[from as usize],
        &EMPTY_BASE,
        archive,
        from,
        &asked,
        &mut block,
    );
    let taken = take(
        &mut logs[to as usize],
        &EMPTY_BASE,
        &mut [],
        archive,
        to,
        &block,
    );
    debug_assert!(handed.is_ok() && taken.is_ok());
}

/// The record counts of a sound log.
fn held(log: &[u8; LOG]) -> [u16; 8] {
    let (records, _) = log.as_chunks::<RECORD>();
    let mut counts = [0; 8];
    for record in records.iter().take_while(|record| record[1] != 0) {
        counts[record[0] as usize & 7] += 1;
    }
    counts
}

/// Text in the lent bytes.
struct Text<'a> {
    text: &'a mut [u8; PLAN_TEXT],
    len: usize,
}

impl Text<'_> {
    fn put(&mut self, word: &[u8]) {
        self.text[self.len..][..word.len()].copy_from_slice(word);
        self.len += word.len();
    }

    fn number(&mut self, number: u32) {
        if number >= 10 {
            self.number(number / 10);
        }
        self.put(&[b'0' + (number % 10) as u8]);
    }

    /// A word and a number.
    fn say(&mut self, word: &[u8], number: u32) {
        self.put(word);
        self.number(number);
    }

    fn refusal(&mut self, refusal: PlanRefusal) {
        self.say(b"refused ", refusal.number.into());
        self.say(b" at ", refusal.place.into());
        self.put(b"\n");
    }

    fn round(&mut self, logs: &[u8; LOGS], skipped: u32) {
        let (logs, _) = logs.as_chunks::<LOG>();
        let held: [[u16; 8]; UNITS] = core::array::from_fn(|unit| held(&logs[unit]));
        for (unit, counts) in held.iter().enumerate() {
            self.say(b"unit ", unit as u32);
            self.put(b" seen");
            for count in counts {
                self.say(b" ", u32::from(*count));
            }
            self.put(b"\n");
        }
        for low in 0..UNITS {
            for high in low + 1..UNITS {
                self.say(b"pair ", low as u32);
                self.say(b" ", high as u32);
                self.say(b" answer ", compare(&held[low], &held[high]).answer.into());
                self.put(b"\n");
            }
        }
        self.say(b"skipped ", skipped);
        self.put(b"\n");
    }
}
