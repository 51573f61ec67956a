//! A plan of visits, tried from nothing: who ends with what.

use crate::{Answer, Log, Unit, Wish, in_words, raw};
use std::error::Error;
use std::fmt;

const EVENT: usize = 84;
const EVENTS: usize = 5;
const FIRST_EVENT: usize = 28;
const SUMS: usize = 508;

/// What happens in a plan.
#[derive(Clone, Copy, Debug, PartialEq, Eq, Hash)]
pub enum Event {
    /// A unit makes a record; it is skipped if it does not fit.
    Act(Unit, Wish),
    /// A unit hands out one block to another, which takes it.
    Pass(Unit, Unit),
}

/// A plan: events one after another, up to five a block.
///
/// ```
/// use sab::{Date, Event, Identity, Plan, Unit, Wish};
///
/// fn main() -> Result<(), Box<dyn std::error::Error>> {
///     let (van, bench) = (Unit::try_from(0)?, Unit::try_from(1)?);
///     let folder = Wish::make_folder(Identity::ROOT, "Bench", Date::new(2025, 3, 3))?;
///     let mut plan = Plan::new(7);
///     plan.push(Event::Act(van, folder));
///     plan.push(Event::Act(van, folder)); // the label is taken: skipped
///     plan.push(Event::Pass(van, bench));
///     assert_eq!(Plan::read(&plan.to_bytes())?, plan);
///
///     let visits = sab::try_plan(&plan.to_bytes())?;
///     assert_eq!(visits.skipped(), 1);
///     assert_eq!(visits.log(bench)?.vector()?.to_string(), "1 0 0 0 0 0 0 0");
///     assert!(visits.text().starts_with("unit 0 seen 1 0 0 0 0 0 0 0\n"));
///     Ok(())
/// }
/// ```
#[derive(Clone, Debug, PartialEq, Eq, Hash)]
pub struct Plan {
    archive: u32,
    blocks: Vec<Vec<Event>>,
}

impl Plan {
    /// A plan of an archive, without a block.
    pub const fn new(archive: u32) -> Plan {
        Plan {
            archive,
            blocks: Vec::new(),
        }
    }

    /// The plan in the bytes of its blocks, if it is not refused: [`try_plan`] says
    /// with what. A plan without a block is of archive 0.
    pub fn read(bytes: &[u8]) -> Result<Plan, PlanRefusal> {
        try_plan(bytes)?;
        let (blocks, _) = bytes.as_chunks::<{ raw::BLOCK }>();
        Ok(Plan {
            archive: blocks.first().map_or(0, archive_in),
            blocks: blocks.iter().map(events_in).collect(),
        })
    }

    /// Its archive.
    pub const fn archive(&self) -> u32 {
        self.archive
    }

    /// The events of its blocks.
    pub fn blocks(&self) -> impl Iterator<Item = &[Event]> {
        self.blocks.iter().map(Vec::as_slice)
    }

    /// One event more, in a new block if the last one is full.
    pub fn push(&mut self, event: Event) {
        match self.blocks.last_mut() {
            Some(block) if block.len() < EVENTS => block.push(event),
            _ => self.blocks.push(vec![event]),
        }
    }

    /// A new block, to which the next events go.
    pub fn push_block(&mut self) {
        self.blocks.push(Vec::new());
    }

    /// The bytes of its blocks.
    pub fn to_bytes(&self) -> Vec<u8> {
        let block = |events: &Vec<Event>| block_of(self.archive, events);
        self.blocks.iter().flat_map(block).collect()
    }
}

fn archive_in(block: &[u8; raw::BLOCK]) -> u32 {
    u32::from_le_bytes(std::array::from_fn(|i| block[4 + i]))
}

/// The events of a block that was judged.
fn events_in(block: &[u8; raw::BLOCK]) -> Vec<Event> {
    let (places, _) = block[FIRST_EVENT..SUMS].as_chunks::<EVENT>();
    let event = |place: &[u8; EVENT]| {
        let [kind, unit, other, _, record @ ..] = place;
        match kind {
            1 => Event::Act(Unit::of(*unit), Wish::from_bytes(*record)),
            _ => Event::Pass(Unit::of(*unit), Unit::of(*other)),
        }
    };
    places.iter().take(block[9].into()).map(event).collect()
}

fn event_bytes(event: &Event) -> [u8; EVENT] {
    let mut bytes = [0; EVENT];
    match *event {
        Event::Act(unit, wish) => {
            bytes[..2].copy_from_slice(&[1, unit.number()]);
            bytes[4..].copy_from_slice(&wish.to_bytes(unit));
        }
        Event::Pass(from, to) => bytes[..3].copy_from_slice(&[2, from.number(), to.number()]),
    }
    bytes
}

fn block_of(archive: u32, events: &[Event]) -> [u8; raw::BLOCK] {
    let mut block = [0; raw::BLOCK];
    block[..4].copy_from_slice(b"PLN1");
    block[4..8].copy_from_slice(&archive.to_le_bytes());
    block[9] = events.len() as u8;
    let (places, _) = block[FIRST_EVENT..SUMS].as_chunks_mut();
    for (place, event) in places.iter_mut().zip(events) {
        *place = event_bytes(event);
    }
    let (mut first, mut second) = (0, 0);
    for word in block[..SUMS].as_chunks().0 {
        first = (first + u32::from(u16::from_le_bytes(*word))) % 65_521;
        second = (second + first) % 65_521;
    }
    block[SUMS..SUMS + 2].copy_from_slice(&(first as u16).to_le_bytes());
    block[SUMS + 2..].copy_from_slice(&(second as u16).to_le_bytes());
    block
}

/// A plan's no: the number, and the block's place, which may be up to 4,095.
///
/// ```
/// let refusal = sab::PlanRefusal { number: 30, place: 4095 };
/// assert_eq!(refusal.to_string(), "refused 30 at 4095: an event of a plan is not one");
/// ```
#[derive(Clone, Copy, Debug, PartialEq, Eq, Hash)]
pub struct PlanRefusal {
    /// The number: 2 to 6 or 30.
    pub number: u8,
    /// The block, counted from 0; 0 for the number 2.
    pub place: u16,
}

impl fmt::Display for PlanRefusal {
    fn fmt(&self, f: &mut fmt::Formatter<'_>) -> fmt::Result {
        let words = match self.number {
            2 => "a plan is not 0 to 4,096 whole blocks",
            3 => "a block of a plan does not begin with PLN1",
            5 => "a plan's block counts more than 5 events, or a byte is set that should be zero",
            6 => "a block of a plan is of another archive than the first",
            number => in_words(number),
        };
        write!(f, "refused {} at {}: {words}", self.number, self.place)
    }
}

impl Error for PlanRefusal {}

/// How the eight units end.
#[derive(Clone, Debug)]
pub struct Visits {
    archive: u32,
    logs: Vec<u8>,
    base: Vec<u8>,
    text: String,
}

impl Visits {
    /// What the program `visits` prints: 37 lines.
    pub fn text(&self) -> &str {
        &self.text
    }

    /// How many acts were skipped.
    pub fn skipped(&self) -> u32 {
        let last = self.text.trim_end().rsplit(' ').next();
        last.and_then(|number| number.parse().ok()).unwrap_or(0)
    }

    /// The log of a unit. It is refused, with 19, only if the memory itself is at
    /// fault.
    pub fn log(&self, unit: Unit) -> Answer<Log> {
        let log = &self.logs[raw::LOG * usize::from(unit.number())..][..raw::LOG];
        Log::from_bytes(self.archive, unit, log, &self.base)
    }
}

/// Tries a plan: eight units start empty and do what its blocks say.
///
/// Refuses 2 for a part of a block or a 4,097th, in its turn; of each block 3, 4,
/// 5, 6, then 30 for an event that is none.
pub fn try_plan(plan: &[u8]) -> Result<Visits, PlanRefusal> {
    let mut logs = vec![0; raw::ROUND];
    let (mut base, mut work) = (vec![0; raw::BASE], vec![0; raw::WORK]);
    let mut text = vec![0; raw::PLAN_TEXT];
    let Ok(tried) = raw::try_plan(plan, &mut logs, &mut base, &mut work, &mut text) else {
        unreachable!("every buffer is of its length");
    };
    if let Some(refusal) = tried.refused {
        return Err(refusal);
    }
    text.truncate(tried.length);
    let archive = plan.first_chunk().map_or(0, archive_in);
    Ok(Visits {
        archive,
        logs,
        base,
        text: String::from_utf8_lossy(&text).into_owned(),
    })
}
