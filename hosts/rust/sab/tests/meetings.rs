//! Careful meetings: they pass all, in the blocks that they need, and notice a
//! number that was used twice.

use plain::EMPTY_BASE;
use sab::{
    Asking, Block, Comparison, Date, Identity, Log, Mark, Pass, Refusal, Unit, Vector, Wish, meet,
    pass, raw,
};
use workload::{Chance, Mix, Units};

const ARCHIVE: u32 = 7;
const DATE: Date = Date::new(2025, 3, 4);

fn start(unit: usize) -> Log {
    Log::start(ARCHIVE, Unit::ALL[unit])
}

fn trace(log: &mut Log, label: &str, mark: u8) -> Identity {
    let wish = Wish::make_trace(Identity::ROOT, label, DATE, Mark([mark; 16])).unwrap();
    log.act(&wish).unwrap()
}

/// Some traces, under labels of their own.
fn traces(log: &mut Log, count: usize) {
    for i in 0..count {
        let label = format!("{} {}", log.unit(), log.records().len());
        trace(log, &label, i as u8);
    }
}

/// Units that acted and met by chance.
fn life(units: usize, acts: usize, seed: u64) -> Vec<Log> {
    let mut chance = Chance::new(seed);
    let mut life = Units::empty(units, ARCHIVE);
    for _ in 0..acts {
        let unit = chance.below(units);
        life.act(&mut chance, &Mix::MOVES, unit);
        if chance.one_in(8) {
            let other = chance.below(units);
            life.pass(unit, other);
        }
    }
    let logs = life.logs.iter().enumerate();
    logs.map(|(unit, log)| Log::from_bytes(ARCHIVE, Unit::ALL[unit], log, &EMPTY_BASE).unwrap())
        .collect()
}

/// The last record of each unit that both hold, so many.
fn compared(from: &Log, to: &Log) -> u32 {
    let (from, to) = (from.vector().unwrap(), to.vector().unwrap());
    let counts = from.counts().iter().zip(to.counts());
    counts.filter(|(from, to)| **to > 0 && from >= to).count() as u32
}

/// How many records of one log the other lacks.
fn lacking(from: &Log, to: &Log) -> u32 {
    let held = to.vector().unwrap();
    let lacking = from
        .records()
        .filter(|record| held.lacks(record.identity()));
    lacking.count() as u32
}

#[test]
fn meetings_pass_all() {
    for seed in 0..60 {
        let mut logs = life(2 + seed as usize % 7, 20 + 5 * seed as usize, seed);
        let (mut one, mut other) = (logs.swap_remove(0), logs.swap_remove(0));
        let (new, again) = (lacking(&one, &other), compared(&one, &other));
        let back = lacking(&other, &one);
        let apart = one.vector().unwrap().distance(&other.vector().unwrap());
        assert_eq!((apart.second_lacks, apart.first_lacks), (new, back));
        let joined = one.vector().unwrap().joined(&other.vector().unwrap());
        let meeting = meet(&mut one, &mut other);
        assert!(meeting.is_complete(), "{meeting}");
        assert_eq!(meeting.to_second.records, new);
        assert_eq!(meeting.to_second.blocks, (new + again).div_ceil(6));
        assert_eq!(meeting.to_first.unwrap().records, back);
        assert_eq!(one.vector(), Ok(joined));
        assert_eq!(one.as_bytes(), other.as_bytes());
        assert_eq!(one.show(), other.show());
    }
}

/// Eight units' last records and more that are lacking: the lowered records come
/// in whichever block they rank in, each of them once.
#[test]
fn lowered_records_over_many_blocks() {
    let mut hub = start(0);
    let mut others: Vec<Log> = (1..8).map(start).collect();
    for log in &mut others {
        traces(log, 3);
        assert!(meet(&mut hub, log).is_complete());
    }
    traces(&mut hub, 1);
    let taker = &mut others[0];
    assert!(meet(&mut hub, taker).is_complete());
    assert!(
        hub.vector()
            .unwrap()
            .counts()
            .iter()
            .all(|count| *count > 0)
    );
    traces(&mut hub, 20);
    let mut asking = Asking::careful(taker).unwrap();
    let mut brought: Vec<Vector> = vec![asking.vector()];
    let mut blocks = 0;
    loop {
        let block = hub.hand_out(&asking.vector()).unwrap();
        if !asking.take(taker, block).unwrap() {
            break;
        }
        blocks += 1;
        brought.push(asking.vector());
    }
    // 8 held records and 20 new ones.
    assert_eq!(blocks, 5);
    assert_eq!(taker.as_bytes(), hub.as_bytes());
    assert_eq!(asking.vector(), hub.vector().unwrap());
    for step in brought.windows(2) {
        assert_eq!(step[1].compare(&step[0]), Comparison::FirstAhead);
        assert!(step[1].sum() - step[0].sum() <= 6);
    }
    let mut same = taker.clone();
    assert_eq!(pass(&hub, &mut same).blocks, 2);
}

/// A unit lost its log, was started and acted; by vectors alone nobody asks for
/// what differs.
#[test]
fn number_used_twice() {
    let (mut one, mut other) = (start(0), start(1));
    trace(&mut one, "Gain", 1);
    traces(&mut other, 2);
    assert!(meet(&mut one, &mut other).is_complete());

    let mut again = start(0);
    let used = trace(&mut again, "Noise", 2);
    let plain = again.hand_out(&other.vector().unwrap()).unwrap();
    assert!(plain.is_empty());

    for first in [true, false] {
        let (mut again, mut other) = (again.clone(), other.clone());
        let meeting = if first {
            meet(&mut again, &mut other)
        } else {
            meet(&mut other, &mut again)
        };
        assert_eq!(meeting.refusal(), Some(Refusal::new(10)));
        assert!(!meeting.is_complete());
        assert_eq!(meeting.to_second.twice, Some(used));
        assert_eq!(meeting.to_first, None);
        assert_eq!(
            meeting.to_second.to_string(),
            "blocks 0 records 0, refused 10: a record is held with other bytes: \
             its number was used twice (0.1)"
        );
    }
}

/// The unit that was started again has acted less often, or more often, than
/// before it lost its log.
#[test]
fn number_used_twice_more_or_less_often() {
    for acts in 1..12 {
        let (mut one, mut other) = (start(0), start(1));
        traces(&mut one, 5);
        assert!(meet(&mut one, &mut other).is_complete());
        let mut again = start(0);
        for i in 0..acts {
            trace(&mut again, &format!("again {i}"), 100);
        }
        let meeting = meet(&mut again, &mut other);
        assert_eq!(meeting.refusal(), Some(Refusal::new(10)), "{acts} acts");
        let pass = meeting.to_first.unwrap_or(meeting.to_second);
        let twice = Identity::new(Unit::ALL[0], acts.min(5));
        assert_eq!(pass.twice, twice);
    }
}

/// The last record that both hold is the same, an earlier one is not: asking for
/// every record notices it.
#[test]
fn number_used_twice_further_back() {
    let logs = [1, 2].map(|mark| {
        let mut log = start(0);
        let gain = trace(&mut log, "Gain", mark);
        log.act(&Wish::remove(gain, DATE)).unwrap();
        log
    });
    let [one, mut other] = logs;
    assert_ne!(one, other);
    assert_eq!(
        pass(&one, &mut other),
        Pass {
            blocks: 1,
            ..Pass::default()
        }
    );
    let pass = Asking::thorough().pass(&one, &mut other);
    assert_eq!(pass.refusal, Some(Refusal::new(10)));
    assert_eq!(pass.twice, Identity::new(Unit::ALL[0], 1));
    let mut same = one.clone();
    traces(&mut same, 20);
    assert_eq!(Asking::thorough().pass(&same, &mut one.clone()).blocks, 4);
}

/// What docs/FIELD-CARD.md says to do after a 10.
#[test]
fn mended() {
    let mut units: Vec<Log> = (0..3).map(start).collect();
    let [one, other, third] = &mut units[..] else {
        unreachable!()
    };
    traces(one, 4);
    assert!(meet(one, other).is_complete());
    // Unit 0 is started and acts; unit 2, which knew nothing of it, takes that.
    *one = start(0);
    trace(one, "again", 1);
    assert!(meet(one, third).is_complete());
    traces(third, 2);
    assert!(meet(one, third).is_complete());
    assert_eq!(meet(one, other).refusal(), Some(Refusal::new(10)));
    assert_eq!(meet(third, other).refusal(), Some(Refusal::new(10)));
    // Unit 1 is right; it has taken 2.1 and 2.2 before the other meeting ended.
    // The others are started, all before any of them acts.
    *one = start(0);
    *third = start(2);
    assert!(pass(other, one).refusal.is_none());
    assert!(pass(other, third).refusal.is_none());
    trace(one, "again", 1);
    traces(third, 2);
    for _ in 0..2 {
        assert!(meet(one, other).is_complete());
        assert!(meet(one, third).is_complete());
    }
    for log in [&mut *other, &mut *third] {
        assert_eq!(Asking::thorough().pass(one, log).refusal, None);
        assert_eq!(one.as_bytes(), log.as_bytes());
    }
    assert_eq!(one.vector(), Ok(Vector::from([5, 0, 4, 0, 0, 0, 0, 0])));
}

/// Blocks that are lost, damaged, doubled and late.
#[test]
fn bad_links() {
    for seed in 0..40 {
        let mut chance = Chance::new(seed);
        let mut logs = life(4, 160, seed);
        let (giver, mut taker) = (logs.swap_remove(0), logs.swap_remove(0));
        let mut asking = Asking::careful(&taker).unwrap();
        let begun = asking.vector();
        let mut late: Vec<Block> = Vec::new();
        loop {
            let block = giver.hand_out(&asking.vector()).unwrap();
            let before = (taker.clone(), asking);
            match chance.below(4) {
                0 => continue,
                1 => {
                    let mut damaged = *block.as_bytes();
                    damaged[chance.below(raw::BLOCK)] ^= 16;
                    let refusal = asking.take(&mut taker, damaged).unwrap_err();
                    assert!(refusal.is_damage());
                    assert_eq!(before, (taker.clone(), asking));
                }
                2 if !late.is_empty() => {
                    asking.take(&mut taker, chance.pick(&late)).unwrap();
                    assert_eq!(before, (taker.clone(), asking));
                }
                _ => {
                    late.push(block);
                    if !asking.take(&mut taker, block).unwrap() {
                        break;
                    }
                }
            }
        }
        assert!(taker.vector().unwrap().covers(&giver.vector().unwrap()));
        assert!(asking.vector().covers(&begun));
        assert_eq!(asking.vector(), begun.joined(&giver.vector().unwrap()));
    }
}

/// A block from elsewhere does not pass for the records that were asked for.
#[test]
fn block_from_elsewhere() {
    let (mut one, mut other) = (start(0), start(1));
    traces(&mut one, 5);
    assert!(meet(&mut one, &mut other).is_complete());
    traces(&mut one, 1);
    let mut asking = Asking::careful(&other).unwrap();
    let elsewhere = one.hand_out(&other.vector().unwrap()).unwrap();
    assert_eq!(elsewhere.count(), 1);
    assert_eq!(asking.take(&mut other, elsewhere), Ok(true));
    assert_eq!(asking.vector(), Vector::from([4, 0, 0, 0, 0, 0, 0, 0]));
    let block = one.hand_out(&asking.vector()).unwrap();
    assert_eq!(asking.take(&mut other, block), Ok(true));
    assert_eq!(asking.vector(), one.vector().unwrap());
}

/// Two units with 300 records of their own: both stop below 512, and each goes
/// on with what it has.
#[test]
fn full_logs() {
    let (mut one, mut other) = (start(0), start(1));
    traces(&mut one, 300);
    traces(&mut other, 300);
    let meeting = meet(&mut one, &mut other);
    assert_eq!(meeting.refusal(), Some(Refusal::new(11)));
    assert_eq!(meeting.to_second.records, 210);
    assert_eq!(meeting.to_first.unwrap().records, 210);
    assert_eq!((one.records().len(), other.records().len()), (510, 510));
    let (one, other) = (one.vector().unwrap(), other.vector().unwrap());
    assert_eq!(one.compare(&other), Comparison::BothAhead);
    assert_eq!(one.joined(&other).sum(), 600);
}

#[test]
fn other_archives() {
    let mut one = start(0);
    traces(&mut one, 1);
    let mut other = Log::start(ARCHIVE + 1, Unit::ALL[1]);
    let meeting = meet(&mut one, &mut other);
    assert_eq!(meeting.refusal(), Some(Refusal::new(6)));
    assert_eq!(meeting.to_first, None);
    assert_eq!(other.records().len(), 0);
}

#[test]
fn blocks() {
    let mut one = start(6);
    traces(&mut one, 8);
    let block = one.hand_out(&Vector::default()).unwrap();
    assert_eq!((block.count(), block.sender()), (6, 6));
    assert_eq!(block.archive(), ARCHIVE);
    assert_eq!(block.vector(), one.vector().unwrap());
    assert_eq!(Block::try_from(&block.as_bytes()[..]), Ok(block));
    assert_eq!(
        Block::try_from(&block.as_bytes()[1..]),
        Err(Refusal::new(2))
    );
    assert!(one.hand_out(&one.vector().unwrap()).unwrap().is_empty());
}
