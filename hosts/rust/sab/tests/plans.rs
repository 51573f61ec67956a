//! Plans of visits through the crate: lengths, limits, what refusals leave, and the
//! units against the calls themselves.

use plain::EMPTY_BASE;
use sab::raw::{self, BASE, PLAN_TEXT, Planned, ROUND, WORK};
use sab::{Date, Event, Identity, Log, Plan, PlanRefusal, Refusal, Unit, Wish, try_plan};
use workload::Chance;

const ARCHIVE: u32 = 0xfedc_ba98;
const DAY: Date = Date::new(2025, 3, 4);

fn pattern(length: usize) -> Vec<u8> {
    (0..length).map(|i| (17 + 31 * i) as u8).collect()
}

fn folder(label: &str) -> Wish {
    Wish::make_folder(Identity::ROOT, label, DAY).unwrap()
}

/// What a plan of these events is refused with.
fn refused(plan: &[u8]) -> (u8, u16) {
    match try_plan(plan) {
        Err(PlanRefusal { number, place }) => (number, place),
        Ok(visits) => panic!("{}", visits.text()),
    }
}

/// A plan of so many blocks of five events: acts of all units, and passes.
fn long_plan(blocks: usize) -> Vec<u8> {
    let mut chance = Chance::new(13);
    let mut plan = Plan::new(ARCHIVE);
    for i in 0..5 * blocks {
        let unit = Unit::ALL[i % 8];
        if i % 3 == 0 {
            plan.push(Event::Act(unit, folder(&format!("f{i}"))));
        } else {
            let step = 1 + chance.below(7);
            plan.push(Event::Pass(unit, Unit::ALL[(i + step) % 8]));
        }
    }
    plan.to_bytes()
}

#[test]
fn lengths() {
    let lent = [ROUND, BASE, WORK, PLAN_TEXT];
    for (k, stated) in lent.into_iter().enumerate() {
        for wrong in [0, stated - 1, stated + 1, 2 * stated] {
            let mut lengths = lent;
            lengths[k] = wrong;
            let [mut logs, mut base, mut work, mut text] = lengths.map(pattern);
            let answer = raw::try_plan(&[1], &mut logs, &mut base, &mut work, &mut text);
            assert_eq!(answer, Err(Refusal::new(1)));
            assert_eq!([logs, base, work, text], lengths.map(pattern));
        }
    }
}

#[test]
fn what_a_refusal_leaves() {
    let [mut logs, mut base, mut work, mut text] = [ROUND, BASE, WORK, PLAN_TEXT].map(pattern);
    let plan = &long_plan(3)[..1_200];
    let answer = raw::try_plan(plan, &mut logs, &mut base, &mut work, &mut text);
    let refused = Some(PlanRefusal { number: 2, place: 0 });
    assert_eq!(answer, Ok(Planned { length: 15, refused }));
    assert_eq!([logs, base, work], [ROUND, BASE, WORK].map(pattern));
    assert_eq!(text[..15], *b"refused 2 at 0\n");
    assert_eq!(text[15..], pattern(PLAN_TEXT)[15..]);
}

#[test]
fn what_an_accepted_plan_leaves() {
    let [mut logs, mut base, mut work, mut text] = [ROUND, BASE, WORK, PLAN_TEXT].map(pattern);
    let answer = raw::try_plan(&[], &mut logs, &mut base, &mut work, &mut text).unwrap();
    assert_eq!(answer.refused, None);
    assert_eq!([logs, work], [vec![0; ROUND], vec![0; WORK]]);
    assert_eq!(base, EMPTY_BASE);
    assert_eq!(text[answer.length..], pattern(PLAN_TEXT)[answer.length..]);
    assert!(text[..answer.length].ends_with(b"pair 6 7 answer 0\nskipped 0\n"));
}

#[test]
fn limits() {
    let plan = long_plan(4_097);
    assert_eq!(refused(&plan), (2, 0));
    assert_eq!(refused(&plan[..4_096 * 512 + 1]), (2, 0));
    assert_eq!(refused(&plan[..511]), (2, 0));
    let visits = try_plan(&plan[..4_096 * 512]).unwrap();
    // 6,827 acts, of which 512 are made.
    assert_eq!(visits.skipped(), 6_827 - 512);
    assert!(visits.text().len() <= PLAN_TEXT);
    // Faults are told in their turn.
    let mut faulty = plan;
    faulty[512 * 4_095 + 300] ^= 1;
    assert_eq!(refused(&faulty), (4, 4_095));
    faulty[512 * 2] = b'S';
    assert_eq!(refused(&faulty), (3, 2));
}

/// The units do by their own calls what the plan says, less what is refused.
#[test]
fn as_the_units_do() {
    let plan = Plan::read(&long_plan(120)).unwrap();
    let visits = try_plan(&plan.to_bytes()).unwrap();
    let mut logs: Vec<Log> = Unit::ALL.map(|unit| Log::start(ARCHIVE, unit)).into();
    let mut skipped = 0;
    for event in plan.blocks().flatten() {
        match *event {
            Event::Act(unit, wish) => {
                let log = &mut logs[usize::from(unit.number())];
                skipped += u32::from(log.act(&wish).is_err());
            }
            Event::Pass(from, to) => {
                let (from, to) = (usize::from(from.number()), usize::from(to.number()));
                let block = logs[from].hand_out(&logs[to].vector().unwrap()).unwrap();
                logs[to].take(&block).unwrap();
            }
        }
    }
    assert_eq!(visits.skipped(), skipped);
    for (unit, log) in Unit::ALL.into_iter().zip(&logs) {
        assert!(visits.log(unit).unwrap() == *log);
    }
}

/// Every block of a plan is judged as the plain implementation judges it.
#[test]
fn damaged_blocks() {
    let good = long_plan(2);
    let mut chance = Chance::new(5);
    for _ in 0..400 {
        let mut plan = good.clone();
        let at = chance.below(1_024);
        plan[at] ^= 1 + chance.below(255) as u8;
        if chance.below(2) == 0 {
            seal(&mut plan[at / 512 * 512..][..512]);
        }
        let (mut logs, mut text) = ([0; plain::LOGS], [0; plain::PLAN_TEXT]);
        let (plainly, length) = plain::try_plan(&plan, &mut logs, &mut text);
        match try_plan(&plan) {
            Err(PlanRefusal { number, place }) => {
                assert_eq!(plainly, Err(plain::PlanRefusal { number, place }));
            }
            Ok(visits) => {
                assert_eq!(plainly, Ok(()));
                assert_eq!(visits.text().as_bytes(), &text[..length]);
            }
        }
    }
}

/// Puts the two sums of a block right.
fn seal(block: &mut [u8]) {
    let (mut first, mut second) = (0, 0);
    for word in block[..508].as_chunks().0 {
        first = (first + u32::from(u16::from_le_bytes(*word))) % 65_521;
        second = (second + first) % 65_521;
    }
    block[508..510].copy_from_slice(&(first as u16).to_le_bytes());
    block[510..].copy_from_slice(&(second as u16).to_le_bytes());
}
