//! Orders of another maker: by rank, drawn by what was seen, and spoilt.

use crate::study::{End, Plan, Tally, Wrong, incorrect};
use crate::world::{Goal, apart, held, tree_of};
use library::{Library, Plain};
use plain::{EMPTY_BASE, RECORD, TREE};
use workload::{Chance, Mix};

type Name = [u8; 4];

/// The records of a log.
fn records(log: &[u8]) -> &[[u8; RECORD]] {
    &log.as_chunks().0[..held(log)]
}

fn name(record: &[u8; RECORD]) -> Name {
    [record[0], 0, record[2], record[3]]
}

fn count(record: &[u8; RECORD], unit: u8) -> u16 {
    let at = 4 + 2 * usize::from(unit);
    u16::from_le_bytes([record[at], record[at + 1]])
}

/// The one has seen the other.
fn has_seen(record: &[u8; RECORD], other: &[u8; RECORD]) -> bool {
    u16::from_le_bytes([other[2], other[3]]) <= count(record, other[0])
}

/// An order in which no record stands before one that it has seen.
fn drawn(log: &[u8], chance: &mut Chance) -> Vec<Name> {
    let mut left: Vec<&[u8; RECORD]> = records(log).iter().collect();
    let mut names = Vec::new();
    while !left.is_empty() {
        let free = |record: &&&[u8; RECORD]| !left.iter().any(|other| has_seen(record, other));
        let free: Vec<&[u8; RECORD]> = left.iter().filter(free).copied().collect();
        let next = free[chance.below(free.len())];
        names.push(name(next));
        left.retain(|record| name(record) != name(next));
    }
    names
}

/// Checks an order on both implementations, which must answer alike and leave the
/// same tables.
fn check(library: &dyn Library, log: &[u8], list: &[u8]) -> Result<(u16, Vec<u8>), Wrong> {
    let run = |library: &dyn Library| {
        let (mut ours, mut theirs) = (vec![0xa5; TREE], vec![0x5a; TREE]);
        let failed = library.check_order(log, &EMPTY_BASE, list, &mut ours, &mut theirs);
        (failed, ours, theirs)
    };
    let (came, expected) = (run(library), run(&Plain));
    if came.0 != expected.0 {
        return incorrect(format!("{:?}, plain {:?}", came.0, expected.0));
    }
    if came != expected {
        return incorrect(format!("{:?}: other tables than plain", came.0));
    }
    match came {
        (Ok(failed), ours, theirs) => match (failed, tree_of(library, log)? == ours) {
            (0 | 3, true) => Ok((failed, theirs)),
            (1 | 2, _) if ours == vec![0xa5; TREE] => Ok((failed, theirs)),
            _ => incorrect(format!("{failed}: the first table is not what it should be")),
        },
        (Err(refusal), ..) => incorrect(format!("{refusal:?}")),
    }
}

/// An order, and the conditions that may fail.
fn expect(library: &dyn Library, log: &[u8], names: &[Name], due: &[u16]) -> Result<u16, Wrong> {
    let (failed, _) = check(library, log, names.as_flattened())?;
    match due.contains(&failed) {
        true => Ok(failed),
        false => incorrect(format!("{failed} where {due:?} is due")),
    }
}

/// The orders of one log.
fn orders(library: &dyn Library, log: &[u8], chance: &mut Chance) -> End {
    let by_rank: Vec<Name> = records(log).iter().map(name).collect();
    let (failed, theirs) = check(library, log, by_rank.as_flattened())?;
    let tree = tree_of(library, log)?;
    if failed != 0 || theirs != tree {
        return incorrect("the order by rank is not accepted with our tree");
    }
    let names = drawn(log, chance);
    expect(library, log, &names, &[0, 3])?;
    let (one, other) = (chance.below(names.len()), chance.below(names.len()));
    let mut turned = names.clone();
    turned.swap(one, other);
    expect(library, log, &turned, &[0, 2, 3])?;
    let mut twice = turned.clone();
    twice[one] = twice[(one + 1) % names.len()];
    let due = if names.len() == 1 { [0; 1] } else { [1; 1] };
    expect(library, log, &twice, &due)?;
    let mut other = names.clone();
    other[one][chance.below(4)] ^= 1 << chance.below(8);
    expect(library, log, &other, &[1])?;
    let length = chance.below(4 * names.len());
    match check(library, log, &names.as_flattened()[..length])?.0 {
        1 => Ok(tree[2..4] != [0, 0]),
        failed => incorrect(format!("{failed} of {length} bytes")),
    }
}

/// Logs of a few units that worked apart, and orders of their records.
pub fn checked(library: &dyn Library, plan: &Plan) -> Tally {
    let mut tally = Tally::default();
    for round in 0..plan.count(200, 20_000) {
        if !tally.goes_on(plan) {
            break;
        }
        let seed = 131 * plan.seed + round as u64;
        let mix = [Mix::CONFLICTS, Mix::MOVES, Mix::CASES][round % 3];
        let logs = apart(2 + round % 4, 2 + round % 60, &mix, seed);
        let log = Goal::of(&logs).log;
        let end = orders(library, &log, &mut Chance::new(seed));
        tally.count(|| format!("orders of round {round}"), end);
    }
    tally
}
