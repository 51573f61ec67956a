//! Plans whose events are mostly good, tried on both implementations.

use crate::input::Input;
use crate::life::seal;
use library::{LOGS, Library, Plain, Static};
use plain::BLOCK;

/// An event of units that are mostly two, with few labels and low numbers, so that
/// much is met and skipped.
fn event(input: &mut Input) -> [u8; 84] {
    let mut event = [0; 84];
    let unit = input.byte() % 8;
    if input.one_in(2) {
        event[..3].copy_from_slice(&[2, unit, (unit + 1 + input.byte() % 7) % 8]);
        return event;
    }
    event[..2].copy_from_slice(&[1, unit]);
    let record = &mut event[4..];
    record[0] = unit;
    let operation = 1 + input.byte() % 7;
    record[1] = operation;
    if operation > 2 {
        record[20] = input.byte() % 8;
        record[22] = 1 + input.byte() % 4;
    }
    if matches!(operation, 1 | 2 | 7) && input.one_in(2) {
        record[24] = input.byte() % 8;
        record[26] = 1 + input.byte() % 4;
    }
    record[28..32].copy_from_slice(&[0xe9, 7, 3, 1 + input.byte() % 31]);
    if matches!(operation, 1 | 2 | 5 | 7) {
        record[32] = b"AaBb/"[input.below(5)];
    }
    if matches!(operation, 2 | 3) {
        record[64..].fill(input.byte());
    }
    event
}

fn block(input: &mut Input) -> [u8; BLOCK] {
    let mut block = [0; BLOCK];
    block[..4].copy_from_slice(b"PLN1");
    block[4] = 7;
    let events = input.below(6);
    block[9] = events as u8;
    for i in 0..events {
        block[28 + 84 * i..][..84].copy_from_slice(&event(input));
    }
    if input.one_in(16) {
        input.patch(&mut block, BLOCK);
    }
    if !input.one_in(64) {
        seal(&mut block);
    }
    block
}

fn tried(library: &dyn Library, plan: &[u8]) -> (String, Vec<u8>) {
    let mut logs = vec![0xa5; LOGS];
    let round = logs.first_chunk_mut().expect("eight logs");
    let (tried, text) = library.try_plan(plan, round);
    (format!("{tried:?} {}", String::from_utf8_lossy(&text)), logs)
}

pub fn plan(data: &[u8]) {
    let mut input = Input::new(data);
    let mut plan = Vec::new();
    for _ in 0..input.below(12) {
        plan.extend(block(&mut input));
    }
    if input.one_in(16) {
        plan.truncate(input.below(plan.len() + 1));
    }
    let (ours, plain) = (tried(&Static, &plan), tried(&Plain, &plan));
    assert_eq!(ours.0, plain.0, "the answers differ");
    assert!(ours.1 == plain.1, "the logs differ");
}
