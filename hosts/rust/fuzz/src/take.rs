//! A take by a log that is mostly sound, of a block that is mostly good.

use crate::compare::{both, show};
use crate::index;
use crate::input::Input;
use crate::life::{ARCHIVE, Life, get16, seal};
use plain::{BLOCK, RECORD};

/// The block of some records: the first that a log lacks, or any.
fn block(input: &mut Input, life: &Life, held: &[u16; 8]) -> Vec<u8> {
    let mut block = vec![0; BLOCK];
    block[..5].copy_from_slice(b"SAB1\x07");
    block[8] = input.byte() % 8;
    let mode = input.byte();
    let count = 1 + input.below(6);
    let lacking: Vec<&[u8; RECORD]> = life
        .records
        .iter()
        .filter(|record| get16(&record[..], 2) > held[record[0] as usize])
        .collect();
    let all: Vec<&[u8; RECORD]> = life.records.iter().collect();
    let from = if mode & 1 == 0 { &lacking } else { &all };
    let mut used = 0;
    for i in 0..count.min(from.len()) {
        let at = if mode & 2 == 0 {
            i
        } else {
            input.below(from.len())
        };
        block[28 + RECORD * i..108 + RECORD * i].copy_from_slice(from[at]);
        used += 1;
    }
    block[9] = used;
    if input.one_in(4) {
        let end = 28 + RECORD * used as usize;
        input.patch(&mut block, end);
    }
    seal(&mut block);
    if input.one_in(8) {
        input.patch(&mut block, BLOCK);
    }
    if input.one_in(32) {
        block.truncate(input.below(BLOCK));
    }
    block
}

pub fn take(data: &[u8]) {
    let mut input = Input::new(data);
    let life = Life::drawn(&mut input);
    let own = input.below(8);
    let mut state = life.state(own, &mut input);
    state.patch(&mut input, 16);
    let unit = input.unit();
    let archive = ARCHIVE + input.one_in(32) as u32;
    let block = if input.one_in(16) {
        let mut block = input.rest().to_vec();
        block.resize(BLOCK, 0);
        block[..5].copy_from_slice(b"SAB1\x07");
        seal(&mut block);
        block
    } else {
        block(&mut input, &life, &state.vector())
    };
    let index = index::lent(&mut input, &state);
    let (answer, after) = both(0, &[&state.log, &index], |library, lent| {
        let [log, index] = lent else {
            unreachable!("two buffers");
        };
        library.take(log, &state.base, index, archive, unit, &block)
    });
    if answer.is_ok() {
        state.log.clone_from(&after[0]);
        show(&state.log, &state.base);
        if !index.is_empty() {
            let fresh = index::fresh(&state);
            assert!(after[1] == fresh, "the index and a fresh one differ");
        }
    }
}
