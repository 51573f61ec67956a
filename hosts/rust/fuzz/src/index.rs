//! Any bytes as an index: looked up and listed, and lent to a call that keeps
//! one. Mostly they are the index of a log with some bytes changed.

use crate::compare::both;
use crate::input::Input;
use crate::life::{ARCHIVE, Life, State, get16};
use library::{Folder, folder_of};
use plain::{INDEX, RECORD};

const ROW: usize = 40;

/// The index of a log and its base, as both make it.
pub fn fresh(state: &State) -> Vec<u8> {
    let (_, mut made) = both(6, &[&[0xa5; INDEX]], |library, lent| {
        library.index(&state.log, &state.base, &mut lent[0])
    });
    made.swap_remove(0)
}

/// The index that a call is lent: that of the log, mostly; none; any bytes; seldom
/// one of another length.
pub fn lent(input: &mut Input, state: &State) -> Vec<u8> {
    let mut index = match input.byte() % 8 {
        0 => return Vec::new(),
        1 => drawn(input, state),
        _ => fresh(state),
    };
    if input.one_in(32) {
        index.resize(input.below(2 * INDEX), 0);
    }
    index
}

/// Bytes for an index: a log's with changes, or few values over and over.
fn drawn(input: &mut Input, state: &State) -> Vec<u8> {
    let mut index = fresh(state);
    if input.one_in(4) {
        let pattern: Vec<u8> = (0..1 + input.below(64)).map(|_| input.byte()).collect();
        for (place, byte) in index.iter_mut().zip(pattern.iter().cycle()) {
            *place = *byte;
        }
    }
    let end = 4 + ROW * (usize::from(get16(&index, 0)).min(1023) + 1);
    input.patch(&mut index, end);
    if input.one_in(4) {
        let count = input.below(2048) as u16;
        index[..2].copy_from_slice(&count.to_le_bytes());
    }
    for _ in 0..input.below(4) {
        // One row in the place of another.
        let (from, to) = (4 + ROW * input.below(1024), 4 + ROW * input.below(1024));
        index.copy_within(from..from + ROW, to);
    }
    index
}

/// A folder and a label: those of a row, with changes.
fn asked(input: &mut Input, index: &[u8]) -> (Folder, Vec<u8>) {
    let rows = usize::from(get16(index, 0)).clamp(1, 1024);
    let row = index[4 + ROW * input.below(rows)..][..ROW].to_vec();
    let mut folder = row[..4].to_vec();
    let mut label = row[4..36].to_vec();
    match input.byte() % 8 {
        0 => input.patch(&mut folder, 4),
        1 => input.patch(&mut label, 32),
        2 => folder.copy_from_slice(&row[36..]),
        3 => label.fill(input.byte()),
        4 => label[input.below(32)] ^= 32,
        _ => (),
    }
    let mut folder = folder_of(&folder);
    if input.one_in(16) {
        // Also numbers whose low part alone would be the folder's.
        let more = u32::from(input.byte()) << 16;
        folder = (folder.0 + (more & 0x70_0000), folder.1 + (more & 0x0f_0000));
    }
    if input.one_in(32) {
        label.resize(input.below(65), 0);
    }
    (folder, label)
}

pub fn index(data: &[u8]) {
    let mut input = Input::new(data);
    let life = Life::drawn(&mut input);
    let unit = input.below(8);
    let state = life.state(unit, &mut input);
    let mut index = drawn(&mut input, &state);
    for _ in 0..1 + input.below(4) {
        let (folder, label) = asked(&mut input, &index);
        let _ = both(4, &[], |library, _| library.find(&index, folder, &label));
        let (range, _) = both(5, &[], |library, _| library.list(&index, folder));
        if let Ok(range) = range {
            let end = range.first + range.count;
            assert!(end <= 1024, "the rows and the index differ");
        }
    }
    let mut wish = [0; RECORD];
    wish[0] = unit as u8;
    wish[1] = 1 + input.byte() % 7;
    wish[28..32].copy_from_slice(&[0xe9, 7, 1, 28]);
    crate::life::fill_in(&mut wish, &state.vector(), &mut input);
    if input.one_in(32) {
        index.truncate(input.below(INDEX));
    }
    let (_, after) = both(7, &[&state.log, &index], |library, lent| {
        let [log, index] = lent else {
            unreachable!("two buffers");
        };
        library.act(log, &state.base, index, ARCHIVE, unit as u32, &wish)
    });
    let [_, index] = &after[..] else {
        unreachable!("two buffers");
    };
    let _ = both(4, &[], |library, _| {
        library.find(index, (0, 0), &wish[32..64])
    });
}
