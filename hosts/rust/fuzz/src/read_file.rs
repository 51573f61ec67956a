//! An SAB1 file that is mostly good: read, listed, and written again.

use crate::compare::{both, show};
use crate::input::Input;
use crate::life::{ARCHIVE, Life, held, seal};
use library::{LISTING, Refusal};
use plain::{BASE, BLOCK, EMPTY_BASE, FILE, LOG, RECORD};

pub fn file_of(log: &[u8]) -> Vec<u8> {
    let mut file = vec![0; FILE];
    let blocks = plain::write_file(log, &EMPTY_BASE, ARCHIVE, 2, &mut file).map_or(1, |blocks| blocks as usize);
    file.truncate(BLOCK * blocks);
    file
}

/// Changes some bytes of a block, or the same bytes of all; then mostly puts the
/// sums right.
pub fn patch(input: &mut Input, file: &mut [u8]) {
    let blocks = file.len() / BLOCK;
    let sealed = !input.one_in(8);
    let (at, byte) = (input.below(BLOCK), input.byte());
    let which = input.below(blocks + 1);
    for (i, block) in file.chunks_mut(BLOCK).enumerate() {
        if which == i || which == blocks {
            block[at] = byte;
        }
        if sealed {
            seal(block);
        }
    }
}

fn file(input: &mut Input, life: &Life) -> Vec<u8> {
    let log = life.log(input.below(8));
    let mut file = file_of(&log);
    for _ in 0..input.below(4) {
        patch(input, &mut file);
    }
    if input.one_in(8) {
        // Two records change places.
        let records = held(&log);
        let place = |i: usize| BLOCK * (i / 6) + 28 + RECORD * (i % 6);
        let (one, other) = (place(input.below(records)), place(input.below(records)));
        for i in 0..RECORD {
            file.swap(one + i, other + i);
        }
        file.chunks_mut(BLOCK).for_each(seal);
    }
    if input.one_in(16) {
        file.truncate(BLOCK * input.below(87));
    }
    if input.one_in(32) {
        file.truncate(input.below(file.len() + 1));
    }
    if input.one_in(16) {
        let block = file[..file.len().min(BLOCK)].to_vec();
        file.extend(block);
    }
    file
}

pub fn read_file(data: &[u8]) {
    let mut input = Input::new(data);
    let file = if input.one_in(16) {
        let mut file = input.rest().to_vec();
        for block in file.chunks_exact_mut(BLOCK) {
            block[..4].copy_from_slice(b"SAB1");
            seal(block);
        }
        file
    } else {
        let life = Life::drawn(&mut input);
        file(&mut input, &life)
    };
    let lent = [vec![0xa5; LOG], vec![0xa5; BASE]];
    let (answer, after) = both(1, &[&lent[0], &lent[1]], |library, lent| {
        let [log, base] = lent else {
            unreachable!("a log and a base");
        };
        library.read_file(log, base, &file)
    });
    let out = vec![0xa5; LISTING];
    let _ = both(2, &[&out], |library, lent| {
        library.listing_into(&file, &mut lent[0]).ok_or(Refusal {
            number: 1,
            place: 0,
        })
    });
    let Ok(head) = answer else {
        return;
    };
    if file.starts_with(b"SAB2") {
        return;
    }
    assert!(after[1] == EMPTY_BASE, "the base is not empty");
    show(&after[0], &after[1]);
    let room = vec![0xa5; FILE];
    let (count, again) = both(3, &[&room], |library, lent| {
        library.write_file(&after[0], &after[1], head.archive, head.unit.into(), &mut lent[0])
    });
    assert_eq!(count, Ok((file.len() / BLOCK) as u16));
    assert!(
        again[0][..file.len()] == file,
        "written again, the file differs"
    );
}
