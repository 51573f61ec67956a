//! Two files of one life that are mostly good, merged both ways round; and the
//! result read.

use crate::compare::{both, show};
use crate::input::Input;
use crate::life::{Life, get16, held, seal};
use crate::read_file::{file_of, patch};
use plain::{BASE, BLOCK, FILE, LOG, RECORD};

/// A file of what a unit knows, sometimes changed. A changed date of a record is
/// a number used twice.
fn card(input: &mut Input, life: &Life) -> Vec<u8> {
    let log = life.log(input.below(8));
    let mut file = file_of(&log);
    let records = held(&log);
    if records > 0 && input.one_in(4) {
        let i = input.below(records);
        let at = BLOCK * (i / 6) + 28 + RECORD * (i % 6);
        file[at + 31] = 1 + input.byte() % 27;
        file.chunks_mut(BLOCK).for_each(seal);
    }
    if input.one_in(8) {
        patch(input, &mut file);
    }
    if input.one_in(32) {
        file.truncate(input.below(file.len() + 1));
    }
    file
}

/// Merges two files on both implementations; the blocks, if it is accepted.
fn merged(call: u8, first: &[u8], second: &[u8], lent: &[Vec<u8>; 2]) -> Option<Vec<u8>> {
    let [log, file] = lent;
    let (answer, after) = both(call, &[log, file], |library, lent| {
        let [log, file] = lent else {
            unreachable!("a log and a file");
        };
        library.merge(first, second, log, file)
    });
    let blocks = answer.ok()? as usize;
    let file = after[1][..BLOCK * blocks].to_vec();
    let (head, read) = both(2, &[log, &[0xa5; BASE]], |library, lent| {
        let [log, base] = lent else {
            unreachable!("a log and a base");
        };
        library.read_file(log, base, &file)
    });
    let head = head.expect("a merged file is read");
    assert!(
        read[0] == after[0],
        "the merged file reads back as another log"
    );
    assert_eq!((head.archive, head.unit), head_of(first));
    show(&after[0], &read[1]);
    Some(file)
}

/// Archive and unit in a file's first header.
fn head_of(file: &[u8]) -> (u32, u8) {
    let archive = u32::from(get16(file, 4)) | u32::from(get16(file, 6)) << 16;
    (archive, file[8])
}

pub fn merge(data: &[u8]) {
    let mut input = Input::new(data);
    let life = Life::drawn(&mut input);
    let (first, second) = (card(&mut input, &life), card(&mut input, &life));
    let mut lent = [vec![0xa5; LOG], vec![0xa5; FILE]];
    if input.one_in(32) {
        let which = input.below(2);
        let length = input.below(lent[which].len() + 2);
        lent[which].resize(length, 0xa5);
    }
    let one = merged(0, &first, &second, &lent);
    let other = merged(1, &second, &first, &lent);
    // Whichever comes first, the records are the same.
    if let (Some(one), Some(other)) = (one, other) {
        let records = |file: &[u8]| -> Vec<u8> {
            file.chunks(BLOCK)
                .flat_map(|block| block[28..508].to_vec())
                .collect()
        };
        assert!(records(&one) == records(&other), "the records differ");
    }
}
