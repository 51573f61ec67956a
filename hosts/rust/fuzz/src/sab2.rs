//! The SAB2 file of a state that is mostly sound, written by both; then changed,
//! read, listed and converted.

use crate::compare::{both, show};
use crate::input::Input;
use crate::life::{ARCHIVE, Life, seal};
use crate::read_file::{file_of, patch};
use library::{FILE, LISTING, Refusal, SAB2_FILE};
use plain::{BASE, BLOCK, LOG, RECORD};

/// What a call that writes a file leaves, blocks alone.
fn written(
    call: u8,
    length: usize,
    run: impl Fn(&dyn library::Library, &mut [u8]) -> library::Answer<u16>,
) -> Option<Vec<u8>> {
    let (answer, mut after) = both(call, &[&vec![0xa5; length]], |library, lent| {
        run(library, &mut lent[0])
    });
    let mut file = after.pop().expect("one buffer");
    file.truncate(BLOCK * usize::from(answer.ok()?));
    Some(file)
}

/// Changes rows and records of a file, and its length.
fn changed(input: &mut Input, file: &mut Vec<u8>) {
    for _ in 0..input.below(4) {
        patch(input, file);
    }
    if input.one_in(4) {
        // One place of 80 bytes becomes another.
        let places = 6 * (file.len() / BLOCK);
        let at = |i: usize| BLOCK * (i / 6) + 28 + RECORD * (i % 6);
        let (from, to) = (at(input.below(places)), at(input.below(places)));
        file.copy_within(from..from + RECORD, to);
        file.chunks_mut(BLOCK).for_each(seal);
    }
    if input.one_in(16) {
        file.truncate(BLOCK * input.below(20));
    }
    if input.one_in(32) {
        file.truncate(input.below(file.len() + 1));
    }
    if input.one_in(16) {
        let block = file[..file.len().min(BLOCK)].to_vec();
        file.extend(block);
    }
}

pub fn sab2(data: &[u8]) {
    let mut input = Input::new(data);
    let life = Life::drawn(&mut input);
    let own = input.below(8);
    let mut state = life.state(own, &mut input);
    state.patch(&mut input, 32);
    let unit = input.unit();
    let length = if input.one_in(32) {
        input.below(SAB2_FILE)
    } else {
        SAB2_FILE
    };
    let file = written(0, length, |library, file| {
        library.write_sab2(&state.log, &state.base, ARCHIVE, unit, file)
    });
    let mut file = match file {
        Some(file) => file,
        // Of a log alone, as SAB1.
        None => file_of(&life.log(own)),
    };
    changed(&mut input, &mut file);
    let up = written(1, SAB2_FILE, |library, out| library.to_sab2(&file, out));
    let back = written(2, FILE, |library, out| library.to_sab1(&file, out));
    if let Some(up) = up {
        let again = written(3, FILE, |library, out| library.to_sab1(&up, out));
        assert!(
            again.as_ref() == Some(&file),
            "to SAB2 and back, the file differs"
        );
    }
    let out = vec![0xa5; LISTING];
    let _ = both(4, &[&out], |library, lent| {
        library.listing_into(&file, &mut lent[0]).ok_or(Refusal {
            number: 1,
            place: 0,
        })
    });
    let (answer, after) = both(5, &[&[0xa5; LOG], &[0xa5; BASE]], |library, lent| {
        let [log, base] = lent else {
            unreachable!("a log and a base");
        };
        library.read_file(log, base, &file)
    });
    let Ok(head) = answer else {
        assert!(back.is_none(), "the way back of a refused file");
        return;
    };
    show(&after[0], &after[1]);
    if !file.starts_with(b"SAB2") {
        return;
    }
    let again = written(6, SAB2_FILE, |library, file| {
        library.write_sab2(&after[0], &after[1], head.archive, head.unit.into(), file)
    });
    assert!(
        again.as_ref() == Some(&file),
        "written again, the file differs"
    );
    assert_eq!(back.is_some(), after[1][8..24] == [0; 16], "the way back");
}
