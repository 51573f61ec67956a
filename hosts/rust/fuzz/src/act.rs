//! An act on a log that is mostly sound, then a hand-out and a file of it; the
//! asked vector compared with the held one.

use crate::compare::{both, show};
use crate::index;
use crate::input::Input;
use crate::life::{ARCHIVE, Life, State, fill_in};
use library::Refusal;
use plain::{BLOCK, FILE, RECORD};

fn wish(input: &mut Input, held: &[u16; 8], unit: u8) -> Vec<u8> {
    let mut wish = [0; RECORD];
    wish[0] = unit;
    wish[1] = 1 + input.byte() % 7;
    wish[28..32].copy_from_slice(&[0xe9, 7, 1 + input.byte() % 12, 28]);
    fill_in(&mut wish, held, input);
    if input.one_in(4) {
        input.patch(&mut wish, RECORD);
    }
    let mut wish = wish.to_vec();
    if input.one_in(32) {
        wish.truncate(input.below(RECORD));
    }
    wish
}

pub fn act(data: &[u8]) {
    let mut input = Input::new(data);
    let life = Life::drawn(&mut input);
    let own = input.below(8);
    let mut state = life.state(own, &mut input);
    let unit = input.unit();
    let wish = wish(&mut input, &state.vector(), unit as u8);
    state.patch(&mut input, 8);
    let index = index::lent(&mut input, &state);
    let right = index.is_empty() || index == index::fresh(&state);
    let (_, after) = both(4, &[&state.log, &index], |library, lent| {
        let [log, index] = lent else {
            unreachable!("two buffers");
        };
        library.act(log, &state.base, index, ARCHIVE, unit, &wish)
    });
    state.log.clone_from(&after[0]);
    let State { log, base } = &state;
    if right && !index.is_empty() && plain::sound(log, base) {
        assert!(after[1] == index::fresh(&state), "the index and a fresh one differ");
    }
    show(log, base);
    let _ = both(3, &[], |library, _| library.vector(log, base));
    let mut asked = state.vector();
    for _ in 0..input.below(4) {
        let of_unit = input.below(8);
        asked[of_unit] = asked[of_unit].wrapping_sub(input.byte() as u16);
    }
    let (handed, block) = both(5, &[&[0xa5; BLOCK]], |library, lent| {
        library.hand_out(log, base, ARCHIVE, unit, &asked, &mut lent[0])
    });
    let held = state.vector();
    let (said, _) = both(2, &[], |library, _| {
        Ok::<_, Refusal>(library.compare(&asked, &held))
    });
    if let (Ok(()), Ok(said)) = (handed, said) {
        let count = u32::from(block[0][9]);
        assert_eq!(count, said.first_lacks.min(6), "count and distance differ");
    }
    let _ = both(6, &[&[0xa5; FILE]], |library, lent| {
        library.write_file(log, base, ARCHIVE, unit, &mut lent[0])
    });
}
