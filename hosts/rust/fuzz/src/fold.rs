//! A fold by a state that is mostly sound, with any list; then another, and a
//! hand-out of what is left.

use crate::compare::{both, show};
use crate::index;
use crate::input::Input;
use crate::life::{ARCHIVE, Life, State, held};
use plain::BLOCK;

/// Folds on both; the state left.
fn folded(call: u8, state: &State, unit: u32, list: u8) -> (Option<u16>, State) {
    let (answer, mut after) = both(call, &[&state.log, &state.base], |library, lent| {
        let [log, base] = lent else {
            unreachable!("a log and a base");
        };
        library.fold(log, base, ARCHIVE, unit, list)
    });
    let base = after.pop().expect("two buffers");
    let log = after.pop().expect("two buffers");
    (answer.ok(), State { log, base })
}

pub fn fold(data: &[u8]) {
    let mut input = Input::new(data);
    let life = Life::drawn(&mut input);
    let own = input.below(8);
    let mut state = life.state(own, &mut input);
    state.patch(&mut input, 16);
    let unit = input.unit();
    let mut list = input.byte();
    if !input.one_in(8) {
        let counts = state.vector();
        (0..8).for_each(|unit| list |= u8::from(counts[unit] > 0) << unit);
        list |= 1 << (unit & 7);
    }
    let (count, after) = folded(0, &state, unit, list);
    let Some(count) = count else {
        return;
    };
    assert_eq!(held(&after.log) + usize::from(count), held(&state.log));
    assert_eq!(after.vector(), state.vector(), "the vectors differ");
    assert!(index::fresh(&after) == index::fresh(&state), "the indexes differ");
    let (again, _) = folded(1, &after, unit, list);
    assert_eq!(again, Some(0), "a second fold");
    show(&after.log, &after.base);
    let mut asked = after.vector();
    asked[input.below(8)] = input.byte().into();
    let _ = both(2, &[&[0xa5; BLOCK]], |library, lent| {
        library.hand_out(&after.log, &after.base, ARCHIVE, unit, &asked, &mut lent[0])
    });
}
