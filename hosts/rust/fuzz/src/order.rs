//! Orders of the records of a state that is mostly sound: by rank, with names
//! exchanged, changed, doubled and left out, and any bytes.

use crate::compare::both;
use crate::input::Input;
use crate::life::{Life, held};
use plain::{RECORD, TREE};

/// The names of the records by rank, and what happened to them.
fn list(input: &mut Input, log: &[u8]) -> Vec<u8> {
    let (records, _) = log.as_chunks::<RECORD>();
    let name = |record: &[u8; RECORD]| [record[0], 0, record[2], record[3]];
    let mut names: Vec<[u8; 4]> = records[..held(log)].iter().map(name).collect();
    for _ in 0..input.below(24) {
        let (one, other) = (input.below(names.len()), input.below(names.len()));
        match input.byte() % 16 {
            _ if names.is_empty() => (),
            0 => names[one] = names[other],
            1 => names[one][input.below(4)] = input.byte(),
            2 => names.insert(one, names[other]),
            3 => {
                names.remove(one);
            }
            4..10 => names.swap(one, other),
            _ if one + 1 < names.len() => names.swap(one, one + 1),
            _ => (),
        }
    }
    let mut list = names.into_flattened();
    if input.one_in(16) {
        list.truncate(input.below(list.len() + 1));
    }
    if input.one_in(16) {
        list.extend(input.rest());
    }
    list
}

pub fn order(data: &[u8]) {
    let mut input = Input::new(data);
    let life = Life::drawn(&mut input);
    let unit = input.below(8);
    let mut state = life.state(unit, &mut input);
    let list = list(&mut input, &state.log);
    state.patch(&mut input, 16);
    let length = TREE - usize::from(input.one_in(32));
    let lent = [vec![0xa5; length], vec![0x5a; TREE]];
    let (failed, left) = both(0, &[&lent[0], &lent[1]], |library, tables| {
        let [ours, theirs] = tables else {
            unreachable!("two tables");
        };
        library.check_order(&state.log, &state.base, &list, ours, theirs)
    });
    if !matches!(failed, Ok(0 | 3)) {
        assert!(left == lent, "the tables differ");
    }
}
