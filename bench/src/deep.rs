//! The longest ways up: a chain of folders, and moves at its end.

use plain::{EMPTY_BASE, LOG};

/// A move of the last folder of a chain to where it is. It fits, and the whole way
/// from its folder to the root is gone.
pub fn a_move(depth: u16) -> [u8; 80] {
    let mut wish = a_make(depth - 1);
    wish[1] = 7;
    wish[20..24].copy_from_slice(&identity(depth));
    wish
}

/// A folder in the last one of a chain, in the root for 0.
pub fn a_make(depth: u16) -> [u8; 80] {
    let mut wish = [0; 80];
    wish[1] = 1;
    wish[24..28].copy_from_slice(&identity(depth));
    wish[28..33].copy_from_slice(&[0xe9, 7, 3, 3, b'D']);
    wish
}

/// A log of a chain so deep, and so many moves at its end.
pub fn log(depth: u16, moves: usize) -> Vec<u8> {
    let mut log = vec![0; LOG];
    let makes = (0..depth).map(a_make);
    let moves = (0..moves).map(|_| a_move(depth));
    for wish in makes.chain(moves) {
        plain::act(&mut log, &EMPTY_BASE, &mut [], 7, 0, &wish).expect("a wish that fits");
    }
    log
}

fn identity(number: u16) -> [u8; 4] {
    let [low, high] = number.to_le_bytes();
    [0, 0, low, high]
}
