//! Labels chosen against the library: all in one folder and under one hash of its
//! register, which keeps them in one chain.

use plain::{EMPTY_BASE, LOG};

/// The weights of the register, as in crates/tree_maps.
const WEIGHTS: [u32; 32] = [
    20251, 30011, 26489, 21157, 31247, 17681, 14551, 23609, 28711, 12289, 19427, 32009, 11083, 25013,
    16553, 29297, 13477, 22147, 27407, 18301, 10459, 31687, 15241, 24181, 20899, 29873, 12697, 26041,
    17093, 21613, 30529, 14071,
];

/// The hash of a label in the root.
fn hash(label: &[u8]) -> u32 {
    let weighed = label.iter().zip(WEIGHTS).map(|(byte, weight)| u32::from(byte % 32) * weight);
    weighed.sum::<u32>() % 1021
}

/// Makes of traces in the root, so many, whose labels have one hash.
pub fn makes(count: usize) -> Vec<[u8; 80]> {
    let labels = (0..).map(|i| format!("Noise figure, stage {i:08}"));
    let chosen = labels.filter(|label| hash(label.as_bytes()) == 0);
    let make = |label: String| {
        let mut wish = [0; 80];
        wish[1] = 2;
        wish[28..32].copy_from_slice(&[0xe9, 7, 3, 3]);
        wish[32..32 + label.len()].copy_from_slice(label.as_bytes());
        wish
    };
    chosen.take(count).map(make).collect()
}

/// A log of such makes.
pub fn log(makes: &[[u8; 80]]) -> Vec<u8> {
    let mut log = vec![0; LOG];
    for wish in makes {
        plain::act(&mut log, &EMPTY_BASE, &mut [], 7, 0, wish).expect("a wish that fits");
    }
    log
}
