//! Wishes that mostly fit the tree they are made for.

use crate::Chance;
use plain::{ASIDE_ROW, ENTRY_ROW, ROWS, TREE};

/// How often each operation is wished, and among how many labels.
#[derive(Clone, Copy)]
pub struct Mix {
    /// Weights of make folder, make trace, store, remove, rename, settle, move.
    pub weights: [usize; 7],
    pub labels: usize,
    /// Each letter of a label is a capital or a small letter by chance.
    pub cases: bool,
}

impl Mix {
    /// Mostly traces and stores; a label is seldom met twice.
    pub const BENCH: Mix = Mix {
        weights: [10, 45, 25, 6, 8, 6, 0],
        labels: 4000,
        cases: false,
    };
    /// Few labels, so that many records stand aside after a meeting.
    pub const CONFLICTS: Mix = Mix {
        weights: [20, 30, 16, 12, 14, 8, 0],
        labels: 12,
        cases: false,
    };
    /// The same, each label in many cases.
    pub const CASES: Mix = Mix {
        cases: true,
        ..Mix::CONFLICTS
    };
    /// Folders in folders, and many moves of both kinds of entry.
    pub const MOVES: Mix = Mix {
        weights: [26, 14, 6, 8, 8, 8, 30],
        labels: 24,
        cases: true,
    };
}

fn get16(bytes: &[u8], at: usize) -> usize {
    u16::from_le_bytes([bytes[at], bytes[at + 1]]) as usize
}

fn label(chance: &mut Chance, mix: &Mix, into: &mut [u8]) {
    let drawn = chance.below(mix.labels);
    let text = match drawn % 8 {
        0 => format!("n{drawn}"),
        1 => format!("Gain \"{drawn}\""),
        2 => format!("C:\\sweep\\{drawn}"),
        3 => format!("{drawn:032}"),
        4 => format!("Noise figure, stage {drawn}"),
        5 => format!("~{drawn}"),
        6 => format!("S{drawn} 10 MHz"),
        _ => format!("Trace {drawn}"),
    };
    into[..text.len()].copy_from_slice(text.as_bytes());
    if mix.cases {
        for byte in into.iter_mut().filter(|byte| byte.is_ascii_alphabetic()) {
            *byte ^= (chance.below(2) as u8) << 5;
        }
    }
}

/// A wish of a unit whose log shows this tree. If nothing stands that the drawn
/// operation could name, it makes a folder.
pub fn wish(chance: &mut Chance, mix: &Mix, unit: u8, tree: &[u8; TREE]) -> [u8; 80] {
    let (entries, _) = tree[4..4 + ROWS * ENTRY_ROW].as_chunks::<ENTRY_ROW>();
    let (asides, _) = tree[4 + ROWS * ENTRY_ROW..].as_chunks::<ASIDE_ROW>();
    let entries = &entries[..get16(tree, 0)];
    let asides = &asides[..get16(tree, 2)];
    let of_kind = |kind: u8| {
        entries
            .iter()
            .filter(|row| row[0] == kind)
            .collect::<Vec<_>>()
    };

    let total = mix.weights.iter().sum();
    let mut drawn = chance.below(total);
    let mut operation = 1;
    for weight in mix.weights {
        if drawn < weight {
            break;
        }
        drawn -= weight;
        operation += 1;
    }
    let traces = of_kind(2);
    let named = match operation {
        3 if !traces.is_empty() => Some(&chance.pick(&traces)[4..8]),
        4 | 5 | 7 if !entries.is_empty() => Some(&chance.pick(entries)[4..8]),
        6 if !asides.is_empty() => Some(&chance.pick(asides)[..4]),
        _ => None,
    };
    let mut wish = [0; 80];
    wish[0] = unit;
    wish[28..30].copy_from_slice(&(1990 + chance.below(210) as u16).to_le_bytes());
    wish[30] = 1 + chance.below(12) as u8;
    wish[31] = 1 + chance.below(28) as u8;
    wish[1] = match (operation, named) {
        (1 | 2, _) => operation as u8,
        (_, None) => 1,
        (_, Some(identity)) => {
            wish[20..24].copy_from_slice(identity);
            operation as u8
        }
    };
    let folders = of_kind(1);
    if matches!(wish[1], 1 | 2 | 7) && !folders.is_empty() && !chance.one_in(4) {
        wish[24..28].copy_from_slice(&chance.pick(&folders)[4..8]);
    }
    if matches!(wish[1], 1 | 2 | 5 | 7) {
        label(chance, mix, &mut wish[32..64]);
    }
    if matches!(wish[1], 2 | 3) {
        chance.bytes(&mut wish[64..80]);
    }
    wish
}
