//! A tree of 512 entries: a folder of 400, and others.

use plain::{EMPTY_BASE, INDEX, LOG, TREE};
use workload::Chance;

/// An entry by its folder and label.
#[derive(Clone)]
pub struct Key {
    pub folder: [u8; 4],
    pub label: [u8; 32],
    /// Only SQLite's answer is compared with it.
    #[cfg_attr(not(feature = "sqlite"), allow(dead_code))]
    pub entry: [u8; 4],
}

impl Key {
    /// The folder by unit and number.
    pub fn folder_asked(&self) -> library::Folder {
        library::folder_of(&self.folder)
    }
}

pub struct Big {
    pub index: Vec<u8>,
    pub entries: Vec<Key>,
}

impl Big {
    /// The big folder, 0.1.
    pub const FOLDER: [u8; 4] = [0, 0, 1, 0];
    /// How many entries it has.
    pub const INSIDE: usize = 400;

    pub fn new() -> Big {
        let mut log = vec![0; LOG];
        let mut make = |operation: u8, folder: [u8; 4], label: &str| {
            let mut wish = [0; 80];
            wish[1] = operation;
            wish[24..28].copy_from_slice(&folder);
            wish[28..32].copy_from_slice(&[0xe9, 7, 3, 3]);
            wish[32..32 + label.len()].copy_from_slice(label.as_bytes());
            plain::act(&mut log, &EMPTY_BASE, &mut [], 7, 0, &wish).expect("a make that fits");
        };
        make(1, [0; 4], "Bench");
        make(1, [0; 4], "Roof");
        for i in 0..Big::INSIDE {
            make(
                2,
                Big::FOLDER,
                &format!("Noise figure, stage {}", (i * 173) % 1000),
            );
        }
        for i in 0..110 {
            make(2, [[0; 4], [0, 0, 2, 0]][i % 2], &format!("Gain {i}"));
        }
        let mut index = vec![0; INDEX];
        plain::index(&log, &EMPTY_BASE, &mut index).expect("a sound log");
        let mut tree = vec![0; TREE];
        plain::show(&log, &EMPTY_BASE, &mut tree).expect("a sound log");
        let entries: Vec<Key> = tree[4..]
            .chunks(72)
            .take(usize::from(u16::from_le_bytes([tree[0], tree[1]])))
            .map(|row| Key {
                folder: std::array::from_fn(|i| row[8 + i]),
                label: std::array::from_fn(|i| row[24 + i]),
                entry: std::array::from_fn(|i| row[4 + i]),
            })
            .collect();
        assert_eq!(entries.len(), 512);
        Big { index, entries }
    }

    /// Entries in an order by chance.
    pub fn keys(&self, count: usize) -> Vec<Key> {
        let mut chance = Chance::new(6);
        (0..count)
            .map(|_| chance.pick(&self.entries).clone())
            .collect()
    }
}
