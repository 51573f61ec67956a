//! A meeting of two units that made 256 records each.

use crate::times::clock;
use library::Library;
use plain::{BLOCK, EMPTY_BASE, FILE, LOG};
use workload::{Chance, Mix, Units, vector_of};

const ARCHIVE: u32 = 7;

/// The logs of the two units before they meet.
pub struct Pair {
    logs: [Vec<u8>; 2],
}

impl Pair {
    pub fn new() -> Pair {
        let mut chance = Chance::new(2);
        let mut units = Units::empty(2, ARCHIVE);
        for unit in 0..2 {
            let mut made = 0;
            while made < 256 {
                made += units.act(&mut chance, &Mix::BENCH, unit) as usize;
            }
        }
        let [first, second] = &units.logs[..] else {
            unreachable!()
        };
        Pair {
            logs: [first.clone(), second.clone()],
        }
    }

    /// Each unit's log, all of its own making.
    pub fn logs(&self) -> [&[u8]; 2] {
        [0, 1].map(|unit| &self.logs[unit][..])
    }

    /// What each unit made.
    #[cfg(feature = "sqlite")]
    pub fn records(&self) -> [&[[u8; 80]]; 2] {
        [0, 1].map(|unit| &self.logs[unit].as_chunks().0[..256])
    }

    /// The time in which blocks pass both ways until neither lacks a record.
    pub fn run(&self, library: &dyn Library) -> u64 {
        let [mut first, mut second] = self.logs.clone();
        let time = clock(|| {
            pass(library, &first, 0, &mut second, 1);
            pass(library, &second, 1, &mut first, 0);
        });
        assert!(first == second && first[LOG - 80] < 2);
        time
    }

    /// The time in which a row passes each way.
    pub fn run_by_rows(&self, library: &dyn Library) -> u64 {
        let [mut first, mut second] = self.logs.clone();
        let mut row = vec![0; FILE];
        let time = clock(|| {
            pass_row(library, &first, 0, &mut second, 1, &mut row);
            pass_row(library, &second, 1, &mut first, 0, &mut row);
        });
        assert!(first == second && first[LOG - 80] < 2);
        time
    }
}

/// Passes all that the other lacks in one row.
fn pass_row(
    library: &dyn Library,
    from: &[u8],
    giver: u32,
    to: &mut [u8],
    taker: u32,
    row: &mut [u8],
) {
    let blocks = library
        .hand_out_row(from, &EMPTY_BASE, ARCHIVE, giver, &vector_of(to), row)
        .unwrap();
    let row = &row[..BLOCK * usize::from(blocks)];
    let taken = library.take_row(to, &EMPTY_BASE, &mut [], ARCHIVE, taker, row).unwrap();
    assert_eq!(taken.stopped, 0);
}

/// Passes all that the other lacks. What it holds is counted from the blocks.
fn pass(library: &dyn Library, from: &[u8], giver: u32, to: &mut [u8], taker: u32) {
    let mut asked = vector_of(to);
    let mut block = [0; BLOCK];
    loop {
        library
            .hand_out(from, &EMPTY_BASE, ARCHIVE, giver, &asked, &mut block)
            .unwrap();
        if block[9] == 0 {
            return;
        }
        library.take(to, &EMPTY_BASE, &mut [], ARCHIVE, taker, &block).unwrap();
        for record in block[28..].chunks(80).take(block[9] as usize) {
            asked[record[0] as usize] += 1;
        }
    }
}
