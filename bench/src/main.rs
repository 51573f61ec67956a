//! `bench [--rounds N] [--units N] [--only WORDS] [--readout PROGRAM]`: times, least
//! and median, of each entry point beside the yardstick, all in one run; or of the
//! cases alone whose names have these words.
//!
//! `bench --growth [--rounds N]`: a line for each call and number of records, which
//! `scripts/growth` makes a plot of: call, records, least time of the library and of
//! the plain implementation in microseconds, with tabs between.
//!
//! The yardstick is the two sums over 86 blocks with the remainders taken once a
//! block. Each round runs it and then the case once for each implementation, so
//! that what else the machine does falls on all alike.

mod big;
mod calls;
mod deep;
mod exchange;
mod hashed;
mod options;
mod readout;
#[cfg(feature = "sqlite")]
mod sqlite;
mod times;

use library::{Library, Plain};
use options::Options;
use std::hint::black_box;
use times::{Times, clock};

type Named = (&'static str, Box<dyn Library>);

/// The static library, if the program is built with it.
fn ours() -> Option<Named> {
    #[cfg(feature = "static")]
    return Some(("static", Box::new(library::Static)));
    #[cfg(not(feature = "static"))]
    None
}

/// The implementations that are timed, by the name of their column.
fn libraries() -> Vec<Named> {
    let plain: Named = ("plain", Box::new(Plain));
    [Some(plain), ours()].into_iter().flatten().collect()
}

/// The two sums over the 86 blocks of a file, remainders once a block.
#[inline(never)]
fn yardstick(file: &[u8]) -> u32 {
    let mut all = 0;
    for block in file.as_chunks::<512>().0 {
        let (mut first, mut second) = (0u32, 0u32);
        for word in block[..508].as_chunks::<2>().0 {
            first += u16::from_le_bytes(*word) as u32;
            second += first;
        }
        all ^= first % 65_521 + second % 65_521;
    }
    all
}

fn main() {
    let options = Options::from_args();
    if options.growth {
        return growth(options.rounds);
    }
    let libraries = libraries();
    let log = workload::log_of(512, options.units, 6, &workload::Mix::BENCH, 1);
    let mut file = vec![0; plain::FILE];
    plain::write_file(&log, &plain::EMPTY_BASE, 7, 0, &mut file).expect("a sound log");

    let pair = exchange::Pair::new();
    let big = big::Big::new();
    let mut cases = calls::cases(&log, &pair, &big);
    if let Some(words) = &options.only {
        cases.retain(|case| case.name.contains(words));
    }
    let mut yard = Times::default();
    let mut times = vec![vec![Times::default(); libraries.len()]; cases.len()];
    for (case, times) in cases.iter_mut().zip(&mut times) {
        for _ in 0..options.rounds {
            yard.push(clock(|| black_box(yardstick(black_box(&file)))));
            for ((_, library), times) in libraries.iter().zip(times.iter_mut()) {
                if let Some(time) = case.run(&**library) {
                    times.push(time);
                }
            }
        }
    }

    println!(
        "512 records of {} units, {} rounds; microseconds, least and median, then times the yardstick",
        options.units, options.rounds
    );
    times::head(&libraries.iter().map(|(name, _)| *name).collect::<Vec<_>>());
    times::row("yardstick", &[yard.clone()], &yard);
    for (case, times) in cases.iter().zip(&times) {
        times::row(&case.name, times, &yard);
    }
    if options.only.is_some() {
        return;
    }

    let exchanges: [(&str, fn(&exchange::Pair, &dyn Library) -> u64); 2] = [
        ("exchange, 256 each way", exchange::Pair::run),
        ("exchange by rows, 256 each way", exchange::Pair::run_by_rows),
    ];
    for (name, exchange) in exchanges {
        let mut times = vec![Times::default(); libraries.len()];
        for _ in 0..options.rounds.div_ceil(20) {
            for ((_, library), times) in libraries.iter().zip(&mut times) {
                times.push(exchange(&pair, &**library));
            }
        }
        times::row(name, &times, &yard);
    }
    #[cfg(feature = "sqlite")]
    {
        by_sqlite(&pair, options.rounds.div_ceil(20), &yard);
        look_up_by_sqlite(&big, options.rounds.div_ceil(4), &yard);
    }

    readout::measure(&options, &file, &yard);
}

/// The lines of the growth.
fn growth(rounds: usize) {
    let libraries = libraries();
    for (call, records, mut case) in calls::growing() {
        let mut times = vec![Times::default(); libraries.len()];
        for _ in 0..rounds {
            for ((_, library), times) in libraries.iter().zip(&mut times) {
                if let Some(time) = case.run(&**library) {
                    times.push(time);
                }
            }
        }
        let least = |at: usize| times.get(at).and_then(Times::least);
        let least = |at| least(at).map_or("-".to_string(), |least| format!("{least:.2}"));
        println!("{call}\t{records}\t{}\t{}", least(1), least(0));
    }
}

/// The same look-ups and listing by SQLite, in memory, with statements that are
/// prepared once. The times stand in the first column.
#[cfg(feature = "sqlite")]
fn look_up_by_sqlite(big: &big::Big, rounds: usize, yard: &Times) {
    let entries = sqlite::Entries::of(big);
    let keys = big.keys(1000);
    let (mut find, mut list) = (Times::default(), Times::default());
    for _ in 0..rounds {
        find.push(entries.find(&keys));
        list.push(entries.list());
    }
    times::row("look up, SQLite, 1000 times", &[find], yard);
    times::row("list a folder of 400, SQLite", &[list], yard);
}

/// The exchange by SQLite: one changeset each way, and one for six records as a
/// block has them. The times stand in the first column.
#[cfg(feature = "sqlite")]
fn by_sqlite(pair: &exchange::Pair, rounds: usize, yard: &Times) {
    if !sqlite::has_sessions() {
        println!("this SQLite has no session extension");
        return;
    }
    let [first, second] = pair.records();
    for (name, each) in [("whole", 256), ("by six", 6)] {
        let mut times = Times::default();
        for _ in 0..rounds {
            times.push(sqlite::exchange(first, second, each));
        }
        times::row(
            &format!("exchange, SQLite sessions, {name}"),
            &[times],
            yard,
        );
    }
}
