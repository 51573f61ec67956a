//! Times taken, and the table of them.

use std::hint::black_box;
use std::time::Instant;

/// Times in nanoseconds.
#[derive(Clone, Default)]
pub struct Times(Vec<u64>);

impl Times {
    pub fn push(&mut self, time: u64) {
        self.0.push(time);
    }

    /// The least in microseconds, if any was taken.
    pub fn least(&self) -> Option<f64> {
        Some(*self.0.iter().min()? as f64 / 1000.0)
    }

    /// Least and median in microseconds, if any was taken.
    fn least_and_median(&self) -> Option<(f64, f64)> {
        let mut times = self.0.clone();
        times.sort_unstable();
        let least = *times.first()? as f64 / 1000.0;
        Some((least, times[times.len() / 2] as f64 / 1000.0))
    }
}

/// The time of one run.
pub fn clock<T>(run: impl FnOnce() -> T) -> u64 {
    let start = Instant::now();
    let result = run();
    let time = start.elapsed().as_nanos() as u64;
    black_box(result);
    time
}

/// The head of the table; behind the first implementation stand the others'
/// times in terms of it.
pub fn head(columns: &[&str]) {
    print!("{:48}", "");
    for (i, column) in columns.iter().enumerate() {
        print!(" {:>9} {:>9} {:>7}", column, "median", "yard");
        if i > 0 {
            print!(" {:>7}", "plain");
        }
    }
    println!();
}

/// A row: one case's times for each implementation.
pub fn row(name: &str, times: &[Times], yard: &Times) {
    let yard = yard.least_and_median().map_or(1.0, |(least, _)| least);
    let first = times.first().and_then(Times::least_and_median);
    print!("{name:48}");
    for (i, times) in times.iter().enumerate() {
        let Some((least, median)) = times.least_and_median() else {
            print!(" {:>9} {:>9} {:>7}", "-", "-", "-");
            continue;
        };
        print!(" {least:9.2} {median:9.2} {:7.2}", least / yard);
        if let (true, Some((first, _))) = (i > 0, first) {
            print!(" {:7.2}", least / first);
        }
    }
    println!();
}
