//! What the command asks for.

use std::path::PathBuf;

pub struct Options {
    pub rounds: usize,
    /// Units that made the records.
    pub units: usize,
    /// Lines for a plot in place of the table.
    pub growth: bool,
    /// What the names of the cases contain that are timed.
    pub only: Option<String>,
    /// The reading program to time beside the plain one.
    pub readout: Option<PathBuf>,
}

const USAGE: &str = "usage: bench [--growth] [--rounds N] [--units 1..8] [--only WORDS] [--readout PROGRAM]";

impl Options {
    pub fn from_args() -> Options {
        let mut options = Options {
            rounds: 2000,
            units: 8,
            growth: false,
            only: None,
            readout: None,
        };
        let mut words = std::env::args().skip(1);
        while let Some(word) = words.next() {
            if word == "--growth" {
                options.growth = true;
                continue;
            }
            let value = words.next().unwrap_or_else(|| fail());
            match word.as_str() {
                "--rounds" => options.rounds = value.parse().unwrap_or_else(|_| fail()),
                "--units" => options.units = value.parse().unwrap_or_else(|_| fail()),
                "--only" => options.only = Some(value),
                "--readout" => options.readout = Some(PathBuf::from(value)),
                _ => fail(),
            }
        }
        if options.rounds == 0 || !(1..=8).contains(&options.units) {
            fail();
        }
        options
    }
}

fn fail() -> ! {
    eprintln!("{USAGE}");
    std::process::exit(2);
}
