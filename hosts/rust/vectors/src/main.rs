//! `vectors [--plain] DIR`: runs the call lists, tables, merges, conversions, orders,
//! states, plans and readout cases of a directory against the static library, or against the
//! plain implementation, and says how many passed and failed. Any failure, also a
//! directory without a case, gives an exit status other than 0.

mod converts;
mod lists;
mod merges;
mod orders;
mod plans;
mod readout;
mod states;
mod tables;
mod words;

use library::Library;
use std::fs;
use std::path::{Path, PathBuf};
use std::process::ExitCode;
use words::Fault;

/// Failures that are told one by one.
const TOLD: usize = 20;

#[derive(Default)]
struct Tally {
    passed: usize,
    failed: usize,
}

impl Tally {
    fn count(&mut self, what: impl FnOnce() -> String, outcome: Result<(), Fault>) {
        let Err(fault) = outcome else {
            self.passed += 1;
            return;
        };
        self.failed += 1;
        if self.failed <= TOLD {
            println!("{}: {fault}", what());
        }
    }
}

/// The lines of a text file; each must end with a line feed.
fn lines(text: &str) -> Result<Vec<&str>, Fault> {
    match text.strip_suffix('\n') {
        Some(text) => Ok(text.split('\n').collect()),
        None => Err("does not end with a line feed".to_string()),
    }
}

fn run_list(
    library: &dyn Library,
    path: &Path,
    text: &str,
    tally: &mut Tally,
) -> Result<(), Fault> {
    let lines = lines(text)?;
    let mut slots = lists::Slots::empty();
    let mut at = 0;
    while at < lines.len() {
        let line = lines[at];
        let shown: Vec<&str> = lines[at + 1..]
            .iter()
            .map_while(|line| line.strip_prefix("> "))
            .collect();
        if !line.starts_with('#') {
            let outcome = lists::call(library, &mut slots, line, &shown);
            tally.count(|| format!("{}:{}", path.display(), at + 1), outcome);
        }
        at += 1 + shown.len();
    }
    Ok(())
}

/// Files whose lines are cases by themselves, and what runs a line.
const TABLES: [(&str, Row); 6] = [
    ("tables.txt", tables::row),
    ("compare.txt", tables::row),
    ("wishes.txt", tables::row),
    ("merge.txt", merges::row),
    ("convert.txt", converts::row),
    ("order.txt", orders::row),
];

type Row = fn(&dyn Library, &str) -> Result<(), Fault>;

fn run_table(
    library: &dyn Library,
    row: Row,
    path: &Path,
    text: &str,
    tally: &mut Tally,
) -> Result<(), Fault> {
    for (at, line) in lines(text)?.iter().enumerate() {
        if !line.starts_with('#') {
            let outcome = row(library, line);
            tally.count(|| format!("{}:{}", path.display(), at + 1), outcome);
        }
    }
    Ok(())
}

/// The files of a directory with an ending, by name; none if there is no
/// directory.
fn files(directory: &Path, ending: &str) -> Vec<PathBuf> {
    let mut paths: Vec<PathBuf> = fs::read_dir(directory)
        .into_iter()
        .flatten()
        .flatten()
        .map(|entry| entry.path())
        .filter(|path| path.extension().is_some_and(|name| name == ending))
        .collect();
    paths.sort();
    paths
}

fn text(path: &Path) -> Result<String, Fault> {
    fs::read_to_string(path).map_err(|error| error.to_string())
}

/// What runs a case of a file and the text that is printed of it.
type Printed = fn(&dyn Library, &[u8], &[u8]) -> Result<(), Fault>;

fn run_printed(library: &dyn Library, case: Printed, path: &Path) -> Result<(), Fault> {
    let file = fs::read(path).map_err(|error| error.to_string())?;
    let expected = fs::read(path.with_extension("out")).map_err(|error| error.to_string())?;
    case(library, &file, &expected)
}

/// Each question is a case by itself, asked of the state that stands before it.
fn run_states(
    library: &dyn Library,
    path: &Path,
    text: &str,
    tally: &mut Tally,
) -> Result<(), Fault> {
    let mut state = states::State::none();
    for (at, line) in lines(text)?.iter().enumerate() {
        let what = || format!("{}:{}", path.display(), at + 1);
        if let Some(question) = line.strip_prefix("? ") {
            tally.count(what, state.ask(library, question));
        } else if !line.starts_with('#')
            && let Err(fault) = state.line(line)
        {
            tally.count(what, Err(fault));
        }
    }
    Ok(())
}

fn run(library: &dyn Library, directory: &Path) -> Tally {
    let mut tally = Tally::default();
    let states = directory.join("states.txt");
    if states.exists() {
        let whole = text(&states).and_then(|text| run_states(library, &states, &text, &mut tally));
        if whole.is_err() {
            tally.count(|| states.display().to_string(), whole);
        }
    }
    for path in files(&directory.join("lists"), "txt") {
        let whole = text(&path).and_then(|text| run_list(library, &path, &text, &mut tally));
        if whole.is_err() {
            tally.count(|| path.display().to_string(), whole);
        }
    }
    for (name, row) in TABLES {
        let path = directory.join(name);
        if !path.exists() {
            continue;
        }
        let whole = text(&path).and_then(|text| run_table(library, row, &path, &text, &mut tally));
        if whole.is_err() {
            tally.count(|| path.display().to_string(), whole);
        }
    }
    for (name, case) in [("readout", readout::case as Printed), ("plan", plans::case)] {
        for path in files(&directory.join(name), "in") {
            let outcome = run_printed(library, case, &path);
            tally.count(|| path.display().to_string(), outcome);
        }
    }
    tally
}

/// The implementation that the words of the command choose.
fn chosen(plain: bool) -> Option<Box<dyn Library>> {
    if plain {
        return Some(Box::new(library::Plain));
    }
    #[cfg(feature = "static")]
    return Some(Box::new(library::Static));
    #[cfg(not(feature = "static"))]
    None
}

fn main() -> ExitCode {
    let (options, directories): (Vec<String>, Vec<String>) = std::env::args()
        .skip(1)
        .partition(|word| word.starts_with("--"));
    let ([directory], true) = (
        &directories[..],
        options.iter().all(|word| word == "--plain"),
    ) else {
        eprintln!("usage: vectors [--plain] DIR");
        return ExitCode::from(2);
    };
    let Some(library) = chosen(!options.is_empty()) else {
        eprintln!("built without the static library: only --plain can be run");
        return ExitCode::from(2);
    };
    let tally = run(&*library, Path::new(directory));
    if tally.passed + tally.failed == 0 {
        eprintln!("no case in {directory}");
    }
    println!("{} passed, {} failed", tally.passed, tally.failed);
    if tally.failed == 0 && tally.passed > 0 {
        ExitCode::SUCCESS
    } else {
        ExitCode::FAILURE
    }
}
