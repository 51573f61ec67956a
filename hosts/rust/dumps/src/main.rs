//! `dumps [--plain] [--check] PAGE..`: puts the listing and the dump of each
//! example into its place in a page, between `<!-- NAME: begin -->` and
//! `<!-- NAME: end -->`; a page `NAME.sab` is the file of the example itself.
//! With --check nothing is written: a place that holds anything else has failed.

mod dump;
mod examples;

use library::Library;
use std::fs;
use std::path::Path;
use std::process::ExitCode;

#[derive(Default)]
struct Tally {
    passed: usize,
    failed: usize,
}

/// The page with its places filled anew.
fn renewed(library: &dyn Library, page: &str, tally: &mut Tally) -> Option<String> {
    let mut text = String::new();
    let mut rest = page;
    while let Some((before, behind)) = rest.split_once(": begin -->\n") {
        let (_, example) = before.rsplit_once("<!-- ")?;
        let end = format!("<!-- {example}: end -->\n");
        let (stands, after) = behind.split_once(&end)?;
        let due = dump::page_part(&examples::example(library, example)?);
        if stands == due {
            tally.passed += 1;
        } else {
            tally.failed += 1;
            println!("{example}: another dump stood in the page");
        }
        text += &format!("{before}: begin -->\n{due}{end}");
        rest = after;
    }
    Some(text + rest)
}

/// The file of the example by which a path is named.
fn write_file(
    library: &dyn Library,
    check: bool,
    path: &str,
    tally: &mut Tally,
) -> Result<(), String> {
    let stem = Path::new(path).file_stem().and_then(|stem| stem.to_str());
    let example = stem.and_then(|stem| examples::example(library, stem));
    let due = example.ok_or(format!("{path}: no example"))?.file;
    if fs::read(path).is_ok_and(|stands| stands == due) {
        tally.passed += 1;
        return Ok(());
    }
    tally.failed += 1;
    println!("{path}: another file stood there");
    if check {
        return Ok(());
    }
    fs::write(path, due).map_err(|error| format!("{path}: {error}"))
}

fn run(library: &dyn Library, check: bool, pages: &[String]) -> Result<Tally, String> {
    let mut tally = Tally::default();
    for name in pages {
        if name.ends_with(".sab") {
            write_file(library, check, name, &mut tally)?;
            continue;
        }
        let page = fs::read_to_string(name).map_err(|error| format!("{name}: {error}"))?;
        let text = renewed(library, &page, &mut tally)
            .ok_or(format!("{name}: a place without an end, or no example"))?;
        if !check && text != page {
            fs::write(name, text).map_err(|error| format!("{name}: {error}"))?;
        }
    }
    Ok(tally)
}

/// The implementation that the words of the command choose.
fn chosen(plain: bool) -> Option<Box<dyn Library>> {
    if plain {
        return Some(Box::new(library::Plain));
    }
    #[cfg(feature = "static")]
    return Some(Box::new(library::Static));
    #[cfg(not(feature = "static"))]
    None
}

fn main() -> ExitCode {
    let (options, pages): (Vec<String>, Vec<String>) = std::env::args()
        .skip(1)
        .partition(|word| word.starts_with("--"));
    let known = |word: &String| word == "--plain" || word == "--check";
    if pages.is_empty() || !options.iter().all(known) {
        eprintln!("usage: dumps [--plain] [--check] PAGE..");
        return ExitCode::from(2);
    }
    let Some(library) = chosen(options.contains(&"--plain".to_string())) else {
        eprintln!("built without the static library: build with --features static, or say --plain");
        return ExitCode::from(2);
    };
    let check = options.contains(&"--check".to_string());
    match run(&*library, check, &pages) {
        Err(fault) => {
            eprintln!("{fault}");
            ExitCode::from(2)
        }
        Ok(Tally { passed, failed }) if check => {
            println!("{passed} passed, {failed} failed");
            ExitCode::from((failed > 0 || passed == 0) as u8)
        }
        Ok(_) => ExitCode::SUCCESS,
    }
}
