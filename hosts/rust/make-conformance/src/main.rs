//! `make-conformance DIR`: writes the conformance kit into a directory, the same
//! bytes each time: files with their listings, call lists, tables, merges,
//! conversions, orders, states, plans, and an index that says what each case shows. Each
//! case names its answer, and that the plain implementation gives it is checked here.

mod acts;
mod blocks;
mod calls;
mod converts;
mod damaged;
mod finding;
mod folding;
mod good;
mod index;
mod kit;
mod merges;
mod orders;
mod plans;
mod rows;
mod sab2;
mod states;
mod tables;

use kit::{Case, Written};
use std::fs;
use std::io;
use std::path::Path;

fn write(directory: &Path) -> io::Result<()> {
    let (mut good, mut damaged): (Vec<Case>, Vec<Case>) = (good::all(), damaged::all());
    good.extend(sab2::all_good());
    damaged.extend(sab2::all_refused());
    let lists: Vec<Written> = vec![
        blocks::list(),
        acts::list(),
        calls::list(),
        calls::meeting(),
        calls::full(),
        rows::list(),
        finding::list(),
        folding::list(),
    ];
    let lines = [
        tables::all(),
        merges::all(),
        converts::all(),
        orders::all(),
        states::all(),
    ];
    let plans = plans::all();

    fs::create_dir_all(directory.join("lists"))?;
    let printed = good.iter().chain(&damaged).map(|case| ("readout", case));
    for (folder, case) in printed.chain(plans.iter().map(|case| ("plan", case))) {
        fs::create_dir_all(directory.join(folder))?;
        let path = directory.join(folder).join(&case.name);
        fs::write(path.with_extension("in"), &case.file)?;
        fs::write(path.with_extension("out"), &case.listing)?;
    }
    for list in &lists {
        fs::write(
            directory.join("lists").join(format!("{}.txt", list.name)),
            &list.text,
        )?;
    }
    for lines in &lines {
        fs::write(directory.join(format!("{}.txt", lines.name)), &lines.text)?;
    }
    fs::write(
        directory.join("README.md"),
        index::page(&good, &damaged, &plans, &lists, &lines),
    )
}

fn main() -> io::Result<()> {
    match std::env::args().nth(1) {
        Some(directory) => write(Path::new(&directory)),
        None => {
            eprintln!("usage: make-conformance DIR");
            std::process::exit(2);
        }
    }
}
