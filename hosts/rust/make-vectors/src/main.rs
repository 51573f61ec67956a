//! `make-vectors DIR`: writes call lists, tables and readout cases into a
//! directory, the same bytes each time. What is expected is what the plain
//! implementation does; where a case is made for one refusal, that it comes is
//! checked here.

use make_vectors::{lists, readout, tables};
use std::fs;
use std::io;
use std::path::Path;

fn write(directory: &Path) -> io::Result<()> {
    fs::create_dir_all(directory.join("lists"))?;
    fs::create_dir_all(directory.join("readout"))?;
    for (name, list) in lists::all() {
        fs::write(directory.join("lists").join(format!("{name}.txt")), list)?;
    }
    fs::write(directory.join("tables.txt"), tables::all())?;
    for case in readout::all() {
        let path = directory.join("readout").join(&case.name);
        fs::write(path.with_extension("in"), &case.file)?;
        fs::write(path.with_extension("out"), readout::listing(&case.file))?;
    }
    Ok(())
}

fn main() -> io::Result<()> {
    match std::env::args().nth(1) {
        Some(directory) => write(Path::new(&directory)),
        None => {
            eprintln!("usage: make-vectors DIR");
            std::process::exit(2);
        }
    }
}
