//! `readout` in plain Rust: lists the file on standard input.

use std::io::{self, Read, Write};
use std::process::ExitCode;

fn run() -> io::Result<()> {
    // One byte more than the longest file tells a longer one.
    let mut file = [0; plain::SAB2_FILE + 1];
    let mut len = 0;
    let mut input = io::stdin().lock();
    while len < file.len() {
        match input.read(&mut file[len..]) {
            Ok(0) => break,
            Ok(count) => len += count,
            Err(error) if error.kind() == io::ErrorKind::Interrupted => (),
            Err(error) => return Err(error),
        }
    }
    let mut out = [0; plain::LISTING];
    let listed = plain::listing(&file[..len], &mut out);
    let mut output = io::stdout().lock();
    output.write_all(&out[..listed])?;
    output.flush()
}

fn main() -> ExitCode {
    match run() {
        Ok(()) => ExitCode::SUCCESS,
        Err(error) => {
            eprintln!("readout: {error}");
            ExitCode::FAILURE
        }
    }
}
