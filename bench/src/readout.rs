//! The reading program, process start included.

use crate::options::Options;
use crate::times::{self, Times, clock};
use std::fs::{self, File};
use std::path::{Path, PathBuf};
use std::process::{Command, Stdio};

/// Times the plain program, and another one if it is named.
pub fn measure(options: &Options, file: &[u8], yard: &Times) {
    let here = std::env::current_exe().expect("a path of this program");
    let mut programs = vec![here.with_file_name("plain-readout")];
    programs.extend(options.readout.clone());
    if let Some(program) = programs.iter().find(|program| !program.exists()) {
        println!("no program {}", program.display());
        return;
    }
    let input = std::env::temp_dir().join(format!("bench-readout-{}", std::process::id()));
    fs::write(&input, file).expect("a file to read");
    let listings: Vec<Vec<u8>> = programs
        .iter()
        .map(|program| output(program, &input))
        .collect();
    let same = listings.iter().all(|listing| *listing == listings[0]);
    let mut times = vec![Times::default(); programs.len()];
    for _ in 0..options.rounds.div_ceil(4) {
        for (program, times) in programs.iter().zip(&mut times) {
            times.push(clock(|| output(program, &input)));
        }
    }
    fs::remove_file(&input).expect("the file that was read");
    times::row("readout, whole run", &times, yard);
    if !same {
        println!("the listings differ");
    }
}

fn output(program: &PathBuf, input: &Path) -> Vec<u8> {
    let input = File::open(input).expect("the file to read");
    let run = Command::new(program)
        .stdin(input)
        .stderr(Stdio::inherit())
        .output()
        .expect("a program to run");
    assert!(run.status.success());
    run.stdout
}
