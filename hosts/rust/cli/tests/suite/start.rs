//! Start-up and a listing beside `readout`'s whole run. Not part of the gate:
//! `scripts/start-up` runs it.

use crate::common::{kit, root};
use std::fs::File;
use std::path::Path;
use std::process::{Command, Stdio};
use std::time::{Duration, Instant};

const ROUNDS: usize = 1000;

fn timed(command: &mut Command, file: &Path) -> Duration {
    command
        .stdin(File::open(file).expect("a file"))
        .stdout(Stdio::null());
    let began = Instant::now();
    assert!(command.status().expect("a process").success());
    began.elapsed()
}

#[test]
#[ignore = "takes its time, and wants a quiet machine"]
fn start_up() {
    let readout = root().join("target/bin/readout");
    assert!(readout.exists(), "no {}", readout.display());
    for name in ["good-paper", "good-512-records"] {
        let file = kit().join(name).with_extension("in");
        let (mut plain, mut ours) = (Vec::new(), Vec::new());
        for _ in 0..ROUNDS {
            plain.push(timed(&mut Command::new(&readout), &file));
            let mut sab = Command::new(env!("CARGO_BIN_EXE_sab"));
            ours.push(timed(sab.arg("list").arg(&file), &file));
        }
        plain.sort();
        ours.sort();
        for (what, at) in [("least", 0), ("median", ROUNDS / 2)] {
            let ratio = ours[at].as_secs_f64() / plain[at].as_secs_f64();
            println!(
                "{name}: {what} of {ROUNDS} runs: readout {:?}, sab list {:?}, {ratio:.2} times",
                plain[at], ours[at]
            );
        }
        assert!(ours[0].as_secs_f64() <= 1.2 * plain[0].as_secs_f64());
    }
}
