//! The program `sab`; the library `sab_cli` does the work.

#![forbid(unsafe_code)]

use sab_cli::out::Out;
use sab_cli::system::Machine;
use std::env;
use std::io::{self, IsTerminal};
use std::process::ExitCode;

fn main() -> ExitCode {
    let (mut out, mut err) = (io::stdout().lock(), io::stderr().lock());
    let mut both = Out::new(&mut out, &mut err);
    both.color =
        io::stdout().is_terminal() && env::var_os("NO_COLOR").is_none_or(|value| value.is_empty());
    let status = sab_cli::run(env::args_os().skip(1), &Machine, both);
    ExitCode::from(status as u8)
}
