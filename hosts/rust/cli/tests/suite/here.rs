//! Commands run in this process.

use sab_cli::out::{Out, Status};
use sab_cli::system::{Machine, System};
use std::ffi::OsString;
use std::process::{Child, Command, Output, Stdio};
use std::sync::RwLock;

/// Between fork and exec a child holds the locks of this process. So none is
/// begun while a command runs here.
static BEGINNING: RwLock<()> = RwLock::new(());

/// Begins a process.
pub fn spawn(command: &mut Command) -> Child {
    let _alone = BEGINNING.write().expect("a lock");
    command.spawn().expect("a process")
}

/// Runs a process to its end.
pub fn output(command: &mut Command) -> Output {
    command.stdout(Stdio::piped()).stderr(Stdio::piped());
    spawn(command).wait_with_output().expect("a process")
}

/// What a command came to: status, output, errors.
pub type Ran = (Status, Vec<u8>, String);

/// Runs a command on this machine.
pub fn sab(words: &[&str]) -> Ran {
    sab_on(&Machine, words)
}

/// Runs a command on some machine.
pub fn sab_on(system: &dyn System, words: &[&str]) -> Ran {
    let _running = BEGINNING.read().expect("a lock");
    let (mut out, mut err) = (Vec::new(), Vec::new());
    let words = words.iter().map(OsString::from);
    let status = sab_cli::run(words, system, Out::new(&mut out, &mut err));
    let err = String::from_utf8(err).expect("messages are text");
    (status, out, err)
}
