//! The cases under `tests/cases`: NAME/cmd is run by a shell in a folder with the
//! repository's examples; what it prints, what it prints on standard error and its
//! status are compared with NAME/out, NAME/err and NAME/status. A file that is not
//! there stands for nothing printed, or for the status 0. `KIT` names the
//! conformance kit's files. With `SAB_CASES=write` the files are written instead,
//! to be looked at before they are kept.

mod common;

use common::{Folder, kit};
use std::env;
use std::ffi::OsString;
use std::fs;
use std::path::{Path, PathBuf};
use std::process::{Command, ExitCode};

fn main() -> ExitCode {
    let cases = Path::new(env!("CARGO_MANIFEST_DIR")).join("tests/cases");
    let mut names: Vec<PathBuf> = fs::read_dir(&cases)
        .expect("tests/cases")
        .map(|entry| entry.expect("a case").path())
        .collect();
    names.sort();
    let wanted: Vec<OsString> = env::args_os()
        .skip(1)
        .filter(|word| !word.to_string_lossy().starts_with('-'))
        .collect();
    names.retain(|name| wanted.is_empty() || wanted.iter().any(|one| name.ends_with(one)));
    let (mut passed, mut failed) = (0, 0);
    for name in &names {
        match run(name) {
            Ok(()) => passed += 1,
            Err(what) => {
                failed += 1;
                println!("failed: {}: {what}", name.display());
            }
        }
    }
    println!("cases: {passed} passed, {failed} failed");
    if failed == 0 && passed > 0 {
        ExitCode::SUCCESS
    } else {
        ExitCode::FAILURE
    }
}

fn run(case: &Path) -> Result<(), String> {
    let folder = Folder::with_examples();
    let program = Path::new(env!("CARGO_BIN_EXE_sab"));
    let mut path = OsString::from(program.parent().unwrap_or(Path::new("/")));
    path.push(":/usr/local/bin:/usr/bin:/bin:/usr/sbin:/sbin");
    let ran = Command::new("sh")
        .arg(case.join("cmd"))
        .current_dir(&folder.0)
        .env_clear()
        .env("PATH", path)
        .env("LC_ALL", "C")
        .env("KIT", kit())
        .output()
        .map_err(|error| error.to_string())?;
    let status = match ran.status.code() {
        Some(0) => Vec::new(),
        Some(code) => format!("{code}\n").into_bytes(),
        None => b"killed\n".to_vec(),
    };
    let parts = [("out", ran.stdout), ("err", ran.stderr), ("status", status)];
    for (part, got) in parts {
        let file = case.join(part);
        if env::var_os("SAB_CASES").is_some_and(|word| word == "write") {
            match got.is_empty() {
                true => drop(fs::remove_file(&file)),
                false => fs::write(&file, &got).map_err(|error| error.to_string())?,
            }
            continue;
        }
        let wanted = fs::read(&file).unwrap_or_default();
        if got != wanted {
            return Err(format!(
                "{part} is\n{}\nnot\n{}",
                String::from_utf8_lossy(&got),
                String::from_utf8_lossy(&wanted)
            ));
        }
    }
    Ok(())
}
