//! Every file of the conformance kit and of the vectors through every reading
//! command: none fails otherwise than by a status, and the listing is the kit's.

use crate::common::{Folder, kit, root};
use crate::here::sab;
use sab_cli::out::Status;
use std::fs;
use std::path::{Path, PathBuf};

fn files(folder: &Path) -> Vec<PathBuf> {
    let mut files: Vec<PathBuf> = fs::read_dir(folder)
        .expect("a folder of cases")
        .map(|entry| entry.expect("a case").path())
        .filter(|path| path.extension().is_some_and(|ending| ending == "in"))
        .collect();
    files.sort();
    assert!(!files.is_empty());
    files
}

/// Whether a line is a JSON object, as far as its ends and its quotes tell.
fn is_object(line: &str) -> bool {
    let mut inside = false;
    let mut letters = line.chars();
    while let Some(letter) = letters.next() {
        match letter {
            '\\' if inside => drop(letters.next()),
            '"' => inside = !inside,
            _ => {}
        }
    }
    !inside && line.starts_with("{\"type\":\"") && line.ends_with('}')
}

fn every_command(file: &Path) {
    let name = file.to_str().expect("a name in text");
    let listing = fs::read(file.with_extension("out")).expect("a listing");
    let (status, out, err) = sab(&["list", name]);
    assert_eq!(out, listing, "{name}");
    let refused = listing.starts_with(b"refused ");
    let wanted = if refused {
        Status::Refused
    } else {
        Status::Yes
    };
    assert_eq!(status, wanted, "{name}");
    if refused {
        let line = String::from_utf8_lossy(&listing);
        assert!(err.contains(line.trim_end()), "{name}: {err}");
        // The bytes behind it are found in every case of the kit.
        assert!(
            err.lines().next().is_some_and(|line| line.ends_with(')')),
            "{name}: {err}"
        );
    } else {
        assert_eq!(err, "", "{name}");
    }
    let commands: &[&[&str]] = &[
        &["check"],
        &["check", "--blocks"],
        &["tree"],
        &["log"],
        &["asides"],
        &["html"],
        &["list", "--format=csv"],
    ];
    for command in commands {
        let mut words = command.to_vec();
        words.push(name);
        let (status, text, _) = sab(&words);
        assert_eq!(status, wanted, "{words:?}");
        assert!(refused || !text.is_empty(), "{words:?}");
        words.push("-q");
        assert_eq!(sab(&words), (wanted, Vec::new(), String::new()));
        words.pop();
        if command[0] == "html" || command.len() > 1 {
            continue;
        }
        words.push("--json");
        let (status, text, err) = sab(&words);
        assert_eq!((status, err), (wanted, String::new()), "{words:?}");
        let text = String::from_utf8(text).expect("JSON is text");
        assert!(
            text.lines().count() > 1 && text.lines().all(is_object),
            "{words:?}: {text}"
        );
    }
    assert!(matches!(
        sab(&["salvage", name]).0,
        Status::Yes | Status::No | Status::Refused
    ));
    let (status, _, _) = sab(&["compare", name, name]);
    assert_eq!(status, wanted, "compare {name}");
    let (status, _, _) = sab(&["ls", name]);
    assert_eq!(status, wanted, "ls {name}");
    let (status, out, _) = sab(&["diff", name, name]);
    assert_eq!((status, out), (wanted, Vec::new()), "diff {name}");
}

#[test]
fn the_kit() {
    files(&kit()).iter().for_each(|file| every_command(file));
}

#[test]
fn the_vectors() {
    let vectors = root().join("vectors/readout");
    files(&vectors).iter().for_each(|file| every_command(file));
}

/// Whether a file has folded records. What is folded is not compared, so that files
/// of different lives may meet unnoticed.
fn is_folded(file: &Path) -> bool {
    let bytes = fs::read(file).expect("a file of the kit");
    bytes.starts_with(b"SAB2") && bytes[36..52] != [0; 16]
}

/// Every good file meets every other of its archive, or is told why not.
#[test]
fn meetings() {
    let good: Vec<PathBuf> = files(&kit())
        .into_iter()
        .filter(|file| file.to_string_lossy().contains("/good-") && !is_folded(file))
        .collect();
    let folder = Folder::new();
    let (one, other) = (folder.file("one"), folder.file("other"));
    let (name, name_other) = (one.to_str().unwrap(), other.to_str().unwrap());
    let (mut met, mut refused) = (0, 0);
    for first in good.iter() {
        for second in good.iter().filter(|second| *second > first) {
            fs::copy(first, &one).unwrap();
            fs::copy(second, &other).unwrap();
            let (status, _, err) = sab(&["meet", name, name_other]);
            match status {
                Status::Yes => {
                    met += 1;
                    assert_eq!(sab(&["compare", name, name_other]).0, Status::Yes);
                    assert_eq!(
                        sab(&["diff", "--exit-code", name, name_other]).0,
                        Status::Yes
                    );
                    assert_eq!(sab(&["check", name, name_other]).0, Status::Yes);
                }
                Status::No => {
                    let told = ["refused 11 ", "refused 26 "];
                    assert!(told.iter().any(|words| err.contains(words)), "{err}");
                }
                Status::Refused => {
                    refused += 1;
                    assert!(
                        err.contains("refused 6 ") || err.contains("refused 10 "),
                        "{err}"
                    );
                    assert_eq!(fs::read(&one).unwrap(), fs::read(first).unwrap());
                    assert_eq!(fs::read(&other).unwrap(), fs::read(second).unwrap());
                }
                other => panic!("{first:?} and {second:?}: {other:?}: {err}"),
            }
        }
    }
    assert!(met > 0 && refused > 0, "{met} met, {refused} refused");
}

/// A plan is tried as the kit says; its text gives it back.
fn every_plan(file: &Path, folder: &Folder) {
    let name = file.to_str().expect("a name in text");
    let printed = fs::read(file.with_extension("out")).expect("what is printed");
    let refused = printed.starts_with(b"refused ");
    let wanted = if refused { Status::Refused } else { Status::Yes };
    let (status, out, err) = sab(&["plan", "run", name]);
    assert_eq!((status, out), (wanted, printed.clone()), "{name}");
    let (status, out, _) = sab(&["plan", "run", "--json", name]);
    assert_eq!(status, wanted, "{name}");
    let objects = String::from_utf8(out).expect("JSON is text");
    assert!(objects.lines().all(is_object), "{name}: {objects}");
    let (status, text, _) = sab(&["plan", "show", name]);
    assert_eq!(status, wanted, "{name}");
    if refused {
        let line = String::from_utf8_lossy(&printed);
        assert!(err.contains(line.trim_end()), "{name}: {err}");
        return;
    }
    let (source, made) = (folder.file("plan.txt"), folder.file("plan.pln"));
    fs::write(&source, text).expect("a text");
    let _ = fs::remove_file(&made);
    let words = ["plan", "compile", source.to_str().unwrap(), "-o", made.to_str().unwrap()];
    assert_eq!(sab(&words).0, Status::Yes, "{name}");
    assert_eq!(fs::read(&made).unwrap(), fs::read(file).unwrap(), "{name}");
}

#[test]
fn the_plans() {
    let folder = Folder::new();
    let plans = root().join("conformance/plan");
    files(&plans).iter().for_each(|file| every_plan(file, &folder));
}
