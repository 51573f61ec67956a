//! Power lost after every step, and every step failing once, of every command that
//! writes: each file is as it was or as it will be.

use crate::common::root;
use crate::disk::{Disk, Trap};
use crate::here::sab_on;
use sab_cli::out::Status;
use std::fs;
use std::path::PathBuf;

/// A command that writes, and whether running it again after a cut ends as if it
/// had not been cut.
struct Writing {
    words: &'static [&'static str],
    again: bool,
}

const fn writing(words: &'static [&'static str], again: bool) -> Writing {
    Writing { words, again }
}

const WRITINGS: &[Writing] = &[
    writing(&["meet", "card0.sab", "card1.sab"], true),
    writing(&["meet", "--backup", "card0.sab", "card1.sab"], true),
    writing(&["pass", "card0.sab", "card1.sab"], true),
    writing(&["take", "--backup", "card1.sab", "card0.sab"], true),
    writing(
        &["act", "card0.sab", "--own-unit=0", "make-folder", "New"],
        false,
    ),
    writing(&["settle", "bench.sab", "1.1", "--own-unit=0"], false),
    writing(&["new", "new.sab", "--archive=1", "--unit=2"], false),
    writing(
        &["pack", "card0.sab", "--for=card1.sab", "-o", "row"],
        false,
    ),
    writing(&["salvage", "worn0.sab", "-o", "mended.sab"], false),
    writing(&["html", "bench.sab", "-f", "-o", "page.html"], true),
    writing(&["html", "bench.sab", "-o", "new.html"], false),
];

fn disk() -> Disk {
    let read = |name: &str| fs::read(root().join("examples").join(name)).expect("an example");
    let names = ["card0.sab", "card1.sab", "bench.sab", "worn0.sab"];
    let bytes: Vec<Vec<u8>> = names.iter().map(|name| read(name)).collect();
    let mut files: Vec<(&str, &[u8])> = names
        .into_iter()
        .zip(bytes.iter().map(Vec::as_slice))
        .collect();
    files.push(("page.html", b"<!DOCTYPE html>an older page"));
    Disk::with(&files)
}

/// Names that are not left-over parts, with their files.
fn files(disk: &Disk) -> Vec<(PathBuf, Vec<u8>)> {
    let names = disk.all_names();
    let whole = names.into_iter().filter(|name| !is_part(name));
    whole
        .map(|name| {
            let bytes = disk.bytes(name.to_str().unwrap()).unwrap();
            (name, bytes)
        })
        .collect()
}

fn is_part(name: &std::path::Path) -> bool {
    name.to_string_lossy().ends_with(".sab-part")
}

/// Every file is as on one of the two disks, and none is missing that both have.
fn old_or_new(disk: &Disk, old: &Disk, new: &Disk, what: &str) {
    for name in old.all_names().union(&new.all_names()) {
        let name = name.to_str().unwrap();
        let now = disk.bytes(name);
        assert!(
            now == old.bytes(name) || now == new.bytes(name),
            "{what}: {name} is neither old nor new: {:?} bytes",
            now.map(|bytes| bytes.len())
        );
    }
    for (name, _) in files(disk) {
        let known = old.all_names().contains(&name) || new.all_names().contains(&name);
        assert!(known, "{what}: {name:?} is there");
    }
}

#[test]
fn power_lost_after_every_step() {
    let mut cuts = 0;
    for Writing { words, again } in WRITINGS {
        let old = disk();
        let new = old.trapped(Trap::None);
        let (status, _, err) = sab_on(&new, words);
        assert!(status <= Status::No, "{words:?}: {err}");
        assert!(files(&old) != files(&new), "{words:?} writes nothing");
        assert!(!new.all_names().iter().any(|name| is_part(name)));
        for step in 0..new.steps() {
            let cut = old.trapped(Trap::Cut(step));
            sab_on(&cut, words);
            for left in cut.after_cut() {
                let what = format!("{words:?} cut at step {step}");
                old_or_new(&left, &old, &new, &what);
                cuts += 1;
                if *again {
                    let (status, _, err) = sab_on(&left, words);
                    assert!(status <= Status::No, "{what}: {err}");
                    let ended: Vec<_> = files(&left)
                        .into_iter()
                        .filter(|(name, _)| !name.to_string_lossy().ends_with('~'))
                        .collect();
                    let wanted: Vec<_> = files(&new)
                        .into_iter()
                        .filter(|(name, _)| !name.to_string_lossy().ends_with('~'))
                        .collect();
                    assert!(ended == wanted, "{what}, then again");
                }
            }
        }
    }
    assert!(cuts > 1000, "{cuts}");
}

#[test]
fn every_step_fails_once() {
    for Writing { words, .. } in WRITINGS {
        let old = disk();
        let new = old.trapped(Trap::None);
        sab_on(&new, words);
        for step in 0..new.steps() {
            let faulty = old.trapped(Trap::Fault(step));
            let (status, _, err) = sab_on(&faulty, words);
            let what = format!("{words:?}, fault at step {step}: {err}");
            old_or_new(&faulty, &old, &new, &what);
            match status {
                Status::Yes | Status::No => assert!(files(&faulty) == files(&new), "{what}"),
                Status::System => assert!(err.starts_with("sab: "), "{what}"),
                other => panic!("{what}: {other:?}"),
            }
            let parts = faulty
                .all_names()
                .into_iter()
                .filter(|name| is_part(name))
                .count();
            // One is left only if its removal itself failed.
            assert!(parts == 0 || status <= Status::No, "{what}");
        }
    }
}

#[test]
fn a_full_folder_of_parts() {
    // Parts of dead processes with this process's number are in the way.
    let old = disk();
    let names: Vec<String> = (0..3)
        .map(|i| format!("./.card1.sab.{}-{i}.sab-part", std::process::id()))
        .collect();
    let card0 = old.bytes("card0.sab").unwrap();
    let card1 = old.bytes("card1.sab").unwrap();
    let mut files: Vec<(&str, &[u8])> = vec![("card0.sab", &card0), ("card1.sab", &card1)];
    files.extend(names.iter().map(|name| (name.as_str(), b"x".as_slice())));
    let disk = Disk::with(&files);
    let (status, _, err) = sab_on(&disk, &["pass", "card0.sab", "card1.sab"]);
    assert_eq!((status, err.as_str()), (Status::Yes, ""));
    let (status, _, err) = sab_on(&disk, &["check", "card1.sab"]);
    assert_eq!(status, Status::Yes);
    assert_eq!(err.matches("left by a cut").count(), 3, "{err}");
}

#[test]
fn bytes_that_do_not_stay() {
    let cases = [
        (Trap::Lies, "reads back otherwise"),
        (Trap::Restless, "changed while it was read"),
        (Trap::Meddled, "changed while it was read"),
        (Trap::Locked, "is locked by another program"),
        (Trap::Unreadable, "cannot be opened: permission denied"),
        (
            Trap::Unwritable,
            "cannot be written: permission denied in its folder",
        ),
    ];
    for (trap, words) in cases {
        let old = disk();
        let faulty = old.trapped(trap);
        let (status, _, err) = sab_on(&faulty, &["pass", "card0.sab", "card1.sab"]);
        assert_eq!(status, Status::System, "{trap:?}");
        assert!(err.contains(words), "{trap:?}: {err}");
        assert!(files(&faulty) == files(&old), "{trap:?}");
        assert!(!faulty.all_names().iter().any(|name| is_part(name)));
    }
}

#[test]
fn without_second_names() {
    let old = disk();
    let fat = old.trapped(Trap::NoLinks);
    let words = ["new", "new.sab", "--archive=1", "--unit=2"];
    assert_eq!(sab_on(&fat, &words).0, Status::Yes);
    assert!(fat.bytes("new.sab").is_some());
    let (status, _, err) = sab_on(&fat, &words);
    assert_eq!(status, Status::System);
    assert!(err.contains("is there already"), "{err}");
}
