//! Every good file of the kit beside itself with another mark in one record: `sab
//! diff` says of which, and that nothing else differs.

use crate::chance::seal;
use crate::common::{Folder, kit};
use crate::here::sab;
use sab_cli::out::Status;
use std::fs;

/// Where the records of a file that have a mark begin.
fn marked(file: &[u8]) -> Vec<usize> {
    let places = (0..file.len() / 512).flat_map(|place| {
        let count = usize::from(file[512 * place + 9]);
        (0..count).map(move |at| 512 * place + 28 + 80 * at)
    });
    places.filter(|at| matches!(file[at + 1], 2 | 3)).collect()
}

#[test]
fn one_mark_at_a_time() {
    let folder = Folder::new();
    let (one, other) = (folder.file("one"), folder.file("other"));
    let names = [one.to_str().unwrap(), other.to_str().unwrap()];
    let mut counts = [0; 4];
    let mut all = 0;
    for entry in fs::read_dir(kit()).expect("the kit") {
        let path = entry.expect("a case").path();
        let name = path.to_string_lossy().to_string();
        if !name.contains("/good-") || !name.ends_with(".in") {
            continue;
        }
        let file = fs::read(&path).unwrap();
        fs::write(&one, &file).unwrap();
        for at in marked(&file) {
            let mut changed = file.clone();
            changed[at + 64] ^= 1;
            seal(&mut changed);
            fs::write(&other, &changed).unwrap();
            let (status, out, err) = sab(&["diff", "--exit-code", names[0], names[1]]);
            let text = String::from_utf8(out).unwrap();
            let case = format!("{name} at {at}: {text}");
            assert_eq!(err, "", "{case}");
            let lines = |begin: &str| text.lines().filter(|line| line.starts_with(begin)).count();
            let number = u16::from_le_bytes([file[at + 2], file[at + 3]]);
            let record = format!("record {}.{number} has two marks: ", file[at]);
            assert_eq!((lines("record "), lines(&record)), (1, 1), "{case}");
            assert_eq!(lines("nothing else differs: "), 1, "{case}");
            let kinds = [
                "), differs in its mark",
                "the record stands aside (reason ",
                ": a later store fitted, ",
                " is not shown: removed by ",
            ];
            let kinds = kinds.map(|words| text.contains(words));
            let kind = kinds.iter().position(|told| *told).expect("a kind");
            assert_eq!(kinds.iter().filter(|told| **told).count(), 1, "{case}");
            // Of the listings at most the line of one trace differs.
            let differing = if kind == 0 { 1 } else { 0 };
            assert_eq!(lines("-trace "), differing, "{case}");
            assert_eq!(lines("+trace "), differing, "{case}");
            assert_eq!((lines("-"), lines("+")), (2 * differing, 2 * differing));
            assert_eq!(status, Status::no_if(kind == 0), "{case}");
            counts[kind] += 1;
            all += 1;
        }
    }
    println!("{all} marks: {counts:?}");
    assert!(counts.iter().all(|count| *count > 5), "{counts:?}");
}
