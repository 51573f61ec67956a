//! Meetings of cards that are too large for the examples.

use crate::common::Folder;
use crate::here::sab;
use crate::made::card;
use sab::Unit;
use sab_cli::out::Status;
use std::fs;

/// Two units with more records than a log holds: both stop full, what was taken
/// stays, and a second meeting changes nothing.
#[test]
fn full_logs() {
    let folder = Folder::new();
    let (one, other) = (folder.file("one.sab"), folder.file("other.sab"));
    fs::write(&one, card(Unit::ALL[0], 299)).unwrap();
    fs::write(&other, card(Unit::ALL[1], 299)).unwrap();
    let words = ["meet", one.to_str().unwrap(), other.to_str().unwrap()];
    let (status, out, err) = sab(&words);
    let out = String::from_utf8(out).unwrap();
    assert_eq!(status, Status::No, "{err}");
    assert_eq!(err.matches("refused 11 at 0").count(), 2, "{err}");
    assert!(out.contains("one.sab: seen 300 210 0"), "{out}");
    assert!(out.contains("other.sab: seen 210 300 0"), "{out}");
    let full = [fs::read(&one).unwrap(), fs::read(&other).unwrap()];
    assert_eq!(sab(&words).0, Status::No);
    assert!([fs::read(&one).unwrap(), fs::read(&other).unwrap()] == full);
    assert_eq!(sab(&["check", words[1], words[2]]).0, Status::Yes);
    let (status, out, _) = sab(&["compare", words[1], words[2]]);
    assert_eq!(status, Status::No);
    assert!(String::from_utf8(out).unwrap().contains("both ahead"));
}

/// A cut after every block, and on again: the end is that of the uncut meeting.
#[test]
fn cut_after_every_block() {
    let folder = Folder::new();
    let (one, other) = (folder.file("one.sab"), folder.file("other.sab"));
    let (first, second) = (card(Unit::ALL[0], 60), card(Unit::ALL[1], 45));
    let put = || {
        fs::write(&one, &first).unwrap();
        fs::write(&other, &second).unwrap();
    };
    let bytes = || [fs::read(&one).unwrap(), fs::read(&other).unwrap()];
    let (name, name_other) = (one.to_str().unwrap(), other.to_str().unwrap());
    put();
    assert_eq!(sab(&["meet", "-q", name, name_other]).0, Status::Yes);
    let whole = bytes();
    put();
    let mut meetings = 1;
    loop {
        let (status, _, err) = sab(&["meet", "--max-blocks=1", name, name_other]);
        assert!(status <= Status::No, "meeting {meetings}: {err}");
        if status == Status::Yes {
            break;
        }
        assert_eq!(sab(&["check", "-q", name, name_other]).0, Status::Yes);
        meetings += 1;
        assert!(meetings < 50, "it does not end");
    }
    assert!(
        bytes() == whole,
        "another end than that of the uncut meeting"
    );
    assert!(meetings > 10, "{meetings}");
}
