//! The small parts: the command line, JSON, the table of numbers, dates.

use sab_cli::args::{Args, Opt, Read, flag, nearest, value};
use sab_cli::json::Object;
use sab_cli::numbers::{Case, ROWS, advice, row};
use sab_cli::system::date_of;
use std::ffi::{OsStr, OsString};
use std::os::unix::ffi::OsStrExt;

const KNOWN: &[Opt] = &[
    flag("quiet", Some('q'), ""),
    value("depth", Some('d'), "N", ""),
    flag("open", None, ""),
];

fn read(words: &[&str]) -> Read<Args> {
    Args::read(words.iter().map(OsString::from), KNOWN)
}

#[test]
fn options_anywhere() {
    let args = read(&["a", "-qd3", "-", "--open", "--", "--depth", "-q"]).unwrap();
    assert_eq!(args.words(), ["a", "-", "--depth", "-q"]);
    assert!(args.has("quiet") && args.has("open"));
    assert_eq!(args.number("depth", 0..=9), Ok(Some(3)));
    for words in [["-d", "4"], ["--depth", "4"]] {
        assert_eq!(read(&words).unwrap().number("depth", 0..=9), Ok(Some(4)));
    }
    assert_eq!(
        read(&["--depth=5"]).unwrap().number("depth", 0..=9),
        Ok(Some(5))
    );
}

#[test]
fn wrong_options() {
    let words = |words: &[&str]| read(words).unwrap_err().0;
    assert_eq!(words(&["--opne"]), "no option --opne: did you mean --open?");
    assert_eq!(words(&["--zzzzzz"]), "no option --zzzzzz");
    assert_eq!(words(&["-x"]), "no option -x");
    assert_eq!(words(&["--open=1"]), "--open has no value");
    assert_eq!(words(&["--depth"]), "--depth needs a value: -d, --depth=N");
    assert_eq!(words(&["-d1", "-d2"]), "--depth is given twice");
    let number = |text: &str| {
        let args = read(&["--depth", text]).unwrap();
        args.number("depth", 0..=9u8).unwrap_err().0
    };
    for text in ["10", "-1", "", "1x", "99999999999999999999", "+1"] {
        assert_eq!(
            number(text),
            format!("--depth: {text:?} is not a number from 0 to 9")
        );
    }
}

#[test]
fn bytes_that_are_no_text() {
    let word = OsStr::from_bytes(b"\xff\xfe").to_os_string();
    let args = Args::read([word.clone()], KNOWN).unwrap();
    assert_eq!(args.words(), std::slice::from_ref(&word));
    let mut option = OsString::from("--depth=");
    option.push(&word);
    let args = Args::read([option], KNOWN).unwrap();
    assert!(args.text("depth").is_err());
    let mut option = OsString::from("--");
    option.push(&word);
    assert!(Args::read([option], KNOWN).is_err());
    let mut option = OsString::from("-");
    option.push(&word);
    assert!(Args::read([option], KNOWN).is_err());
}

#[test]
fn near_words() {
    let known = ["check", "compare", "list", "log", "salvage"];
    let near = |word| nearest(word, known.into_iter());
    assert_eq!(near("chekc"), Some("check"));
    assert_eq!(near("comp"), Some("compare"));
    assert_eq!(near("lst"), Some("list"));
    assert_eq!(near("checks"), Some("check"));
    assert_eq!(near("frobnicate"), None);
    assert_eq!(near(""), None);
}

#[test]
fn a_line() {
    let line = Object::new("entry")
        .text("label", "a\"b\\c\nd")
        .number("reason", 15u8)
        .truth("open", true)
        .maybe("marks", None::<u8>)
        .numbers("vector", &[1, 0])
        .texts("ids", ["0.1", "0.2"])
        .line();
    assert_eq!(
        line,
        r#"{"type":"entry","label":"a\"b\\c\u000ad","reason":15,"open":true,"marks":null,"vector":[1,0],"ids":["0.1","0.2"]}"#
    );
}

#[test]
fn every_number_once_and_in_order() {
    let numbers: Vec<u8> = ROWS.iter().map(|row| row.number).collect();
    assert_eq!(numbers, (1..=21).chain(24..=31).collect::<Vec<u8>>());
}

#[test]
fn advice_by_case() {
    assert_eq!(advice(8, Case::Act), None);
    assert!(advice(8, Case::Taking).is_some());
    assert_eq!(advice(4, Case::File), advice(4, Case::Taking));
    assert_eq!(
        row(7).unwrap().cause.all(),
        "File or block: a record is malformed. Act: the wish is malformed"
    );
}

#[test]
fn dates() {
    assert_eq!(date_of(0), (1970, 1, 1));
    assert_eq!(date_of(58), (1970, 2, 28));
    assert_eq!(date_of(59), (1970, 3, 1));
    assert_eq!(date_of(11_016), (2000, 2, 29));
    assert_eq!(date_of(20_150), (2025, 3, 3));
    assert_eq!(date_of(47_541), (2100, 3, 1));
}
