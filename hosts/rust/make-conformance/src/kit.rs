//! Cases, and what each shows.

use make_vectors::chain::{file_of, seal};
use make_vectors::list::{Lent, List};
use make_vectors::readout::listing;
use plain::{BLOCK, LOG};

/// A file, and what `readout` prints of it.
#[derive(Clone)]
pub struct Case {
    pub name: String,
    pub shows: String,
    pub file: Vec<u8>,
    pub listing: String,
}

/// A call list or the tables, and a line of the index for each of its cases.
pub struct Written {
    pub name: &'static str,
    pub about: &'static str,
    pub text: String,
    pub cases: Vec<Shown>,
}

/// What a call or row shows, and its answer.
pub struct Shown {
    pub shows: String,
    pub answer: String,
}

fn case(name: String, shows: &str, file: Vec<u8>) -> Case {
    let listing = String::from_utf8(listing(&file)).expect("a listing is ASCII");
    Case {
        name,
        shows: shows.to_string(),
        file,
        listing,
    }
}

/// A file that is accepted.
pub fn good(name: &str, shows: &str, file: Vec<u8>) -> Case {
    let case = case(format!("good-{name}"), shows, file);
    assert!(case.listing.starts_with("archive "), "{}", case.name);
    case
}

/// A file that is refused with a number at a place.
pub fn refused(number: u8, place: usize, name: &str, shows: &str, file: Vec<u8>) -> Case {
    let case = case(format!("n{number:02}-{name}"), shows, file);
    assert_eq!(
        case.listing,
        format!("refused {number} at {place}\n"),
        "{}",
        case.name
    );
    case
}

/// A call list in the making; each call has a remark that says what it shows.
pub struct Calls {
    pub list: List,
    cases: Vec<Shown>,
}

impl Calls {
    pub fn new(about: &str) -> Calls {
        Calls {
            list: List::new(about),
            cases: Vec::new(),
        }
    }

    /// A call that must answer a number.
    pub fn call(&mut self, number: u8, shows: &str, call: impl FnOnce(&mut List) -> u8) {
        self.list.remark(shows);
        assert_eq!(call(&mut self.list), number, "{shows}");
        self.cases.push(Shown {
            shows: shows.to_string(),
            answer: number.to_string(),
        });
    }

    /// A question that must have the answer that is given, as the line ends.
    pub fn ask(&mut self, answer: &str, shows: &str, ask: impl FnOnce(&mut List)) {
        self.list.remark(shows);
        ask(&mut self.list);
        assert_eq!(self.list.last_answer(), answer, "{shows}");
        self.cases.push(Shown {
            shows: shows.to_string(),
            answer: answer.to_string(),
        });
    }

    pub fn written(self, name: &'static str, about: &'static str) -> Written {
        Written {
            name,
            about,
            text: self.list.end(),
            cases: self.cases,
        }
    }
}

/// A log of some records.
pub fn log_of(records: &[[u8; 80]]) -> Vec<u8> {
    let mut log = records.as_flattened().to_vec();
    log.resize(LOG, 0);
    log
}

/// A block of some records, of archive 7 and unit 0.
pub fn block_of(records: &[[u8; 80]]) -> Vec<u8> {
    assert!(records.len() <= 6);
    file_of(records, 7, 0)
}

/// Some bytes with changes.
pub fn changed(bytes: &[u8], changes: &[(usize, u8)]) -> Vec<u8> {
    let mut bytes = bytes.to_vec();
    changes.iter().for_each(|(at, byte)| bytes[*at] = *byte);
    bytes
}

/// The same, of a block whose sums are put right again.
pub fn sealed(block: &[u8], changes: &[(usize, u8)]) -> Vec<u8> {
    let mut block = changed(block, changes);
    seal(&mut block);
    block
}

/// The same, of the block at a place of a file.
pub fn sealed_at(file: &[u8], place: usize, changes: &[(usize, u8)]) -> Vec<u8> {
    let (start, end) = (BLOCK * place, BLOCK * (place + 1));
    let block = sealed(&file[start..end], changes);
    [&file[..start], &block, &file[end..]].concat()
}

/// A log that the call is lent from outside.
pub fn lent(log: &[u8]) -> Lent<'_> {
    Lent::Outside(log)
}
