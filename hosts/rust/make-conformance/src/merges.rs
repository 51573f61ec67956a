//! One file out of two.

use crate::kit::{Shown, Written, changed, sealed_at};
use make_vectors::chain::{Fields, file_of};
use make_vectors::examples::ROOT;
use make_vectors::text::{bytes, hash, lent};
use plain::{FILE, LOG, MergeRefusal, Refusal, SAB2_FILE};

type Record = [u8; 80];

const ARCHIVE: u32 = 7;

pub fn all() -> Written {
    let mut merges = Merges {
        text: String::new(),
        cases: Vec::new(),
    };
    merged(&mut merges);
    lengths(&mut merges);
    single_files(&mut merges);
    archives(&mut merges);
    clashes(&mut merges);
    full(&mut merges);
    Written {
        name: "merge",
        about: "one file out of two",
        text: merges.text,
        cases: merges.cases,
    }
}

struct Merges {
    text: String,
    cases: Vec<Shown>,
}

/// The answer that a refused merge must give: number, place and file.
fn refused(number: u8, place: u8, file: u8) -> Result<(), MergeRefusal> {
    let refusal = Refusal { number, place };
    Err(MergeRefusal { refusal, file })
}

impl Merges {
    /// A merge into so many lent bytes.
    fn row(
        &mut self,
        expected: Result<(), MergeRefusal>,
        shows: &str,
        (length, seed): (usize, u8),
        first: &[u8],
        second: &[u8],
    ) {
        let (mut log, mut file) = (vec![0; LOG], lent(length, seed));
        let came = plain::merge(first, second, &mut log, &mut file);
        assert_eq!(came.map(drop), expected, "{shows}");
        let (told, answer) = match came {
            Ok(blocks) => (format!("0 - - {blocks} {}", hash(&file)), "0".to_string()),
            Err(MergeRefusal { refusal, file: 0 }) => {
                let number = refusal.number.to_string();
                (format!("{number} - - - -"), number)
            }
            Err(MergeRefusal { refusal, file }) => {
                let Refusal { number, place } = refusal;
                let answer = format!("{number} at {place} of file {file}");
                (format!("{number} {place} {file} - -"), answer)
            }
        };
        self.text += &format!(
            "# {shows}\nmerge {length}*{seed} {} {} = {told}\n",
            bytes(first),
            bytes(second)
        );
        let shows = shows.to_string();
        self.cases.push(Shown { shows, answer });
    }

    fn accepted(&mut self, shows: &str, first: &[u8], second: &[u8]) {
        self.row(Ok(()), shows, (FILE, 9), first, second);
    }

    fn refused(
        &mut self,
        (number, place, file): (u8, u8, u8),
        shows: &str,
        first: &[u8],
        second: &[u8],
    ) {
        let expected = refused(number, place, file);
        self.row(expected, shows, (FILE, 9), first, second);
    }
}

/// A folder that a unit makes, having seen so many of its own and of unit 0.
fn folder(unit: u8, own: usize, of_zero: u16, day: u8) -> Record {
    let mut seen = [of_zero, 0, 0, 0, 0, 0, 0, 0];
    seen[unit as usize] = own as u16;
    Fields {
        unit,
        operation: 1,
        seen: &seen,
        named: ROOT,
        date: (2025, 3, day),
        label: &format!("{unit}.{}", own + 1),
        mark: 0,
    }
    .record()
}

/// Folders that a unit made alone.
fn alone(unit: u8, count: usize) -> Vec<Record> {
    (0..count).map(|own| folder(unit, own, 0, 3)).collect()
}

fn rank(record: &Record) -> (u32, u8) {
    let count = |at: usize| u16::from_le_bytes([record[at], record[at + 1]]) as u32;
    ((4..20).step_by(2).map(count).sum(), record[0])
}

/// The file of some records, by rank.
fn card(unit: u8, records: &[&[Record]]) -> Vec<u8> {
    let mut records = records.concat();
    records.sort_by_key(rank);
    file_of(&records, ARCHIVE, unit)
}

fn merged(merges: &mut Merges) {
    let (zero, one) = (alone(0, 8), alone(1, 7));
    let later: Vec<Record> = (0..3).map(|own| folder(2, own, 4, 4)).collect();
    let first = card(0, &[&zero]);
    let none = card(6, &[]);
    merges.accepted("a file with itself is that file", &first, &first);
    merges.accepted(
        "the same records under another unit: that of the first",
        &card(3, &[&zero]),
        &first,
    );
    merges.accepted("nothing in common", &first, &card(1, &[&one]));
    merges.accepted("the same the other way round", &card(1, &[&one]), &first);
    merges.accepted(
        "each has what the other lacks, and both have some",
        &card(1, &[&zero[..4], &one]),
        &card(2, &[&zero[..6], &one[..2], &later]),
    );
    merges.accepted(
        "the second has all of the first",
        &card(1, &[&zero[..2]]),
        &card(2, &[&zero, &one]),
    );
    merges.accepted(
        "the first has all of the second",
        &card(2, &[&zero, &one]),
        &card(1, &[&zero[..2]]),
    );
    merges.accepted("an empty first file", &none, &card(1, &[&one]));
    merges.accepted("an empty second file", &card(1, &[&one]), &none);
    merges.accepted("two empty files", &none, &card(5, &[]));
}

fn lengths(merges: &mut Merges) {
    let good = card(0, &[&alone(0, 2)]);
    for length in [0, FILE - 1, FILE + 1] {
        merges.row(
            refused(1, 0, 0),
            &format!("{length} bytes to write, and a first file of no bytes: 1"),
            (length, 9),
            &[],
            &good,
        );
    }
}

/// Each file by itself, the first wholly before the second.
fn single_files(merges: &mut Merges) {
    let good = card(0, &[&alone(0, 14)]);
    let other = card(1, &[&alone(1, 14)]);
    let damaged = |place: usize| changed(&other, &[(512 * place + 60, 0xee)]);
    let mut call = |expected, shows: &str, first: &[u8], second: &[u8]| {
        merges.refused(expected, shows, first, second);
    };
    call((2, 0, 1), "a first file of no bytes", &[], &good);
    call(
        (2, 0, 1),
        "a first file cut short, and a second damaged: the first",
        &good[..700],
        &damaged(0),
    );
    call((2, 0, 2), "a second file of no bytes", &good, &[]);
    let sab2 = |file: &[u8]| {
        let mut out = vec![0; SAB2_FILE];
        let count = plain::to_sab2(file, &mut out).expect("a good file");
        out.truncate(512 * usize::from(count));
        out
    };
    let most = sab2(&card(0, &[&alone(0, 512)]));
    call((3, 0, 1), "a first file of the form SAB2, and a second of no bytes: the first", &sab2(&good), &[]);
    call((3, 0, 2), "a second file of the form SAB2", &good, &sab2(&other));
    call((2, 0, 2), "a second file of the form SAB2 with 87 blocks", &good, &most);
    call(
        (2, 0, 2),
        "a second file with a byte behind it",
        &good,
        &[&other[..], &[0]].concat(),
    );
    call(
        (4, 2, 1),
        "the last block of the first file damaged, and a second of no bytes: the first",
        &damaged(2),
        &[],
    );
    call((4, 1, 2), "the second file damaged", &good, &damaged(1));
    call(
        (7, 2, 1),
        "a malformed record in the first file",
        &sealed_at(&good, 2, &[(28 + 80 + 31, 0)]),
        &other,
    );
    call(
        (8, 1, 2),
        "a record of the second file that has seen what only the first has",
        &good,
        &card(2, &[&alone(2, 6), &[folder(2, 6, 1, 3)]]),
    );
    call(
        (20, 2, 2),
        "the second file's blocks disagree",
        &good,
        &sealed_at(&other, 2, &[(8, 2)]),
    );
}

fn archives(merges: &mut Merges) {
    let good = card(0, &[&alone(0, 8)]);
    let mut records = alone(0, 8);
    let elsewhere = |records: &[Record]| file_of(records, ARCHIVE + 1, 1);
    merges.refused((6, 0, 2), "another archive", &good, &elsewhere(&records));
    merges.refused(
        (6, 0, 2),
        "two empty files of two archives",
        &card(0, &[]),
        &elsewhere(&[]),
    );
    records[3][31] = 4;
    merges.refused(
        (6, 0, 2),
        "another archive and a record with other bytes: 6",
        &good,
        &elsewhere(&records),
    );
    records[7][31] = 0;
    merges.refused(
        (7, 1, 2),
        "another archive and a malformed last record: 7",
        &good,
        &elsewhere(&records),
    );
}

fn clashes(merges: &mut Merges) {
    let (zero, one) = (alone(0, 8), alone(1, 8));
    let good = card(0, &[&zero]);
    for (at, place) in [(0, 0), (5, 0), (6, 1), (7, 1)] {
        let mut records = zero.clone();
        records[at][31] = 4;
        merges.refused(
            (10, place, 2),
            &format!("record {at} of another day"),
            &good,
            &card(0, &[&records]),
        );
    }
    let mut records = one.clone();
    records[1][31] = 4;
    merges.refused(
        (10, 0, 2),
        "it stands in block 1 of the first file and in block 0 of the second",
        &card(0, &[&zero, &alone(2, 8), &alone(3, 8), &one[..2]]),
        &card(1, &[&records]),
    );
    records[7][31] = 4;
    merges.refused(
        (10, 0, 2),
        "two of them: the first",
        &card(0, &[&one]),
        &card(1, &[&records]),
    );
}

/// 512 records and more.
fn full(merges: &mut Merges) {
    let zero = alone(0, 500);
    let (one, two) = (alone(1, 13), alone(2, 20));
    let first = card(0, &[&zero, &one[..12]]);
    merges.accepted(
        "500 records and 12 others: 512 in all",
        &card(0, &[&zero]),
        &card(1, &[&one[..12]]),
    );
    merges.refused(
        (11, 2, 2),
        "500 records and 13 others: the last of them is the 513th",
        &card(0, &[&zero]),
        &card(1, &[&one]),
    );
    merges.refused(
        (11, 1, 2),
        "505 records, and 20 others among 3 common ones: the 8th of the 20 is the 513th",
        &card(0, &[&zero, &one[..5]]),
        &card(2, &[&one[..3], &two]),
    );
    merges.accepted(
        "512 records and some of them again: common records need no room",
        &first,
        &card(1, &[&one[..12]]),
    );
    let mut early = one.clone();
    early[0][31] = 4;
    merges.refused(
        (10, 0, 2),
        "a 513th record in block 2, and other bytes in block 0: 10",
        &first,
        &card(1, &[&early]),
    );
    let mut late = one.clone();
    late[11][31] = 4;
    merges.refused(
        (10, 3, 2),
        "a 513th record in block 0, and other bytes in block 3: 10",
        &first,
        &card(1, &[&late, &two[..9]]),
    );
}
