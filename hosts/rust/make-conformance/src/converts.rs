//! Files of one form made into the other.

use crate::kit::{Shown, Written, changed, sealed_at};
use make_vectors::chain::{Wished, blocks_of_six, chain, file_of};
use make_vectors::examples::{folded, paper};
use make_vectors::list::answer;
use make_vectors::sab2::Sab2;
use make_vectors::text::{bytes, hash, lent};
use plain::{Answer, BLOCK, EMPTY_BASE, FILE, LOG, SAB2_FILE};

pub fn all() -> Written {
    let mut converts = Converts {
        text: String::new(),
        cases: Vec::new(),
    };
    to_sab2(&mut converts);
    to_sab1(&mut converts);
    Written {
        name: "convert",
        about: "files of one form made into the other",
        text: converts.text,
        cases: converts.cases,
    }
}

struct Converts {
    text: String,
    cases: Vec<Shown>,
}

type Call = fn(&[u8], &mut [u8]) -> Answer<u16>;

const UP: (&str, Call, usize) = ("tosab2", plain::to_sab2, SAB2_FILE);
const BACK: (&str, Call, usize) = ("tosab1", plain::to_sab1, FILE);

impl Converts {
    /// A conversion into so many lent bytes that must answer a number at a place.
    fn row(
        &mut self,
        (name, call, length): (&str, Call, usize),
        (number, place): (u8, u8),
        shows: &str,
        file: &[u8],
    ) -> Vec<u8> {
        let mut out = lent(length, 9);
        let came = call(file, &mut out);
        let told = came
            .err()
            .map_or((0, 0), |refusal| (refusal.number, refusal.place));
        assert_eq!(told, (number, place), "{shows}");
        let written = came.map_or("- -".to_string(), |count| format!("{count} {}", hash(&out)));
        self.text += &format!(
            "# {shows}\n{name} {length}*9 {} = {} {written}\n",
            bytes(file),
            answer(&came)
        );
        self.cases.push(Shown {
            shows: shows.to_string(),
            answer: match number {
                0 | 1 => number.to_string(),
                _ => format!("{number} at {place}"),
            },
        });
        out.truncate(BLOCK * usize::from(came.unwrap_or_default()));
        out
    }
}

/// So many folders of one unit.
fn folders(count: usize) -> Vec<[u8; 80]> {
    let wishes: Vec<Wished> = (0..count)
        .map(|i| Wished {
            unit: 0,
            operation: 1,
            named: None,
            label: i.to_string(),
            mark: 0,
        })
        .collect();
    chain(&wishes)
}

fn to_sab2(converts: &mut Converts) {
    let file = file_of(&blocks_of_six(2), 7, 0);
    let mut good =
        |shows: &str, file: &[u8]| converts.row(UP, (0, 0), &format!("to SAB2: {shows}"), file);
    good("an empty file: one block", &file_of(&[], u32::MAX, 7));
    good("three records: two blocks", &file_of(&paper(), 7, 0));
    good("six records", &file_of(&blocks_of_six(1), 7, 3));
    good("seven records", &file_of(&blocks_of_six(2)[..7], 7, 3));
    let most = good("512 records: 87 blocks", &file_of(&folders(512), 7, 0));
    let sab2 = good("twelve records", &file);
    for length in [0, SAB2_FILE - 1, SAB2_FILE + 1, FILE] {
        let (name, call, _) = UP;
        let shows = format!("to SAB2: {length} bytes to write, and a file of no bytes: 1");
        converts.row((name, call, length), (1, 0), &shows, &[]);
    }
    let mut no = |answer: (u8, u8), shows: &str, file: &[u8]| {
        converts.row(UP, answer, &format!("to SAB2: {shows}"), file);
    };
    no((2, 0), "no bytes", &[]);
    no(
        (2, 0),
        "a byte behind the file",
        &[&file[..], &[0]].concat(),
    );
    no((3, 0), "an SAB2 file", &sab2);
    no((2, 0), "an SAB2 file of 87 blocks", &most);
    no((4, 1), "a wrong sum", &changed(&file, &[(BLOCK + 200, 99)]));
    no((20, 1), "a wrong place", &sealed_at(&file, 1, &[(10, 3)]));
    no(
        (7, 0),
        "a malformed record",
        &sealed_at(&file, 0, &[(29, 9)]),
    );
}

fn state(list: u8) -> Sab2 {
    let (mut log, mut base) = (vec![0; LOG], EMPTY_BASE.to_vec());
    plain::read_file(&mut log, &mut base, &file_of(&folded(), 7, 0)).expect("a good file");
    let run = plain::fold(&mut log, &mut base, 7, 0, list);
    assert_eq!(run, Ok(if list == 3 { 5 } else { 0 }));
    Sab2::of(&log, &base, 7, 0)
}

fn to_sab1(converts: &mut Converts) {
    let whole = |file: &[u8]| {
        let mut out = vec![0; SAB2_FILE];
        let count = plain::to_sab2(file, &mut out).expect("a good file");
        out.truncate(BLOCK * usize::from(count));
        out
    };
    let file = whole(&file_of(&blocks_of_six(2), 7, 0));
    let folded = state(3);
    let mut good =
        |shows: &str, file: &[u8]| converts.row(BACK, (0, 0), &format!("back: {shows}"), file);
    good(
        "no records: a block of count 0",
        &whole(&file_of(&[], u32::MAX, 7)),
    );
    good("three records", &whole(&file_of(&paper(), 7, 0)));
    good("512 records", &whole(&file_of(&folders(512), 7, 0)));
    good("a short list with nothing folded is lost", &state(7).file());
    for length in [0, FILE - 1, FILE + 1, SAB2_FILE] {
        let (name, call, _) = BACK;
        let shows = format!("back: {length} bytes to write, and a file of no bytes: 1");
        converts.row((name, call, length), (1, 0), &shows, &[]);
    }
    let mut no = |answer: (u8, u8), shows: &str, file: &[u8]| {
        converts.row(BACK, answer, &format!("back: {shows}"), file);
    };
    no((29, 0), "records are folded", &folded.file());
    let unlogged = Sab2 {
        records: Vec::new(),
        vector: [3, 2, 0, 0, 0, 0, 0, 0],
        ..folded.clone()
    };
    no(
        (29, 0),
        "records are folded, and none are left",
        &unlogged.file(),
    );
    no(
        (31, 0),
        "records are folded, and the base is not sound: 31",
        &folded.clone().with_row(1, &[(0, 3)]).file(),
    );
    no(
        (7, 1),
        "records are folded, and one behind is malformed: 7",
        &folded.clone().with_record(0, &[(1, 9)]).file(),
    );
    no(
        (20, 1),
        "records are folded, and the vector is not the counts: 20",
        &{
            let mut other = folded.clone();
            other.vector[5] = 1;
            other.file()
        },
    );
    no(
        (31, 0),
        "entries and no folded records: an identity above the vector",
        &{
            let mut other = folded.clone();
            other.records.clear();
            other.rows[0][8..24].fill(0);
            other.vector = [0; 8];
            other.file()
        },
    );
    no((2, 0), "no bytes", &[]);
    no((2, 0), "187 blocks", &file[..BLOCK].repeat(187));
    no((3, 0), "an SAB1 file", &file_of(&paper(), 7, 0));
    no((4, 1), "a wrong sum", &changed(&file, &[(BLOCK + 200, 99)]));
}
