//! States with a list and a base, sound and not, written out row by row, and
//! questions to them.

use crate::kit::{Shown, Written, block_of, log_of};
use make_vectors::examples::{ROOT, record};
use make_vectors::text::{bytes, hash, units, vector};
use plain::{BLOCK, LOG, TREE};

/// An identity, unit and number.
type Id = (u8, u16);

#[derive(Clone)]
struct Entry {
    kind: u8,
    id: Id,
    folder: Id,
    label: String,
    contents: Id,
    place: Id,
    date: (u16, u8, u8),
    mark: u8,
}

#[derive(Clone)]
struct Aside {
    id: Id,
    reason: u8,
    marks: Option<Id>,
    open: bool,
}

#[derive(Clone)]
struct State {
    list: u8,
    vector: [u16; 8],
    entries: Vec<Entry>,
    asides: Vec<Aside>,
    log: Vec<[u8; 80]>,
}

fn id(bytes: &mut [u8], (unit, number): Id) {
    bytes[0] = unit;
    bytes[2..4].copy_from_slice(&number.to_le_bytes());
}

fn entry(kind: u8, own: Id, folder: Id, label: &str) -> Entry {
    Entry {
        kind,
        id: own,
        folder,
        label: label.to_string(),
        contents: own,
        place: own,
        date: (2025, 3, 3),
        mark: if kind == 2 { 0x11 } else { 0 },
    }
}

impl State {
    /// The bytes of the base.
    fn base(&self) -> Vec<u8> {
        let mut base = vec![0; plain::BASE];
        base[0] = self.list;
        base[2..4].copy_from_slice(&(self.entries.len() as u16).to_le_bytes());
        base[4..6].copy_from_slice(&(self.asides.len() as u16).to_le_bytes());
        for (place, count) in base[8..24].chunks_mut(2).zip(self.vector) {
            place.copy_from_slice(&count.to_le_bytes());
        }
        for (row, entry) in base[24..36_888].chunks_mut(72).zip(&self.entries) {
            row[0] = entry.kind;
            id(&mut row[4..8], entry.id);
            id(&mut row[8..12], entry.folder);
            id(&mut row[12..16], entry.contents);
            id(&mut row[16..20], entry.place);
            let (year, month, day) = entry.date;
            row[20..22].copy_from_slice(&year.to_le_bytes());
            row[22..24].copy_from_slice(&[month, day]);
            row[24..24 + entry.label.len()].copy_from_slice(entry.label.as_bytes());
            row[56..].fill(entry.mark);
        }
        for (row, aside) in base[36_888..].chunks_mut(12).zip(&self.asides) {
            id(&mut row[..4], aside.id);
            row[4..6].copy_from_slice(&[aside.reason, 2 - aside.open as u8]);
            id(&mut row[8..12], aside.marks.unwrap_or(ROOT));
        }
        base
    }

    fn log(&self) -> Vec<u8> {
        log_of(&self.log)
    }

    /// The lines that tell the state.
    fn lines(&self) -> String {
        let name = |(unit, number): Id| format!("{unit}.{number}");
        let mut text = format!("units {}\nvector {}\n", units(self.list), vector(&self.vector));
        for entry in &self.entries {
            let kind = if entry.kind == 1 { "folder" } else { "trace" };
            let label: String = entry.label.bytes().map(|byte| format!("{byte:02x}")).collect();
            let label = if label.is_empty() { "-".to_string() } else { label };
            let (year, month, day) = entry.date;
            text += &format!(
                "entry {kind} {} {} {label} {} {} {year:04}-{month:02}-{day:02} {}\n",
                name(entry.id),
                name(entry.folder),
                name(entry.contents),
                name(entry.place),
                format!("{:02x}", entry.mark).repeat(16),
            );
        }
        for aside in &self.asides {
            let state = if aside.open { "open" } else { "settled" };
            let marks = aside.marks.map_or("-".to_string(), name);
            text += &format!("aside {} {} {marks} {state}\n", name(aside.id), aside.reason);
        }
        text + &format!("log {}\n", bytes(&self.log()))
    }
}

/// A question to a state.
enum Asked<'a> {
    Show,
    Act(u8, &'a [u8; 80]),
    Take(u8, &'a [[u8; 80]]),
    HandOut(u8, [u16; 8]),
    Fold(u8, u8),
    Order(&'a [Id]),
}
use Asked::{Act, Fold, HandOut, Order, Show, Take};

struct Kit {
    text: String,
    cases: Vec<Shown>,
}

impl Kit {
    /// A state and its questions, each with the number that is due.
    fn state(&mut self, shows: &str, state: &State, questions: &[(u8, Asked)]) {
        self.text += &format!("state # {shows}\n{}", state.lines());
        let mut answers = Vec::new();
        for (number, question) in questions {
            let (words, given, log) = ask(state, question);
            assert_eq!(given, *number, "{shows}: {words}");
            let place = match given {
                2..=11 | 20 | 24..=29 => "0",
                _ => "-",
            };
            self.text += &match (log, question) {
                (Some(log), _) => format!("? {words} = {given} {place} {}\n", hash(&log)),
                (None, Order(_)) => format!("? {words} = {given} {place} {}\n", failed(given)),
                (None, _) => format!("? {words} = {given} {place}\n"),
            };
            answers.push(given.to_string());
        }
        self.cases.push(Shown {
            shows: shows.to_string(),
            answer: answers.join(", "),
        });
    }

    /// A state that is not sound.
    fn unsound(&mut self, shows: &str, good: &State, change: impl FnOnce(&mut State)) {
        let mut state = good.clone();
        change(&mut state);
        self.state(shows, &state, &[(19, Show)]);
    }
}

/// The condition that fails of an order that is asked here: none, or it is refused.
fn failed(given: u8) -> &'static str {
    if given == 0 { "0" } else { "-" }
}

/// The words of a question, its answer, and the log that it leaves.
fn ask(state: &State, question: &Asked) -> (String, u8, Option<Vec<u8>>) {
    let (mut log, mut base) = (state.log(), state.base());
    let number = |given: plain::Answer<()>| given.err().map_or(0, |refusal| refusal.number);
    let (words, given) = match question {
        Show => {
            let given = plain::show(&log, &base, &mut vec![0; TREE]);
            return ("show".to_string(), number(given), None);
        }
        Order(names) => {
            let told: Vec<String> = names.iter().map(|(unit, number)| format!("{unit}.{number}")).collect();
            let name = |(unit, number): &Id| {
                let [low, high] = number.to_le_bytes();
                [*unit, 0, low, high]
            };
            let list: Vec<u8> = names.iter().flat_map(name).collect();
            let (mut ours, mut theirs) = (vec![0; TREE], vec![0; TREE]);
            let given = plain::check_order(&log, &base, &list, &mut ours, &mut theirs);
            assert!(matches!(given, Ok(0) | Err(_)), "{told:?}");
            return (format!("order {}", told.join(",")), number(given.map(drop)), None);
        }
        Act(unit, wish) => (
            format!("act 7 {unit} {}", bytes(*wish)),
            plain::act(&mut log, &base, &mut [], 7, *unit, *wish),
        ),
        Take(unit, records) => {
            let block = block_of(records);
            (
                format!("take 7 {unit} {}", bytes(&block)),
                plain::take(&mut log, &base, &mut [], 7, *unit, &block),
            )
        }
        HandOut(unit, asked) => (
            format!("handout 7 {unit} {}", vector(asked)),
            plain::hand_out(&log, &base, 7, *unit, asked, &mut [0; BLOCK]),
        ),
        Fold(unit, list) => (
            format!("fold 7 {unit} {}", units(*list)),
            plain::fold(&mut log, &mut base, 7, *unit, *list).map(drop),
        ),
    };
    (words, number(given), Some(log))
}

/// Folder 0.1, trace 0.2 in it, folder 1.1 in 0.1; 1.2 stands aside. 0.3 is not
/// folded.
fn good() -> State {
    State {
        list: 7,
        vector: [2, 2, 0, 0, 0, 0, 0, 0],
        entries: vec![
            entry(1, (0, 1), ROOT, "Bench"),
            entry(2, (0, 2), (0, 1), "Gain"),
            entry(1, (1, 1), (0, 1), "Attic"),
        ],
        asides: vec![Aside {
            id: (1, 2),
            reason: 15,
            marks: Some((0, 2)),
            open: true,
        }],
        log: vec![record(0, &[2, 2], 1, ROOT, "Roof", 0, 3)],
    }
}

fn wish(unit: u8, operation: u8, named: Id, label: &str) -> [u8; 80] {
    let mut wish = record(unit, &[], operation, named, label, 0, 4);
    wish[2..20].fill(0);
    wish
}

pub fn all() -> Written {
    let mut kit = Kit {
        text: String::from("# states with a list and a base\n"),
        cases: Vec::new(),
    };
    sound(&mut kit);
    lists(&mut kit);
    rows(&mut kit);
    trees(&mut kit);
    logs(&mut kit);
    limits(&mut kit);
    Written {
        name: "states",
        about: "lists and bases, sound and not",
        text: kit.text,
        cases: kit.cases,
    }
}

fn sound(kit: &mut Kit) {
    let good = good();
    let settle = wish(0, 6, (1, 2), "");
    let rename = wish(0, 5, (0, 2), "GAIN");
    let same = wish(1, 1, (0, 1), "attic");
    let gone = wish(0, 4, (1, 2), "");
    let held = record(0, &[2, 2], 1, ROOT, "Other", 0, 3);
    let questions = [
        (0, Show),
        (0, Act(0, &settle)),
        (0, Act(0, &rename)),
        (15, Act(1, &same)),
        (12, Act(0, &gone)),
        (10, Take(2, &[held])),
        (27, HandOut(2, [2, 1, 9, 9, 9, 9, 9, 9])),
        (0, HandOut(2, [2, 2, 0, 0, 0, 0, 0, 0])),
        (26, Fold(0, 6)),
        (0, Fold(0, 3)),
        (0, Fold(2, 7)),
        (29, Order(&[(0, 3)])),
    ];
    kit.state("a sound state", &good, &questions);
    let mut other = good.clone();
    other.entries.reverse();
    kit.state("the order of the rows is not asked for", &other, &[(0, Show)]);
    let mut other = good.clone();
    other.entries[0].contents = (1, 2);
    kit.state("nor that a folder's last contents record is its maker", &other, &[(0, Show)]);
    let mut other = good.clone();
    other.asides[0].marks = None;
    kit.state("nor that an aside marks an entry", &other, &[(0, Show)]);
    let mut other = good;
    other.log = vec![record(1, &[0, 2], 1, ROOT, "Low", 0, 3)];
    kit.state("nor that a record of the log covers the base vector", &other, &[(0, Show)]);
    let mut none = other;
    (none.list, none.vector) = (1, [0; 8]);
    none.entries.clear();
    none.asides.clear();
    none.log = vec![record(0, &[], 1, ROOT, "Roof", 0, 3)];
    kit.state("a short list, and nothing folded: an order is checked", &none, &[(0, Order(&[(0, 1)]))]);
}

fn lists(kit: &mut Kit) {
    let good = good();
    kit.unsound("no unit listed", &good, |state| state.list = 0);
    let mut unsound = good.clone();
    unsound.list = 0;
    let questions = [(19, Order(&[(0, 3)]))];
    kit.state("an order by a state that is not sound, with folded records: 19", &unsound, &questions);
    kit.unsound("unit 1 has folded records and is not listed", &good, |state| state.list = 5);
    kit.unsound("unit 3 has a record in the log and is not listed", &good, |state| {
        state.log = vec![record(3, &[2, 2], 1, ROOT, "Roof", 0, 3)];
    });
    let mut other = good;
    other.list = 3;
    let act = wish(2, 1, ROOT, "x");
    let questions = [(0, Show), (26, Act(2, &act)), (0, HandOut(2, [9; 8])), (26, Fold(2, 3))];
    kit.state("the own unit need not be listed but to act and to fold", &other, &questions);
}

fn rows(kit: &mut Kit) {
    let good = good();
    let mut no = |shows: &str, change: fn(&mut State)| kit.unsound(shows, &good, change);
    no("an entry above the vector", |state| state.entries[1].id.1 = 3);
    no("an entry of a unit without folded records", |state| state.entries[1].id.0 = 2);
    no("an entry of unit 8", |state| state.entries[1].id.0 = 8);
    no("an entry of number 0", |state| state.entries[1].id.1 = 0);
    no("a last contents record above the vector", |state| state.entries[1].contents.1 = 3);
    no("a last place record above the vector", |state| state.entries[1].place.1 = 3);
    no("no last place record", |state| state.entries[1].place = ROOT);
    no("a folder above the vector", |state| state.entries[1].folder.1 = 3);
    no("an aside above the vector", |state| state.asides[0].id.1 = 3);
    no("a marked entry above the vector", |state| state.asides[0].marks = Some((0, 3)));
    no("a date that is none", |state| state.entries[0].date = (2025, 2, 29));
    no("a label that begins with a space", |state| state.entries[0].label = " a".into());
    no("an empty label", |state| state.entries[0].label.clear());
    no("a folder with a mark", |state| state.entries[0].mark = 1);
    no("reason 11", |state| state.asides[0].reason = 11);
    no("reason 24", |state| state.asides[0].reason = 24);
}

fn trees(kit: &mut Kit) {
    let good = good();
    let mut no = |shows: &str, change: fn(&mut State)| kit.unsound(shows, &good, change);
    no("an entry twice", |state| state.entries[2].id = (0, 2));
    no("an entry that is an aside too", |state| state.asides[0].id = (1, 1));
    no("an aside twice", |state| state.asides.push(state.asides[0].clone()));
    no("a label twice in a folder", |state| state.entries[2].label = "Gain".into());
    no("a label twice in a folder, in another case", |state| {
        state.entries[2].label = "gAIN".into();
    });
    no("a folder that is a trace", |state| state.entries[2].folder = (0, 2));
    no("a folder that is not there", |state| state.entries[2].folder = (1, 2));
    no("a folder in itself", |state| state.entries[0].folder = (0, 1));
    no("two folders in each other", |state| state.entries[0].folder = (1, 1));
}

fn logs(kit: &mut Kit) {
    let good = good();
    let mut no = |shows: &str, log: Vec<[u8; 80]>| {
        kit.unsound(shows, &good, |state| state.log = log);
    };
    let roof = |unit: u8, seen: &[u16]| record(unit, seen, 1, ROOT, "Roof", 0, 3);
    no("a number that is folded", vec![roof(0, &[1, 2])]);
    no("a number left out", vec![roof(0, &[3, 2])]);
    no("a record that has seen more than is held", vec![roof(0, &[2, 3])]);
    let one = record(1, &[2, 2], 1, ROOT, "x", 0, 3);
    let two = record(0, &[2, 3], 1, ROOT, "y", 0, 3);
    let open = record(2, &[3, 2], 1, ROOT, "z", 0, 3);
    no("a record that has seen 0.3 and not all that 0.3 saw", vec![one, two, open]);
}

fn limits(kit: &mut Kit) {
    let mut last = good();
    last.vector[0] = 65_535;
    last.log.clear();
    let fits = wish(0, 1, ROOT, "x");
    let stroke = wish(0, 1, ROOT, "a/b");
    let bad = wish(0, 1, ROOT, " x");
    let named = wish(0, 1, (0, 65_535), "x");
    let other = wish(1, 3, (0, 65_535), "");
    let questions = [
        (28, Act(0, &fits)),
        (28, Act(0, &named)),
        (24, Act(0, &stroke)),
        (7, Act(0, &bad)),
        (12, Act(1, &other)),
    ];
    kit.state("a unit that has used its last number", &last, &questions);

    // 512 entries of unit 0, and behind them a bulge.
    let full = |log: Vec<[u8; 80]>| State {
        list: 1,
        vector: [512, 0, 0, 0, 0, 0, 0, 0],
        entries: (1..=512).map(|i| entry(1, (0, i), ROOT, &format!("{i}"))).collect(),
        asides: Vec::new(),
        log,
    };
    let make = |seen: u16, label: &str| record(0, &[seen], 1, ROOT, label, 0, 3);
    let remove = |seen: u16, number: u16| record(0, &[seen], 4, (0, number), "", 0, 3);
    kit.state("a full base: a make does not fold", &full(vec![make(512, "a")]), &[(0, Fold(0, 1))]);
    let over = vec![make(512, "a"), make(513, "b"), remove(514, 7), remove(515, 8), make(516, "c")];
    kit.state("over a bulge of 514 entries: the first four fold", &full(over), &[(0, Fold(0, 1))]);
    assert_eq!(LOG, good().log().len());
}
