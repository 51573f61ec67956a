//! The plain replay against the rules of docs/FORMAT.md, taken slowly; and what
//! tells whether a log reads otherwise than before labels were compared in any
//! case.

use plain::{ASIDE_ROW, EMPTY_BASE, ENTRY_ROW, RECORD, ROWS, TREE};
use workload::{Mix, log_of};

/// When two labels are the same, and whether a rename's object is a holder.
#[derive(Clone, Copy, PartialEq)]
enum Rule {
    /// By their bytes; the object too. So it was up to version 3.
    Bytes,
    /// A to Z as a to z; the object is none.
    AnyCase,
}

type Id = (u8, u16);

const ROOT: Id = (0, 0);

#[derive(Clone, Debug, PartialEq)]
struct Entry {
    kind: u8,
    id: Id,
    folder: Id,
    label: Vec<u8>,
    contents: Id,
    placing: Id,
    there: bool,
}

#[derive(Clone, Debug, PartialEq)]
struct Aside {
    id: Id,
    reason: u8,
    marks: Id,
    open: bool,
}

#[derive(Clone, Debug, Default, PartialEq)]
struct Tree {
    entries: Vec<Entry>,
    asides: Vec<Aside>,
}

fn identity(bytes: &[u8]) -> Id {
    (bytes[0], u16::from_le_bytes([bytes[2], bytes[3]]))
}

fn unseen(record: &[u8; RECORD], id: Id) -> bool {
    let at = 4 + 2 * usize::from(id.0);
    id.1 > u16::from_le_bytes([record[at], record[at + 1]])
}

fn folded(label: &[u8]) -> Vec<u8> {
    let fold = |byte: &u8| match byte {
        b'A'..=b'Z' => byte + 32,
        _ => *byte,
    };
    label.iter().map(fold).collect()
}

impl Tree {
    fn entry(&self, id: Id) -> Option<&Entry> {
        self.entries.iter().find(|one| one.there && one.id == id)
    }

    /// The entry of a folder that has a label.
    fn holder(&self, rule: Rule, but: Option<Id>, folder: Id, label: &[u8]) -> Option<Id> {
        let has = |one: &&Entry| {
            one.there
                && one.folder == folder
                && match rule {
                    Rule::Bytes => one.label == label,
                    Rule::AnyCase => Some(one.id) != but && folded(&one.label) == folded(label),
                }
        };
        self.entries.iter().find(has).map(|one| one.id)
    }

    /// The reason and the marked entry, if nothing can lie in a folder.
    fn no_folder(&self, folder: Id) -> Option<(u8, Id)> {
        match self.entry(folder) {
            _ if folder == ROOT => None,
            None => Some((13, ROOT)),
            Some(entry) => (entry.kind == 2).then_some((14, folder)),
        }
    }

    /// The identities from a folder up to the root, the root left out.
    fn way(&self, folder: Id) -> Vec<Id> {
        let mut way = Vec::new();
        let mut at = folder;
        while at != ROOT {
            assert!(way.len() < self.entries.len(), "a way that does not end");
            way.push(at);
            at = self.entry(at).expect("a folder on the way").folder;
        }
        way
    }

    /// The reason and the marked entry, or none if the record fits.
    fn judge(&self, rule: Rule, record: &[u8; RECORD]) -> Option<(u8, Id)> {
        let (object, folder) = (identity(&record[20..]), identity(&record[24..]));
        let label = &record[32..64];
        let entry = self.entry(object);
        match record[1] {
            1 | 2 => {
                let holder = || Some((15, self.holder(rule, None, folder, label)?));
                self.no_folder(folder).or_else(holder)
            }
            6 => {
                let stands = self.asides.iter().any(|one| one.id == object);
                (!stands).then_some((18, ROOT))
            }
            operation => {
                let Some(entry) = entry else {
                    return Some((12, ROOT));
                };
                match operation {
                    3 if entry.kind == 1 => Some((14, object)),
                    3 => unseen(record, entry.contents).then_some((17, object)),
                    4 if self
                        .entries
                        .iter()
                        .any(|one| one.there && one.folder == object) =>
                    {
                        Some((16, object))
                    }
                    4 => (unseen(record, entry.contents) || unseen(record, entry.placing))
                        .then_some((17, object)),
                    _ if unseen(record, entry.placing) => Some((17, object)),
                    7 => {
                        let no_folder = self.no_folder(folder);
                        if no_folder.is_some() {
                            return no_folder;
                        }
                        if self.way(folder).contains(&object) {
                            return Some((25, object));
                        }
                        let holder = self.holder(rule, Some(object), folder, label)?;
                        Some((15, holder))
                    }
                    _ => {
                        let holder = self.holder(rule, Some(object), entry.folder, label)?;
                        Some((15, holder))
                    }
                }
            }
        }
    }

    fn step(&mut self, rule: Rule, record: &[u8; RECORD]) {
        let own = identity(record);
        let (object, label) = (identity(&record[20..]), record[32..64].to_vec());
        if let Some((reason, marks)) = self.judge(rule, record) {
            self.asides.push(Aside {
                id: own,
                reason,
                marks,
                open: true,
            });
            return;
        }
        match record[1] {
            1 | 2 => self.entries.push(Entry {
                kind: record[1],
                id: own,
                folder: identity(&record[24..]),
                label,
                contents: own,
                placing: own,
                there: true,
            }),
            6 => {
                let aside = self.asides.iter_mut().find(|one| one.id == object);
                aside.expect("an aside").open = false;
            }
            operation => {
                let entry = self.entries.iter_mut().find(|one| one.id == object);
                let entry = entry.expect("an entry");
                match operation {
                    3 => entry.contents = own,
                    4 => entry.there = false,
                    _ => {
                        (entry.placing, entry.label) = (own, label);
                        if operation == 7 {
                            entry.folder = identity(&record[24..]);
                        }
                    }
                }
            }
        }
    }
}

fn records(log: &[u8]) -> impl Iterator<Item = &[u8; RECORD]> {
    let records = log.as_chunks::<RECORD>().0.iter();
    records.take_while(|record| record[2..4] != [0, 0])
}

fn replayed(rule: Rule, log: &[u8]) -> Tree {
    let mut tree = Tree::default();
    records(log).for_each(|record| tree.step(rule, record));
    tree.entries.retain(|entry| entry.there);
    tree
}

/// What the plain implementation shows.
fn shown(log: &[u8]) -> Tree {
    let mut table = [0; TREE];
    plain::show(log, &EMPTY_BASE, &mut table).expect("a sound log");
    let count = |at: usize| usize::from(u16::from_le_bytes([table[at], table[at + 1]]));
    let entries = table[4..].chunks(ENTRY_ROW).take(count(0));
    let asides = table[4 + ROWS * ENTRY_ROW..].chunks(ASIDE_ROW);
    Tree {
        entries: entries
            .map(|row| Entry {
                kind: row[0],
                id: identity(&row[4..]),
                folder: identity(&row[8..]),
                label: row[24..56].to_vec(),
                contents: identity(&row[12..]),
                placing: identity(&row[16..]),
                there: true,
            })
            .collect(),
        asides: asides
            .take(count(2))
            .map(|row| Aside {
                id: identity(row),
                reason: row[4],
                marks: identity(&row[8..]),
                open: row[5] == 1,
            })
            .collect(),
    }
}

/// Whether a record stands aside under 15 before a label of other bytes, or a
/// rename to the very label that its entry has acts. The command `sab` asks the
/// same of a file.
fn reads_otherwise(log: &[u8], tree: &Tree) -> bool {
    let all: Vec<&[u8; RECORD]> = records(log).collect();
    let aside = |id: Id| tree.asides.iter().find(|one| one.id == id);
    let label_before = |at: usize, id: Id| {
        let gave = |one: &&&[u8; RECORD]| {
            let make = one[1] <= 2 && identity(&one[..]) == id;
            let rename = one[1] == 5 && identity(&one[20..]) == id;
            (make || rename) && aside(identity(&one[..])).is_none()
        };
        all[..at].iter().rev().find(gave).map(|one| &one[32..64])
    };
    all.iter().enumerate().any(|(at, record)| {
        let label = Some(&record[32..64]);
        match aside(identity(&record[..])) {
            Some(aside) => aside.reason == 15 && label_before(at, aside.marks) != label,
            None => record[1] == 5 && label_before(at, identity(&record[20..])) == label,
        }
    })
}

#[test]
fn rule_by_rule() {
    let mut told = [0; 2];
    for seed in 0..600 {
        let mix = [Mix::CASES, Mix::CONFLICTS, Mix::BENCH][seed as usize % 3];
        let log = log_of(10 + seed as usize % 120, 5, 4, &mix, seed);
        let tree = shown(&log);
        assert!(tree == replayed(Rule::AnyCase, &log), "seed {seed}");
        let otherwise = tree != replayed(Rule::Bytes, &log);
        assert_eq!(reads_otherwise(&log, &tree), otherwise, "seed {seed}");
        told[usize::from(otherwise)] += 1;
    }
    assert!(told.iter().all(|count| *count > 100), "{told:?}");
}

/// Logs with moves: every reason of a move comes, and every entry reaches the root
/// in fewer steps than there are entries, the root included.
#[test]
fn moves() {
    let mut reasons = [0; 26];
    let mut deepest = 0;
    for seed in 0..800 {
        let log = log_of(10 + seed as usize % 200, 5, 5, &Mix::MOVES, seed);
        let tree = shown(&log);
        assert!(tree == replayed(Rule::AnyCase, &log), "seed {seed}");
        for entry in &tree.entries {
            let steps = tree.way(entry.folder).len() + 1;
            assert!(steps < tree.entries.len() + 1, "seed {seed}");
            deepest = deepest.max(steps);
        }
        for record in records(&log).filter(|record| record[1] == 7) {
            let aside = tree.asides.iter().find(|one| one.id == identity(record));
            reasons[usize::from(aside.map_or(0, |one| one.reason))] += 1;
        }
    }
    for reason in [0, 12, 13, 15, 17, 25] {
        assert!(reasons[reason] > 10, "{reason}: {reasons:?}");
    }
    assert_eq!(
        reasons.iter().sum::<usize>(),
        [0, 12, 13, 14, 15, 17, 25]
            .map(|at| reasons[at])
            .iter()
            .sum()
    );
    assert!(deepest > 8, "{deepest}");
}
