//! Long lists: 512 entries and 512 asides in a base, and 1,024 of either shown.
//! Two units are listed. The calls of the one are told; the other acts, takes and
//! folds as well, but of it only the blocks are told that it hands out.

use crate::chain::file_of;
use crate::examples::{ROOT, moved, record};
use crate::list::{Lent::Own, List};
use plain::{BLOCK, FILE, SAB2_FILE};

const ARCHIVE: u32 = 7;

type Id = (u8, u16);

/// A wish: no number, and nothing seen.
fn wish(mut record: [u8; 80]) -> [u8; 80] {
    record[2..20].fill(0);
    record
}

fn two_bytes(bytes: &[u8], at: usize) -> usize {
    u16::from_le_bytes([bytes[at], bytes[at + 1]]).into()
}

struct Apart {
    list: List,
    /// The unit that is told, in the slot of its number.
    unit: u8,
    /// The other unit, of a lower number: of two records of one sum its own is the
    /// earlier.
    other: u8,
    /// Its state; this list is thrown away.
    untold: List,
}

/// The unit that acts.
#[derive(Clone, Copy)]
enum Who {
    Told,
    Untold,
}
use Who::{Told, Untold};

impl Apart {
    fn new(remark: &str, unit: u8, other: u8) -> Apart {
        let (list, untold) = (List::new(remark), List::new(""));
        Apart { list, unit, other, untold }
    }

    /// A wish that is refused so, or is answered 0; the record it makes.
    fn wished(&mut self, who: Who, number: u8, wish: [u8; 80]) -> Id {
        let (list, unit) = match who {
            Told => (&mut self.list, self.unit),
            Untold => (&mut self.untold, self.other),
        };
        assert_eq!(list.act(unit.into(), Own, ARCHIVE, unit, &wish), number);
        (unit, list.vector(unit.into())[usize::from(unit)])
    }

    fn of(&self, who: Who) -> u8 {
        match who {
            Told => self.unit,
            Untold => self.other,
        }
    }

    fn act(&mut self, who: Who, operation: u8, named: Id, label: &str) -> Id {
        self.refused(who, 0, operation, named, label)
    }

    /// An act that is answered by a number.
    fn refused(&mut self, who: Who, number: u8, operation: u8, named: Id, label: &str) -> Id {
        let mark = if matches!(operation, 2 | 3) { 7 } else { 0 };
        let record = record(self.of(who), &[], operation, named, label, mark, 3);
        self.wished(who, number, wish(record))
    }

    fn move_to(&mut self, who: Who, number: u8, object: Id, folder: Id, label: &str) -> Id {
        let record = moved(self.of(who), &[], object, folder, label, 3);
        self.wished(who, number, wish(record))
    }

    /// The told unit takes all it lacks of the other.
    fn hear(&mut self) {
        loop {
            let asked = self.list.vector(self.unit.into());
            let (slot, lent) = (self.other.into(), (BLOCK, 1));
            assert_eq!(self.untold.hand_out(slot, Own, ARCHIVE, self.other, &asked, lent), 0);
            let block = self.untold.given.pop().expect("a block was given");
            if block[9] == 0 {
                return;
            }
            self.take(0, &block);
        }
    }

    /// The told unit takes a block.
    fn take(&mut self, number: u8, block: &[u8]) {
        let came = self.list.take(self.unit.into(), Own, ARCHIVE, self.unit, block);
        assert_eq!(came, number);
    }

    /// The other takes all it lacks of the told unit.
    fn tell(&mut self) {
        let (from, to) = (usize::from(self.unit), usize::from(self.other));
        loop {
            let asked = self.untold.vector(to);
            let (log, base) = (&self.list.logs[from], &self.list.bases[from]);
            let mut block = vec![0; BLOCK];
            plain::hand_out(log, base, ARCHIVE, self.unit, &asked, &mut block).expect("not behind");
            if block[9] == 0 {
                return;
            }
            assert_eq!(self.untold.take(to, Own, ARCHIVE, self.other, &block), 0);
        }
    }

    /// Both units listed.
    fn listed(&self) -> u8 {
        1 << self.unit | 1 << self.other
    }

    /// The told unit folds so many records.
    fn fold(&mut self, folded: usize) {
        let slot = usize::from(self.unit);
        let before = self.held();
        assert_eq!(self.list.fold(slot, ARCHIVE, self.unit, self.listed()), 0);
        assert_eq!(before - self.held(), folded);
    }

    fn fold_untold(&mut self) {
        let (slot, listed) = (self.other.into(), self.listed());
        assert_eq!(self.untold.fold(slot, ARCHIVE, self.other, listed), 0);
    }

    /// How many records stand in the log of the told unit.
    fn held(&self) -> usize {
        let (records, _) = self.list.logs[usize::from(self.unit)].as_chunks::<80>();
        records.iter().filter(|record| record[2..4] != [0, 0]).count()
    }

    /// How many entries and asides its base has.
    fn based(&self) -> (usize, usize) {
        let base = &self.list.bases[usize::from(self.unit)];
        (two_bytes(base, 2), two_bytes(base, 4))
    }

    /// How many entries and asides it shows.
    fn shown(&self) -> (usize, usize) {
        let tree = self.list.tree(self.unit.into());
        (two_bytes(&tree, 0), two_bytes(&tree, 2))
    }

    /// 512 entries by 512 records: the first `deep` in one another, the 404th a
    /// trace; all but the last of them folded, by the other unit all.
    fn entries(&mut self, deep: u16) {
        let mut last = ROOT;
        for number in 1..=510 {
            last = match number {
                404 => self.act(Told, 2, ROOT, "w404"),
                _ if number <= deep => self.act(Told, 1, last, "d"),
                _ => self.act(Told, 1, ROOT, &format!("w{number}")),
            };
        }
        self.tell();
        self.act(Untold, 1, ROOT, "heard");
        self.hear();
        self.act(Told, 1, ROOT, "X");
        self.refused(Told, 11, 1, ROOT, "Y");
        assert_eq!(self.shown(), (512, 0));
        self.fold(511);
        self.tell();
        self.fold_untold();
    }

    /// One of the entries made first.
    fn made(&self, number: u16) -> Id {
        (self.unit, number)
    }

    /// 504 acts of the told unit that all stand aside, because of six that the other
    /// does apart; then all folds.
    fn asides(&mut self) {
        self.act(Untold, 4, self.made(511), "");
        self.act(Untold, 5, self.made(401), "r");
        self.move_to(Untold, 0, self.made(402), self.made(403), "w402");
        self.act(Untold, 3, self.made(404), "");
        self.act(Untold, 2, self.made(405), "t");
        self.act(Untold, 5, self.made(406), "same");

        let x = self.made(511);
        let first = self.act(Told, 1, x, "a");
        let second = self.act(Told, 2, x, "b");
        self.act(Told, 5, self.made(401), "z");
        self.move_to(Told, 0, self.made(403), self.made(402), "w403");
        self.act(Told, 3, self.made(404), "");
        self.act(Told, 4, self.made(405), "");
        self.act(Told, 5, self.made(407), "same");
        self.within(x, 497);
        self.hear();
        self.tell();
        self.act(Untold, 6, first, "");
        self.hear();
        assert_eq!(self.shown(), (512, 504));
        self.fold(512);
        // What the other may fold then.
        self.act(Told, 6, second, "");
        self.tell();
        self.fold_untold();
        assert_eq!(self.based(), (512, 504));
    }

    /// So many acts of the told unit in a folder.
    fn within(&mut self, folder: Id, acts: usize) {
        let (mut inner, mut trace) = (folder, folder);
        for act in 0..acts {
            let made = match act % 8 {
                0 => self.act(Told, 1, folder, &format!("f{act}")),
                1 => self.act(Told, 2, inner, "t"),
                2 => self.act(Told, 3, trace, ""),
                3 => self.act(Told, 5, trace, "u"),
                4 => self.move_to(Told, 0, trace, folder, "t"),
                5 => self.act(Told, 4, trace, ""),
                6 => self.act(Told, 5, folder, &format!("r{act}")),
                _ => self.move_to(Told, 0, inner, ROOT, &format!("i{act}")),
            };
            match act % 8 {
                0 => inner = made,
                1 => trace = made,
                _ => (),
            }
        }
    }

    /// Eight asides more; all folds, and the base is full.
    fn last_asides(&mut self) {
        self.act(Untold, 5, self.made(408), "p");
        let first = self.act(Told, 5, self.made(408), "p0");
        for label in ["p1", "p2", "p3", "p4", "p5", "p6", "p7"] {
            self.act(Told, 5, self.made(408), label);
        }
        self.hear();
        self.tell();
        self.act(Untold, 6, first, "");
        self.hear();
        self.fold(11);
        assert_eq!((self.based(), self.held()), ((512, 512), 0));
    }

    /// What the calls answer where nothing has place any more.
    fn full(mut self, missing: Id) -> String {
        let (slot, unit) = (usize::from(self.unit), self.unit);
        let list = &mut self.list;
        list.show(slot, Own);
        list.list(slot, (0, 0));
        list.find(slot, (0, 0), b"HEARD");
        list.find(slot, (0, 0), b"w405");
        list.find(slot, (unit.into(), 405), b"T");
        assert_eq!(list.write(slot, Own, ARCHIVE, unit, FILE, 1), 29);
        assert_eq!(list.write_sab2(slot, Own, ARCHIVE, unit, SAB2_FILE, 2), 0);
        list.readout2(slot, ARCHIVE, unit);
        assert_eq!(list.back(slot, ARCHIVE, unit), 29);
        assert_eq!(list.hand_out(slot, Own, ARCHIVE, unit, &[0; 8], (BLOCK, 3)), 27);
        let asked = plain::vector(&[0; plain::LOG], &list.bases[slot]).expect("a sound base");
        assert_eq!(list.hand_out(slot, Own, ARCHIVE, unit, &asked, (BLOCK, 4)), 0);
        let block = list.given.pop().expect("a block was given");
        self.take(0, &block);
        self.take(11, &self.by_other(&[(4, missing, "")]));
        self.refused(Told, 11, 1, ROOT, "Y");
        self.refused(Told, 24, 1, ROOT, "Y/");
        assert_eq!(self.list.fold(slot, ARCHIVE, unit, 1 << unit), 26);
        self.fold(0);
        self.list.end()
    }

    /// A block of records of the other unit, each with all seen, that it never made.
    fn by_other(&self, records: &[(u8, Id, &str)]) -> Vec<u8> {
        let mut seen = self.list.vector(self.unit.into());
        let mut made = Vec::new();
        for (operation, named, label) in records {
            made.push(record(self.other, &seen, *operation, *named, label, 0, 4));
            seen[usize::from(self.other)] += 1;
        }
        file_of(&made, ARCHIVE, self.other)
    }
}

/// 512 entries and 512 asides in the base, 512 entries more in the log.
pub fn entries() -> String {
    let remark = "a full base, and 512 entries made over it: 1,024 entries and 512 asides";
    let mut apart = Apart::new(remark, 1, 0);
    apart.entries(400);
    apart.asides();
    apart.last_asides();
    let mut last = apart.act(Told, 1, apart.made(400), "d");
    apart.tell();
    apart.fold_untold();
    for _ in 1..300 {
        last = apart.act(Told, 1, last, "d");
    }
    for number in 300..480 {
        apart.act(Told, 1, ROOT, &format!("e{number}"));
    }
    for number in 480..511 {
        apart.act(Told, 2, last, &format!("\\\"{number}{}", "\"".repeat(27)));
    }
    assert_eq!(apart.shown(), (1_023, 512));
    apart.move_to(Told, 25, apart.made(1), last, "d");
    apart.refused(Told, 12, 4, apart.made(511), "");
    apart.refused(Told, 15, 5, apart.made(410), "E479");
    apart.refused(Told, 16, 4, last, "");
    apart.tell();
    let by_other = apart.act(Untold, 1, last, "heard too");
    apart.hear();
    assert_eq!((apart.shown(), apart.held()), ((1_024, 512), 512));
    apart.full(by_other)
}

/// 512 entries and 512 asides in the base, 512 asides more in the log. If acts made
/// all records of a full log, one of them fits; so three come here that no act makes.
pub fn asides() -> String {
    let remark = "a full base, and 512 asides behind it: 512 entries and 1,024 asides";
    let mut apart = Apart::new(remark, 6, 3);
    apart.entries(1);
    apart.asides();
    apart.last_asides();
    // A settle of a folded aside, over the full base.
    apart.act(Told, 6, apart.made(514), "");
    apart.tell();
    apart.fold_untold();
    apart.act(Untold, 5, apart.made(409), "q");
    let rival = apart.act(Told, 1, ROOT, "Q");
    for label in ["q1", "q2", "q3"] {
        apart.act(Told, 5, apart.made(409), label);
    }
    apart.move_to(Told, 0, apart.made(409), apart.made(410), "q");
    apart.within(rival, 504);
    apart.hear();
    assert_eq!((apart.shown(), apart.held()), ((512, 512 + 509), 511));
    apart.take(0, &apart.by_other(&[(4, rival, "")]));
    // The settle and the cause of the asides fold, and no aside.
    apart.fold(2);
    assert_eq!((apart.based(), apart.held()), ((512, 512), 510));
    let last = apart.by_other(&[(5, rival, "s"), (1, ROOT, "w412")]);
    let slot = usize::from(apart.unit);
    assert_eq!(apart.list.try_row(slot, Own, ARCHIVE, apart.unit, &last), 0);
    apart.take(0, &last);
    assert_eq!((apart.shown(), apart.held()), ((512, 1_024), 512));
    apart.full(rival)
}
