//! The replay: each record in rank order fits or stands aside. It starts from the
//! tree of a base, which is judged as it is entered.

use crate::base::{self, Base};
use crate::bytes::{get32, get64};
use crate::folded::Folded;
use crate::held::{Places, Store};
use crate::record::{
    Fields, Label, LabelKey, MAKE_FOLDER, MAKE_TRACE, MOVE, REMOVE, RENAME, Record, STORE,
    label_in, label_key,
};
use crate::{BASE, BASE_ROWS, RECORDS};

/// The root's slot; a link or a mark that names it names none.
pub const ROOT: u16 = 0;

/// The slot of an entry that is folded and gone.
pub const NOWHERE: u16 = 1;

/// Slots behind these two: those of records, by place, then those of the base, by row.
const FIRST: usize = 2;

/// The slot of the record at a place.
#[inline(always)]
pub const fn slot_of(place: usize) -> usize {
    FIRST + place
}

/// The slot of a row of the base.
#[inline(always)]
pub const fn base_slot(row: usize) -> usize {
    slot_of(RECORDS) + row
}

#[derive(Clone, Copy, PartialEq, Eq)]
#[repr(u16)]
pub enum Kind {
    Absent = 0,
    Folder = 1,
    Trace = 2,
}

/// What gave an entry something: its identity, and the slot where it stands.
#[derive(Clone, Copy)]
pub struct Giver {
    pub identity: u32,
    pub slot: u32,
}

/// An entry.
#[derive(Clone, Copy)]
pub struct Entry {
    /// Last contents record; its slot has date and mark.
    pub contents: Giver,
    /// Last place record; its slot has the label.
    pub placing: Giver,
    hash: u32,
    /// The slot of its folder.
    pub folder: u16,
    /// Entries in it.
    inside: u16,
    /// Next entry under the same head.
    next: u16,
    pub kind: Kind,
}

/// No record.
const NO_GIVER: Giver = Giver {
    identity: 0,
    slot: 0,
};

/// No entry. Like all that a room begins with it is zeros without gaps, which are
/// written fastest.
const ABSENT: Entry = Entry {
    contents: NO_GIVER,
    placing: NO_GIVER,
    hash: 0,
    folder: 0,
    inside: 0,
    next: 0,
    kind: Kind::Absent,
};

/// How a record fared: reason 0 is a fit.
#[derive(Clone, Copy)]
pub struct Fate {
    pub reason: u8,
    pub settled: bool,
    /// The slot of the marked entry.
    marked: u16,
    /// The marked entry, or 0.
    pub marks: u32,
}

impl Fate {
    const FITS: Fate = Fate {
        reason: 0,
        settled: false,
        marked: 0,
        marks: 0,
    };
}

/// Memory for a replay, no more than it needs: less is to be cleared.
#[allow(clippy::large_enum_variant)]
pub enum Room {
    Small(Slots<{ slot_of(SMALL) }, 256>),
    Log(Slots<{ slot_of(RECORDS) }, 2048>),
    Base(Slots<{ base_slot(BASE_ROWS) }, 4096>, Folded),
}

/// Records that a small room is for.
pub const SMALL: usize = 128;

pub struct Slots<const COUNT: usize, const HEADS: usize> {
    entries: [Entry; COUNT],
    fates: [Fate; COUNT],
    identities: [u32; COUNT],
    heads: [u16; HEADS],
}

impl<const COUNT: usize, const HEADS: usize> Slots<COUNT, HEADS> {
    const ZEROS: Slots<COUNT, HEADS> = Slots {
        entries: [ABSENT; COUNT],
        fates: [Fate::FITS; COUNT],
        identities: [0; COUNT],
        heads: [0; HEADS],
    };

    /// The root alone.
    #[inline(always)]
    fn replay<'a>(&'a mut self, folded: Option<&'a mut Folded>) -> Replay<'a> {
        self.entries[usize::from(ROOT)].kind = Kind::Folder;
        Replay {
            entries: &mut self.entries,
            fates: &mut self.fates,
            identities: &mut self.identities,
            folded,
            heads: &mut self.heads,
            present: 0,
            aside: 0,
        }
    }
}

impl Room {
    /// Room for so many records, behind a base with rows or without.
    #[inline(always)]
    pub fn of(records: usize, is_bare: bool) -> Room {
        match records {
            _ if !is_bare => Room::Base(Slots::ZEROS, Folded::NONE),
            0..=SMALL => Room::Small(Slots::ZEROS),
            _ => Room::Log(Slots::ZEROS),
        }
    }

    /// Room for the records of a log, and one more if it is not full.
    #[inline(always)]
    pub fn for_log(log: &[Record], base: &[u8; BASE]) -> Room {
        let is_small = get64(&log[SMALL - 1], 0) == 0;
        Room::of(if is_small { SMALL } else { RECORDS }, base::is_bare(base))
    }

    /// The root alone.
    #[inline(always)]
    pub fn replay(&mut self) -> Replay<'_> {
        match self {
            Room::Small(slots) => slots.replay(None),
            Room::Log(slots) => slots.replay(None),
            Room::Base(slots, folded) => slots.replay(Some(folded)),
        }
    }
}

pub struct Replay<'a> {
    /// By slot.
    pub entries: &'a mut [Entry],
    /// Of the records by slot, then of the asides of the base by row.
    pub fates: &'a mut [Fate],
    /// The entry or record of each slot, as it is named; 0 for the root.
    pub identities: &'a mut [u32],
    /// Where the identities of the base stand, if it has any.
    folded: Option<&'a mut Folded>,
    /// First entry under each hash of folder and label.
    heads: &'a mut [u16],
    /// Entries that are present.
    pub present: usize,
    /// Records that stand aside.
    pub aside: usize,
}

/// What a state has: rows of the base, and records of a log or a file.
pub struct Source<'a, S> {
    pub base: Base<'a>,
    pub store: S,
}

impl<S: Store> Source<'_, S> {
    /// The label that stands in a slot.
    #[inline(always)]
    pub fn label(&self, slot: u32) -> &Label {
        match (slot as usize).checked_sub(base_slot(0)) {
            None => label_in(self.store.record(slot as usize - FIRST)),
            Some(row) => self.base.label(row),
        }
    }

    /// The date, four bytes, and the mark, sixteen, that stand in a slot.
    #[inline(always)]
    pub fn contents(&self, slot: u32) -> (&[u8], &[u8]) {
        match (slot as usize).checked_sub(base_slot(0)) {
            None => {
                let record = self.store.record(slot as usize - FIRST);
                (&record[28..32], &record[64..])
            }
            Some(row) => {
                let row = &self.base.entries[row];
                (&row[20..24], &row[56..])
            }
        }
    }
}

/// Hash of a label in a folder.
#[inline(always)]
fn hash_of(folder: u16, label: &LabelKey) -> u32 {
    const ODD: [u64; 4] = [
        0x9e37_79b9_7f4a_7c15,
        0xbf58_476d_1ce4_e5b9,
        0x94d0_49bb_1331_11eb,
        0xd6e8_feb8_6659_fd93,
    ];
    let mixed = (label[0] ^ (folder as u64) << 48).wrapping_mul(ODD[0])
        ^ label[1].wrapping_mul(ODD[1])
        ^ label[2].wrapping_mul(ODD[2])
        ^ label[3].wrapping_mul(ODD[3]);
    ((mixed ^ mixed >> 32).wrapping_mul(ODD[1]) >> 32) as u32
}

impl Replay<'_> {
    /// The tree of a base and so many records that are known to be sound.
    #[inline(always)]
    pub fn of<'a>(room: &'a mut Room, source: &Source<impl Store>, records: usize) -> Replay<'a> {
        let mut places = Places::none();
        let mut replay = room.replay();
        replay.enter(&source.base);
        places.begin_on(source.base.vector);
        for place in 0..records {
            let fields = Fields::of(source.store.record(place));
            places.add(&fields, place);
            replay.step(&places, source, &fields, place);
        }
        replay
    }

    /// The first in the chain of a hash; there is a power of two of them.
    #[inline(always)]
    fn head(&mut self, hash: u32) -> &mut u16 {
        let last = self.heads.len() - 1;
        &mut self.heads[hash as usize & last]
    }

    /// The slot of an entry that is folded.
    #[inline(always)]
    fn folded_entry(&self, identity: u32) -> u16 {
        self.folded
            .as_ref()
            .map_or(NOWHERE, |folded| folded.entry(identity))
    }

    /// Enters the tree of a base behind the root; says whether no identity stands
    /// twice, no label twice in a folder, and each entry reaches the root through
    /// folders.
    pub fn enter(&mut self, base: &Base) -> bool {
        let Some(folded) = self.folded.as_mut() else {
            return true;
        };
        for (i, row) in base.entries.iter().enumerate() {
            let slot = base_slot(i);
            let given = |at: usize| Giver {
                identity: get32(row, at),
                slot: slot as u32,
            };
            let identity = get32(row, 4);
            if !folded.add(identity, i) {
                return false;
            }
            self.identities[slot] = identity;
            self.entries[slot] = Entry {
                contents: given(12),
                placing: given(16),
                kind: if row[0] == 1 {
                    Kind::Folder
                } else {
                    Kind::Trace
                },
                ..ABSENT
            };
        }
        for (i, row) in base.asides.iter().enumerate() {
            if !folded.add(get32(row, 0), BASE_ROWS + i) {
                return false;
            }
            let marks = get32(row, 8);
            self.fates[base_slot(i)] = Fate {
                reason: row[4],
                settled: row[5] == 2,
                marked: if marks == 0 {
                    ROOT
                } else {
                    folded.entry(marks)
                },
                marks,
            };
        }
        self.present = base.entries.len();
        self.aside = base.asides.len();
        self.enter_folders(base)
    }

    /// Puts the entries of a base into their folders; says whether each goes in
    /// there under its label and reaches the root.
    fn enter_folders(&mut self, base: &Base) -> bool {
        let source = &Source {
            base: *base,
            store: &[][..],
        };
        for (i, row) in base.entries.iter().enumerate() {
            let slot = base_slot(i);
            let folder = match get32(row, 8) {
                0 => ROOT,
                identity => self.folded_entry(identity),
            };
            if self.entries[folder as usize].kind != Kind::Folder {
                return false;
            }
            let label = label_key(base.label(i));
            let hash = hash_of(folder, &label);
            if self.holder(source, ROOT, folder, &label, hash) != ROOT {
                return false;
            }
            self.entries[slot].folder = folder;
            self.entries[folder as usize].inside += 1;
            self.link(slot as u16, hash);
        }
        let mut rooted = [false; base_slot(BASE_ROWS)];
        rooted[usize::from(ROOT)] = true;
        (0..base.entries.len()).all(|i| self.reaches_root(base_slot(i), &mut rooted))
    }

    /// An entry of the base reaches the root. Those of which it is known end the
    /// way.
    fn reaches_root(&self, slot: usize, rooted: &mut [bool]) -> bool {
        let (mut at, mut steps) = (slot, 0);
        while !rooted[at] && steps < BASE_ROWS {
            at = self.entries[at].folder as usize;
            steps += 1;
        }
        if !rooted[at] {
            return false;
        }
        at = slot;
        for _ in 0..steps {
            rooted[at] = true;
            at = self.entries[at].folder as usize;
        }
        true
    }

    /// The entry in a folder that has a label, or the root; one entry does not count.
    /// The root, which is in no folder, leaves none out.
    #[inline(always)]
    fn holder(
        &self,
        source: &Source<impl Store>,
        but: u16,
        folder: u16,
        label: &LabelKey,
        hash: u32,
    ) -> u16 {
        let mut link = self.heads[hash as usize & (self.heads.len() - 1)];
        while link != ROOT {
            let entry = &self.entries[link as usize];
            if entry.hash == hash
                && entry.folder == folder
                && link != but
                && label_key(source.label(entry.placing.slot)) == *label
            {
                break;
            }
            link = entry.next;
        }
        link
    }

    /// Puts an entry under its hash.
    #[inline(always)]
    fn link(&mut self, at: u16, hash: u32) {
        let next = core::mem::replace(self.head(hash), at);
        let entry = &mut self.entries[at as usize];
        entry.hash = hash;
        entry.next = next;
    }

    /// Takes an entry from under its hash.
    #[inline(always)]
    fn unlink(&mut self, at: u16) {
        let Entry { hash, next, .. } = self.entries[at as usize];
        let head = self.head(hash);
        let mut link = *head;
        if link == at {
            *head = next;
            return;
        }
        while self.entries[link as usize].next != at {
            link = self.entries[link as usize].next;
        }
        self.entries[link as usize].next = next;
    }

    /// The slot of an entry, given as it is named.
    #[inline(always)]
    pub fn slot_named(&self, places: &Places, identity: u32) -> u16 {
        match identity {
            0 => ROOT,
            _ if places.is_folded(identity) => self.folded_entry(identity),
            _ => slot_of(places.named(identity)) as u16,
        }
    }

    /// The entry of an identity, given as it is named; absent if there is none.
    pub fn entry_named(&self, places: &Places, identity: u32) -> &Entry {
        &self.entries[self.slot_named(places, identity) as usize]
    }

    /// Replays the record at a place, the last one held.
    #[inline(always)]
    pub fn step(
        &mut self,
        places: &Places,
        source: &Source<impl Store>,
        fields: &Fields,
        place: usize,
    ) {
        let slot = slot_of(place);
        self.identities[slot] = fields.identity();
        let own = Giver {
            identity: fields.identity(),
            slot: slot as u32,
        };
        let named = self.slot_named(places, fields.named);
        let (reason, marked) = match fields.operation {
            MAKE_FOLDER => self.make(source, fields, Kind::Folder, own, named),
            MAKE_TRACE => self.make(source, fields, Kind::Trace, own, named),
            STORE => self.store(fields, own, named),
            REMOVE => self.remove(fields, named),
            RENAME => self.rename(source, fields, own, named),
            MOVE => {
                let folder = self.slot_named(places, fields.folder);
                self.move_to(source, fields, own, named, folder)
            }
            _ => self.settle(places, fields.named),
        };
        self.aside += (reason != 0) as usize;
        self.fates[slot] = Fate {
            reason,
            settled: false,
            marked,
            marks: self.identities[marked as usize],
        };
    }

    /// The reason and the marked entry of a make.
    #[inline(always)]
    fn make(
        &mut self,
        source: &Source<impl Store>,
        fields: &Fields,
        kind: Kind,
        own: Giver,
        folder: u16,
    ) -> (u8, u16) {
        if let Some(wrong) = self.no_folder(folder) {
            return wrong;
        }
        let label = label_key(label_in(fields.record));
        let hash = hash_of(folder, &label);
        let holder = self.holder(source, ROOT, folder, &label, hash);
        if holder != ROOT {
            return (15, holder);
        }
        self.entries[folder as usize].inside += 1;
        self.entries[own.slot as usize] = Entry {
            kind,
            folder,
            contents: own,
            placing: own,
            ..ABSENT
        };
        self.link(own.slot as u16, hash);
        self.present += 1;
        (0, 0)
    }

    #[inline(always)]
    fn store(&mut self, fields: &Fields, own: Giver, object: u16) -> (u8, u16) {
        let entry = self.entries[object as usize];
        match entry.kind {
            Kind::Absent => (12, 0),
            Kind::Folder => (14, object),
            Kind::Trace if unseen(fields, entry.contents) => (17, object),
            Kind::Trace => {
                self.entries[object as usize].contents = own;
                (0, 0)
            }
        }
    }

    #[inline(always)]
    fn remove(&mut self, fields: &Fields, object: u16) -> (u8, u16) {
        let entry = self.entries[object as usize];
        if entry.kind == Kind::Absent {
            return (12, 0);
        }
        if entry.inside != 0 {
            return (16, object);
        }
        if unseen(fields, entry.contents) || unseen(fields, entry.placing) {
            return (17, object);
        }
        self.unlink(object);
        self.entries[object as usize].kind = Kind::Absent;
        self.entries[entry.folder as usize].inside -= 1;
        self.present -= 1;
        (0, 0)
    }

    #[inline(always)]
    fn rename(
        &mut self,
        source: &Source<impl Store>,
        fields: &Fields,
        own: Giver,
        object: u16,
    ) -> (u8, u16) {
        let entry = self.entries[object as usize];
        if entry.kind == Kind::Absent {
            return (12, 0);
        }
        if unseen(fields, entry.placing) {
            return (17, object);
        }
        let label = label_key(label_in(fields.record));
        let hash = hash_of(entry.folder, &label);
        let holder = self.holder(source, object, entry.folder, &label, hash);
        if holder != ROOT {
            return (15, holder);
        }
        self.unlink(object);
        self.entries[object as usize].placing = own;
        self.link(object, hash);
        (0, 0)
    }

    #[inline(always)]
    fn move_to(
        &mut self,
        source: &Source<impl Store>,
        fields: &Fields,
        own: Giver,
        object: u16,
        folder: u16,
    ) -> (u8, u16) {
        let entry = self.entries[object as usize];
        if entry.kind == Kind::Absent {
            return (12, 0);
        }
        if unseen(fields, entry.placing) {
            return (17, object);
        }
        if let Some(wrong) = self.no_folder(folder) {
            return wrong;
        }
        if self.is_at_or_below(folder, object) {
            return (25, object);
        }
        let label = label_key(label_in(fields.record));
        let hash = hash_of(folder, &label);
        let holder = self.holder(source, object, folder, &label, hash);
        if holder != ROOT {
            return (15, holder);
        }
        self.unlink(object);
        self.entries[entry.folder as usize].inside -= 1;
        self.entries[folder as usize].inside += 1;
        let moved = &mut self.entries[object as usize];
        moved.folder = folder;
        moved.placing = own;
        self.link(object, hash);
        (0, 0)
    }

    /// Why nothing can lie in it.
    #[inline(always)]
    fn no_folder(&self, folder: u16) -> Option<(u8, u16)> {
        match self.entries[folder as usize].kind {
            Kind::Absent => Some((13, 0)),
            Kind::Trace => Some((14, folder)),
            Kind::Folder => None,
        }
    }

    /// A folder is an entry or lies below it. Every way up ends at the root.
    #[inline(always)]
    fn is_at_or_below(&self, folder: u16, entry: u16) -> bool {
        let mut at = folder;
        while at != ROOT && at != entry {
            at = self.entries[at as usize].folder;
        }
        at == entry
    }

    #[inline(always)]
    fn settle(&mut self, places: &Places, identity: u32) -> (u8, u16) {
        let at = if places.is_folded(identity) {
            let row = self
                .folded
                .as_ref()
                .and_then(|folded| folded.aside(identity));
            row.map_or(usize::from(NOWHERE), base_slot)
        } else {
            slot_of(places.named(identity))
        };
        let fate = &mut self.fates[at];
        if fate.reason == 0 {
            return (18, 0);
        }
        fate.settled = true;
        (0, 0)
    }

    /// The entries that an open aside marks, by slot.
    pub fn disputed(&self) -> [bool; base_slot(BASE_ROWS)] {
        let mut disputed = [false; base_slot(BASE_ROWS)];
        for fate in self.fates.iter().filter(|fate| !fate.settled) {
            disputed[fate.marked as usize] = true;
        }
        disputed
    }

    /// The record whose fate stands at a slot.
    #[inline(always)]
    pub fn identity_aside(&self, base: &Base, at: usize) -> u32 {
        match at.checked_sub(base_slot(0)) {
            None => self.identities[at],
            Some(row) => get32(&base.asides[row], 0),
        }
    }

    /// The slots that are used: rows of the base, then records.
    pub fn slots(base: &Base, records: usize) -> impl Iterator<Item = usize> + use<> {
        (base_slot(0)..base_slot(base.entries.len())).chain(slot_of(0)..slot_of(records))
    }

    /// Where the fates of asides may stand: rows of the base, then records.
    pub fn fate_slots(base: &Base, records: usize) -> impl Iterator<Item = usize> + use<> {
        (base_slot(0)..base_slot(base.asides.len())).chain(slot_of(0)..slot_of(records))
    }
}

/// A last record of an entry is unseen.
#[inline(always)]
fn unseen(fields: &Fields, last: Giver) -> bool {
    last.identity >> 16 > fields.seen.count((last.identity & 7) as usize) as u32
}
