//! The same exchange by SQLite's session extension, in memory: each record is a
//! row, and changesets pass both ways. And the same look-ups and listing by its
//! index on folder and label.

use crate::big::{Big, Key};
use crate::times::clock;
use std::ffi::{CStr, c_char, c_int, c_void};
use std::ptr;

type Db = *mut c_void;
type Statement = *mut c_void;
type Session = *mut c_void;

#[link(name = "sqlite3")]
unsafe extern "C" {
    fn sqlite3_open(name: *const c_char, db: *mut Db) -> c_int;
    fn sqlite3_close(db: Db) -> c_int;
    fn sqlite3_exec(
        db: Db,
        sql: *const c_char,
        each: *const c_void,
        with: *mut c_void,
        message: *mut *mut c_char,
    ) -> c_int;
    fn sqlite3_prepare_v2(
        db: Db,
        sql: *const c_char,
        length: c_int,
        statement: *mut Statement,
        tail: *mut *const c_char,
    ) -> c_int;
    fn sqlite3_bind_int(statement: Statement, at: c_int, value: c_int) -> c_int;
    fn sqlite3_bind_blob(
        statement: Statement,
        at: c_int,
        bytes: *const u8,
        length: c_int,
        free: isize,
    ) -> c_int;
    fn sqlite3_step(statement: Statement) -> c_int;
    fn sqlite3_reset(statement: Statement) -> c_int;
    fn sqlite3_finalize(statement: Statement) -> c_int;
    fn sqlite3_column_int(statement: Statement, at: c_int) -> c_int;
    fn sqlite3_free(bytes: *mut c_void);
    fn sqlite3_compileoption_used(name: *const c_char) -> c_int;
    fn sqlite3session_create(db: Db, name: *const c_char, session: *mut Session) -> c_int;
    fn sqlite3session_delete(session: Session);
    fn sqlite3session_attach(session: Session, table: *const c_char) -> c_int;
    fn sqlite3session_changeset(
        session: Session,
        length: *mut c_int,
        bytes: *mut *mut c_void,
    ) -> c_int;
    fn sqlite3changeset_apply(
        db: Db,
        length: c_int,
        bytes: *mut c_void,
        filter: *const c_void,
        conflict: extern "C" fn(*mut c_void, c_int, *mut c_void) -> c_int,
        with: *mut c_void,
    ) -> c_int;
}

/// The bytes outlive the statement.
const STATIC: isize = 0;
const ROW: c_int = 100;
const DONE: c_int = 101;
const TRANSIENT: isize = -1;

const TABLE: &CStr = c"CREATE TABLE records(
    unit INTEGER, number INTEGER, record BLOB, PRIMARY KEY(unit, number)
) WITHOUT ROWID";
const INSERT: &CStr = c"INSERT INTO records VALUES(?, ?, ?)";

/// A conflict leaves out the row.
extern "C" fn omit(_with: *mut c_void, _kind: c_int, _change: *mut c_void) -> c_int {
    0
}

fn ok(code: c_int) {
    assert_eq!(code, 0, "SQLite");
}

/// This SQLite was built with sessions.
pub fn has_sessions() -> bool {
    unsafe { sqlite3_compileoption_used(c"ENABLE_SESSION".as_ptr()) == 1 }
}

/// A database, and the changesets of the records made there.
struct Unit {
    db: Db,
    changes: Vec<Changeset>,
}

struct Changeset {
    length: c_int,
    bytes: *mut c_void,
}

impl Unit {
    /// Makes records in sessions of so many each. The second value is the time
    /// in which the changesets were written.
    fn with(records: &[[u8; 80]], each: usize) -> (Unit, u64) {
        let mut db = ptr::null_mut();
        let mut statement = ptr::null_mut();
        let mut time = 0;
        unsafe {
            ok(sqlite3_open(c":memory:".as_ptr(), &mut db));
            ok(sqlite3_exec(
                db,
                TABLE.as_ptr(),
                ptr::null(),
                ptr::null_mut(),
                ptr::null_mut(),
            ));
            ok(sqlite3_prepare_v2(
                db,
                INSERT.as_ptr(),
                -1,
                &mut statement,
                ptr::null_mut(),
            ));
        }
        let changes = records
            .chunks(each)
            .map(|records| {
                let (changes, taken) = unsafe { session(db, statement, records) };
                time += taken;
                changes
            })
            .collect();
        unsafe { ok(sqlite3_finalize(statement)) };
        (Unit { db, changes }, time)
    }

    fn count(&self) -> c_int {
        let mut statement = ptr::null_mut();
        unsafe {
            let sql = c"SELECT count(*) FROM records";
            ok(sqlite3_prepare_v2(
                self.db,
                sql.as_ptr(),
                -1,
                &mut statement,
                ptr::null_mut(),
            ));
            assert_eq!(sqlite3_step(statement), ROW);
            let count = sqlite3_column_int(statement, 0);
            ok(sqlite3_finalize(statement));
            count
        }
    }
}

impl Drop for Unit {
    fn drop(&mut self) {
        unsafe {
            for changes in &self.changes {
                sqlite3_free(changes.bytes);
            }
            ok(sqlite3_close(self.db));
        }
    }
}

/// The changeset of records made in one session, and the time to write it.
unsafe fn session(db: Db, statement: Statement, records: &[[u8; 80]]) -> (Changeset, u64) {
    let mut session = ptr::null_mut();
    let (mut length, mut bytes) = (0, ptr::null_mut());
    unsafe {
        ok(sqlite3session_create(db, c"main".as_ptr(), &mut session));
        ok(sqlite3session_attach(session, c"records".as_ptr()));
        for record in records {
            insert(statement, record);
        }
        let time = clock(|| ok(sqlite3session_changeset(session, &mut length, &mut bytes)));
        sqlite3session_delete(session);
        (Changeset { length, bytes }, time)
    }
}

unsafe fn insert(statement: Statement, record: &[u8; 80]) {
    let number = u16::from_le_bytes([record[2], record[3]]);
    unsafe {
        ok(sqlite3_bind_int(statement, 1, record[0] as c_int));
        ok(sqlite3_bind_int(statement, 2, number as c_int));
        ok(sqlite3_bind_blob(
            statement,
            3,
            record.as_ptr(),
            record.len() as c_int,
            TRANSIENT,
        ));
        assert_eq!(sqlite3_step(statement), DONE);
        ok(sqlite3_reset(statement));
    }
}

/// Applies the changesets of one unit to the other.
fn pass(from: &Unit, to: &Unit) {
    for changes in &from.changes {
        let Changeset { length, bytes } = *changes;
        let answer = unsafe {
            sqlite3changeset_apply(to.db, length, bytes, ptr::null(), omit, ptr::null_mut())
        };
        ok(answer);
    }
}

/// The time in which two units get each other's records, in changesets of so
/// many records each: the changesets are written and applied.
pub fn exchange(first: &[[u8; 80]], second: &[[u8; 80]], each: usize) -> u64 {
    let (one, to_write) = Unit::with(first, each);
    let (other, to_write_too) = Unit::with(second, each);
    let to_apply = clock(|| {
        pass(&one, &other);
        pass(&other, &one);
    });
    let all = (first.len() + second.len()) as c_int;
    assert!(one.count() == all && other.count() == all);
    to_write + to_write_too + to_apply
}

/// A folder's identity as one number, by unit, then by number.
fn number_of(identity: &[u8; 4]) -> c_int {
    let number = u16::from_le_bytes([identity[2], identity[3]]);
    c_int::from(identity[0]) << 16 | c_int::from(number)
}

/// The entries of the big tree in a table with an index on folder and label, and
/// the two statements.
pub struct Entries {
    db: Db,
    find: Statement,
    list: Statement,
}

impl Entries {
    pub fn of(big: &Big) -> Entries {
        let mut db = ptr::null_mut();
        let table = c"CREATE TABLE entries(
            folder INTEGER, label BLOB, entry INTEGER, PRIMARY KEY(folder, label)
        ) WITHOUT ROWID";
        unsafe {
            ok(sqlite3_open(c":memory:".as_ptr(), &mut db));
            ok(sqlite3_exec(
                db,
                table.as_ptr(),
                ptr::null(),
                ptr::null_mut(),
                ptr::null_mut(),
            ));
            let insert = prepared(db, c"INSERT INTO entries VALUES(?, ?, ?)");
            for Key {
                folder,
                label,
                entry,
            } in &big.entries
            {
                ok(sqlite3_bind_int(insert, 1, number_of(folder)));
                ok(sqlite3_bind_blob(insert, 2, label.as_ptr(), 32, TRANSIENT));
                ok(sqlite3_bind_int(insert, 3, number_of(entry)));
                assert_eq!(sqlite3_step(insert), DONE);
                ok(sqlite3_reset(insert));
            }
            ok(sqlite3_finalize(insert));
            let find = c"SELECT entry FROM entries WHERE folder = ? AND label = ?";
            let list = c"SELECT entry FROM entries WHERE folder = ? ORDER BY label";
            Entries {
                db,
                find: prepared(db, find),
                list: prepared(db, list),
            }
        }
    }

    /// The time of looking up all of the keys.
    pub fn find(&self, keys: &[Key]) -> u64 {
        clock(|| {
            for key in keys {
                unsafe {
                    ok(sqlite3_bind_int(self.find, 1, number_of(&key.folder)));
                    ok(sqlite3_bind_blob(self.find, 2, key.label.as_ptr(), 32, STATIC));
                    assert_eq!(sqlite3_step(self.find), ROW);
                    let entry = sqlite3_column_int(self.find, 0);
                    assert_eq!(entry, number_of(&key.entry));
                    ok(sqlite3_reset(self.find));
                }
            }
        })
    }

    /// The time of listing the big folder by label.
    pub fn list(&self) -> u64 {
        let mut read = 0;
        let time = clock(|| unsafe {
            ok(sqlite3_bind_int(self.list, 1, number_of(&Big::FOLDER)));
            while sqlite3_step(self.list) == ROW {
                std::hint::black_box(sqlite3_column_int(self.list, 0));
                read += 1;
            }
            ok(sqlite3_reset(self.list));
        });
        assert_eq!(read, Big::INSIDE);
        time
    }
}

impl Drop for Entries {
    fn drop(&mut self) {
        unsafe {
            ok(sqlite3_finalize(self.find));
            ok(sqlite3_finalize(self.list));
            ok(sqlite3_close(self.db));
        }
    }
}

unsafe fn prepared(db: Db, sql: &CStr) -> Statement {
    let mut statement = ptr::null_mut();
    unsafe {
        ok(sqlite3_prepare_v2(
            db,
            sql.as_ptr(),
            -1,
            &mut statement,
            ptr::null_mut(),
        ));
    }
    statement
}
