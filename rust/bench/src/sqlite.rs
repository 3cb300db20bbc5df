//! SQLite in process, for whole reads, inserts and deletes on the same records: one table in memory, its key over all columns, an index for
//! each column, prepared statements. Declared by hand; built only where the library is installed. Leans on side and timing.

use crate::side::{Asked, Kind};
use crate::timing::{calls_in_batch, now, Clock, Effort, Quartiles};
use std::ffi::{c_char, c_int, c_void, CStr, CString};
use std::ptr::{null, null_mut};

const ROW: c_int = 100;
const DONE: c_int = 101;

extern "C" {
    fn sqlite3_libversion() -> *const c_char;
    fn sqlite3_open(name: *const c_char, db: *mut *mut c_void) -> c_int;
    fn sqlite3_close(db: *mut c_void) -> c_int;
    fn sqlite3_changes(db: *mut c_void) -> c_int;
    fn sqlite3_exec(db: *mut c_void, sql: *const c_char, each: *const c_void, arg: *mut c_void, error: *mut *mut c_char) -> c_int;
    fn sqlite3_prepare_v2(db: *mut c_void, sql: *const c_char, len: c_int, made: *mut *mut c_void, rest: *mut *const c_char) -> c_int;
    fn sqlite3_bind_int64(statement: *mut c_void, place: c_int, value: i64) -> c_int;
    fn sqlite3_step(statement: *mut c_void) -> c_int;
    fn sqlite3_reset(statement: *mut c_void) -> c_int;
    fn sqlite3_finalize(statement: *mut c_void) -> c_int;
    fn sqlite3_column_int64(statement: *mut c_void, column: c_int) -> i64;
}

pub fn version() -> String {
    // SAFETY: the library returns a constant text that ends in 0.
    unsafe { CStr::from_ptr(sqlite3_libversion()) }.to_string_lossy().into_owned()
}

/// An open database with one table `t` of k columns c0, c1, ..
pub struct Database {
    db: *mut c_void,
    k: usize,
}

impl Database {
    pub fn with_records(k: usize, records: &[u32]) -> Database {
        let names = columns(k, ", ", |c| format!("c{c}"));
        let typed = columns(k, ", ", |c| format!("c{c} INTEGER NOT NULL"));
        let mut base = Database { db: null_mut(), k };
        // SAFETY: the name ends in 0, and the handle is written before it is used.
        let opened = unsafe { sqlite3_open(c":memory:".as_ptr(), &mut base.db) };
        assert_eq!(opened, 0, "SQLite opens no database");
        base.execute("PRAGMA journal_mode = OFF; PRAGMA synchronous = OFF; PRAGMA locking_mode = EXCLUSIVE");
        base.execute(&format!("CREATE TABLE t ({typed}, PRIMARY KEY ({names})) WITHOUT ROWID"));
        (0..k).for_each(|c| base.execute(&format!("CREATE INDEX by{c} ON t (c{c})")));
        let mut insert = base.prepare(&insert_text(k));
        records.chunks(k).for_each(|record| insert.run(record.iter().copied()));
        base.execute("ANALYZE");
        base
    }

    fn execute(&self, sql: &str) {
        let text = CString::new(sql).expect("no zero in the text");
        // SAFETY: the handle is open and the text ends in 0; no function is called for each row.
        let done = unsafe { sqlite3_exec(self.db, text.as_ptr(), null(), null_mut(), null_mut()) };
        assert_eq!(done, 0, "SQLite turns down: {sql}");
    }

    fn prepare(&self, sql: &str) -> Statement {
        let text = CString::new(sql).expect("no zero in the text");
        let mut made = null_mut();
        // SAFETY: the handle is open, the text ends in 0, and the statement is written before it is used.
        let done = unsafe { sqlite3_prepare_v2(self.db, text.as_ptr(), -1, &mut made, null_mut()) };
        assert_eq!(done, 0, "SQLite turns down: {sql}");
        Statement { made, k: self.k, found: Vec::new() }
    }

    fn changes(&self) -> i32 {
        // SAFETY: the handle is open.
        unsafe { sqlite3_changes(self.db) }
    }
}

impl Drop for Database {
    fn drop(&mut self) {
        // SAFETY: all statements of this handle are finalized before: they do not outlive it in `time`.
        unsafe { sqlite3_close(self.db) };
    }
}

struct Statement {
    made: *mut c_void,
    k: usize,
    found: Vec<u32>,
}

impl Statement {
    /// Binds the values, runs to the end and keeps the rows' numbers.
    fn run(&mut self, values: impl Iterator<Item = u32>) {
        self.found.clear();
        // SAFETY: the statement is prepared; a column is read only after a step that gave a row with k columns.
        unsafe {
            for (i, value) in values.enumerate() {
                sqlite3_bind_int64(self.made, i as c_int + 1, value as i64);
            }
            let mut step = sqlite3_step(self.made);
            while step == ROW {
                (0..self.k as c_int).for_each(|c| self.found.push(sqlite3_column_int64(self.made, c) as u32));
                step = sqlite3_step(self.made);
            }
            assert_eq!(step, DONE, "SQLite does not end a statement");
            sqlite3_reset(self.made);
        }
    }
}

impl Drop for Statement {
    fn drop(&mut self) {
        // SAFETY: prepared once, finalized once.
        unsafe { sqlite3_finalize(self.made) };
    }
}

fn columns(k: usize, between: &str, text: impl Fn(usize) -> String) -> String {
    (0..k).map(text).collect::<Vec<_>>().join(between)
}

fn insert_text(k: usize) -> String {
    format!("INSERT OR IGNORE INTO t VALUES ({})", columns(k, ", ", |_| "?".to_string()))
}

/// The statement of a read, insert or delete of this query.
fn text_of(k: usize, kind: Kind, asked: &Asked) -> String {
    let named: Vec<String> = asked.columns().enumerate().filter(|(_, v)| v.is_some()).map(|(c, _)| format!("c{c} = ?")).collect();
    let names = columns(k, ", ", |c| format!("c{c}"));
    match kind {
        Kind::Read => format!("SELECT {names} FROM t WHERE {} ORDER BY {names}", named.join(" AND ")),
        Kind::Count => unreachable!("no whole count is timed"),
        Kind::Insert => insert_text(k),
        Kind::Delete => format!("DELETE FROM t WHERE {}", named.join(" AND ")),
    }
}

fn opposite(kind: Kind) -> Kind {
    if kind == Kind::Insert {
        Kind::Delete
    } else {
        Kind::Insert
    }
}

/// The time of one statement, its write undone outside the timed part. `expected` is what a read must find. No 0 is named: the library finds none,
/// and the statement would.
pub fn time(base: &Database, kind: Kind, asked: &Asked, expected: &[u32], effort: Effort, clock: &Clock) -> Quartiles {
    let mut statement = base.prepare(&text_of(base.k, kind, asked));
    let mut undo = base.prepare(&text_of(base.k, opposite(kind), asked));
    let values: Vec<u32> = asked.columns().flatten().collect();
    assert!(values.iter().all(|value| *value != 0), "0 means not measured, and SQLite is not told so");
    let mut once = || {
        let start = now();
        statement.run(values.iter().copied());
        let ticks = now() - start;
        if kind == Kind::Read {
            assert_eq!(statement.found, expected, "SQLite finds other records");
        } else {
            assert_eq!(base.changes(), 1, "SQLite writes another number of records");
            undo.run(values.iter().copied());
        }
        ticks as f64 * clock.tick - clock.overhead
    };
    let mean = |once: &mut dyn FnMut() -> f64, calls: u32| (0..calls).map(|_| once()).sum::<f64>() / calls as f64;
    let calls = calls_in_batch(effort.batch, mean(&mut once, 20));
    Quartiles::of((0..effort.pairs).map(|_| mean(&mut once, calls)).collect())
}
