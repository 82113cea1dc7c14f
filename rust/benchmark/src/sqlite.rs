//! As much of SQLite's C interface as the workload needs.

use std::ffi::{c_char, c_int, c_void, CStr, CString};
use std::ptr::null_mut;

#[link(name = "sqlite3")]
extern "C" {
    fn sqlite3_open(name: *const c_char, database: *mut *mut c_void) -> c_int;
    fn sqlite3_close(database: *mut c_void) -> c_int;
    fn sqlite3_errmsg(database: *mut c_void) -> *const c_char;
    fn sqlite3_prepare_v2(
        database: *mut c_void,
        text: *const c_char,
        bytes: c_int,
        statement: *mut *mut c_void,
        rest: *mut *const c_char,
    ) -> c_int;
    fn sqlite3_bind_int64(statement: *mut c_void, at: c_int, value: i64) -> c_int;
    fn sqlite3_step(statement: *mut c_void) -> c_int;
    fn sqlite3_column_int64(statement: *mut c_void, at: c_int) -> i64;
    fn sqlite3_reset(statement: *mut c_void) -> c_int;
    fn sqlite3_finalize(statement: *mut c_void) -> c_int;
    fn sqlite3_libversion() -> *const c_char;
}

const ROW: c_int = 100;
const DONE: c_int = 101;

pub fn version() -> String {
    // SAFETY: a static C string.
    unsafe { CStr::from_ptr(sqlite3_libversion()) }.to_string_lossy().into_owned()
}

pub struct Database(*mut c_void);

impl Database {
    pub fn open(name: &str) -> Database {
        let name = CString::new(name).expect("a name without zeros");
        let mut database = null_mut();
        // SAFETY: the name is a C string and the handle is written to a local.
        let status = unsafe { sqlite3_open(name.as_ptr(), &mut database) };
        assert_eq!(status, 0, "SQLite opens no database");
        Database(database)
    }

    pub fn prepare(&self, text: &str) -> Statement {
        let text = CString::new(text).expect("a text without zeros");
        let mut statement = null_mut();
        // SAFETY: the database is open, the text is a C string, the handle is written to a local.
        let status = unsafe { sqlite3_prepare_v2(self.0, text.as_ptr(), -1, &mut statement, null_mut()) };
        assert_eq!(status, 0, "{text:?}: {}", self.error());
        Statement(statement)
    }

    pub fn run(&self, text: &str) {
        self.prepare(text).run(&[]);
    }

    fn error(&self) -> String {
        // SAFETY: the database is open; the message is copied before the next call.
        unsafe { CStr::from_ptr(sqlite3_errmsg(self.0)) }.to_string_lossy().into_owned()
    }
}

impl Drop for Database {
    fn drop(&mut self) {
        // SAFETY: opened by `open`; its statements are dropped before it.
        unsafe { sqlite3_close(self.0) };
    }
}

pub struct Statement(*mut c_void);

impl Statement {
    /// Runs it with these values; answers its first row as so many numbers, zeros without one.
    pub fn row<const N: usize>(&self, values: &[i64]) -> [i64; N] {
        let mut row = [0; N];
        // SAFETY: the statement is prepared, its columns are read while it stands at a row, and it is
        // reset before it is used again.
        unsafe {
            for (i, &value) in values.iter().enumerate() {
                sqlite3_bind_int64(self.0, i as c_int + 1, value);
            }
            let mut status = sqlite3_step(self.0);
            if status == ROW {
                row = std::array::from_fn(|column| sqlite3_column_int64(self.0, column as c_int));
            }
            while status == ROW {
                status = sqlite3_step(self.0);
            }
            assert_eq!(status, DONE, "SQLite refused a statement");
            sqlite3_reset(self.0);
        }
        row
    }

    pub fn run(&self, values: &[i64]) {
        self.row::<0>(values);
    }
}

impl Drop for Statement {
    fn drop(&mut self) {
        // SAFETY: prepared by `prepare`, used no more.
        unsafe { sqlite3_finalize(self.0) };
    }
}
