// As much of the C library of SQLite as sqlite_office.rs calls.

use std::ffi::{CStr, CString, c_char, c_int, c_void};
use std::ptr::null_mut;

const ROW: c_int = 100;
const DONE: c_int = 101;

#[link(name = "sqlite3")]
unsafe extern "C" {
    fn sqlite3_open(path: *const c_char, base: *mut *mut c_void) -> c_int;
    fn sqlite3_errmsg(base: *mut c_void) -> *const c_char;
    fn sqlite3_exec(
        base: *mut c_void,
        text: *const c_char,
        each: *mut c_void,
        of: *mut c_void,
        error: *mut c_void,
    ) -> c_int;
    fn sqlite3_prepare_v2(
        base: *mut c_void,
        text: *const c_char,
        length: c_int,
        made: *mut *mut c_void,
        tail: *mut c_void,
    ) -> c_int;
    fn sqlite3_bind_int64(statement: *mut c_void, place: c_int, number: i64) -> c_int;
    fn sqlite3_step(statement: *mut c_void) -> c_int;
    fn sqlite3_column_int64(statement: *mut c_void, place: c_int) -> i64;
    fn sqlite3_reset(statement: *mut c_void) -> c_int;
}

/// A base in memory, which stays open until the program ends.
pub struct Base(*mut c_void);

/// A statement that was prepared once.
pub struct Statement(*mut c_void);

impl Base {
    pub fn in_memory() -> Base {
        let mut base = null_mut();
        let opened = unsafe { sqlite3_open(c":memory:".as_ptr(), &mut base) };
        assert_eq!(opened, 0, "SQLite opens no base");
        Base(base)
    }

    fn error(&self) -> String {
        unsafe { CStr::from_ptr(sqlite3_errmsg(self.0)) }.to_string_lossy().into_owned()
    }

    pub fn run(&self, text: &str) {
        let given = CString::new(text).unwrap();
        let status = unsafe { sqlite3_exec(self.0, given.as_ptr(), null_mut(), null_mut(), null_mut()) };
        assert_eq!(status, 0, "{text}: {}", self.error());
    }

    pub fn prepare(&self, text: &str) -> Statement {
        let given = CString::new(text).unwrap();
        let mut statement = null_mut();
        let status = unsafe { sqlite3_prepare_v2(self.0, given.as_ptr(), -1, &mut statement, null_mut()) };
        assert_eq!(status, 0, "{text}: {}", self.error());
        Statement(statement)
    }
}

impl Statement {
    /// The first number of the first row that it finds, or none.
    pub fn step(&self, numbers: &[i64]) -> Option<i64> {
        for (place, number) in (1..).zip(numbers) {
            unsafe { sqlite3_bind_int64(self.0, place, *number) };
        }
        let status = unsafe { sqlite3_step(self.0) };
        assert!(status == ROW || status == DONE, "SQLite answers {status}");
        let found = (status == ROW).then(|| unsafe { sqlite3_column_int64(self.0, 0) });
        unsafe { sqlite3_reset(self.0) };
        found
    }
}
