//! As much of SQLite's C interface as the example needs.
#![allow(unsafe_code)]

use std::ffi::{CStr, CString, c_char, c_int, c_void};
use std::fmt;
use std::os::unix::ffi::OsStrExt;
use std::path::Path;
use std::ptr::{NonNull, null_mut};

type Row = unsafe extern "C" fn(*mut c_void, c_int, *mut *mut c_char, *mut *mut c_char) -> c_int;

#[link(name = "sqlite3")]
unsafe extern "C" {
    fn sqlite3_open_v2(
        name: *const c_char,
        db: *mut *mut c_void,
        flags: c_int,
        vfs: *const c_char,
    ) -> c_int;
    fn sqlite3_close_v2(db: *mut c_void) -> c_int;
    fn sqlite3_busy_timeout(db: *mut c_void, millis: c_int) -> c_int;
    fn sqlite3_get_autocommit(db: *mut c_void) -> c_int;
    fn sqlite3_errstr(code: c_int) -> *const c_char;
    fn sqlite3_exec(
        db: *mut c_void,
        sql: *const c_char,
        row: Option<Row>,
        told: *mut c_void,
        message: *mut *mut c_char,
    ) -> c_int;
}

// Read, write, create; SQLite's own locks are on (SQLITE_OPEN_FULLMUTEX).
const FLAGS: c_int = 0x2 | 0x4 | 0x10000;

/// A code of SQLite's, or a text that it can't take.
#[derive(Clone, Copy, Debug, PartialEq, Eq)]
pub(crate) struct Error(c_int);

impl fmt::Display for Error {
    fn fmt(&self, f: &mut fmt::Formatter<'_>) -> fmt::Result {
        // SAFETY: SQLite answers a text of its own, which it never frees, for any code.
        let text = unsafe { CStr::from_ptr(sqlite3_errstr(self.0)) };
        f.write_str(&text.to_string_lossy())
    }
}

impl std::error::Error for Error {}

// SQLITE_MISUSE, of a text with a zero in it.
const MISUSE: c_int = 21;

fn checked(code: c_int) -> Result<(), Error> {
    if code == 0 { Ok(()) } else { Err(Error(code)) }
}

/// An open database; dropped, it is closed.
pub(crate) struct Connection(NonNull<c_void>);

// SAFETY: SQLITE_OPEN_FULLMUTEX lets any thread call on a connection.
unsafe impl Send for Connection {}

impl Connection {
    pub(crate) fn open(path: &Path) -> Result<Connection, Error> {
        let name = CString::new(path.as_os_str().as_bytes()).map_err(|_| Error(MISUSE))?;
        let mut db = null_mut();
        // SAFETY: the name ends in a zero, and `db` is room for one pointer.
        let code = unsafe { sqlite3_open_v2(name.as_ptr(), &mut db, FLAGS, std::ptr::null()) };
        let conn = Connection(NonNull::new(db).ok_or(Error(code))?);
        checked(code)?;
        // SAFETY: the connection is open.
        checked(unsafe { sqlite3_busy_timeout(conn.0.as_ptr(), 10_000) })?;
        Ok(conn)
    }

    /// Whether a transaction is open.
    pub(crate) fn is_in_transaction(&self) -> bool {
        // SAFETY: the connection is open.
        unsafe { sqlite3_get_autocommit(self.0.as_ptr()) == 0 }
    }

    fn run(&self, sql: &str, row: Option<Row>, told: *mut c_void) -> Result<(), Error> {
        let sql = CString::new(sql).map_err(|_| Error(MISUSE))?;
        // SAFETY: the connection is open and the text ends in a zero; `row` takes the `told` that its caller gives.
        checked(unsafe { sqlite3_exec(self.0.as_ptr(), sql.as_ptr(), row, told, null_mut()) })
    }

    /// Runs statements, whose rows nobody wants.
    pub(crate) fn execute(&self, sql: &str) -> Result<(), Error> {
        self.run(sql, None, null_mut())
    }

    /// The first column of the last row, as a number.
    pub(crate) fn number(&self, sql: &str) -> Result<i64, Error> {
        let mut number = 0i64;
        self.run(sql, Some(reads), (&raw mut number).cast())?;
        Ok(number)
    }
}

unsafe extern "C" fn reads(
    told: *mut c_void,
    columns: c_int,
    values: *mut *mut c_char,
    _: *mut *mut c_char,
) -> c_int {
    if columns > 0 {
        // SAFETY: `number` handed its number over, and SQLite as many values as columns, each null or a text.
        unsafe {
            if !(*values).is_null() {
                let text = CStr::from_ptr(*values).to_string_lossy();
                *told.cast::<i64>() = text.parse().unwrap_or_default();
            }
        }
    }
    0
}

impl Drop for Connection {
    fn drop(&mut self) {
        // SAFETY: the connection is open, and nobody has it from now on.
        unsafe { sqlite3_close_v2(self.0.as_ptr()) };
    }
}
