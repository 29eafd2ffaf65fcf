//! A handful of functions of SQLite's C library behind safe calls.
//!
//! - A [`Connection`] is open until it is dropped, and owns its statements: a [`Statement`] is a place
//!   in its list. Calls borrow it mutably, so one at a time uses it.
//! - SQLite copies the bytes that it is given, and what it gives is copied before its next call.
#![allow(unsafe_code)]

use crate::layer::store::Pair;
use std::ffi::{c_char, c_int, c_void, CStr};
use std::ptr;
use std::slice;
use std::time::Duration;

const OK: c_int = 0;
/// Another process writes, changes the table, or makes the file ready.
const IN_THE_WAY: [c_int; 3] = [5, 6, 15];
const ROW: c_int = 100;
const DONE: c_int = 101;
/// Reads and writes, makes the file, and has no lock of its own.
const FLAGS: c_int = 0x2 | 0x4 | 0x8000;

enum RawConnection {}
enum RawStatement {}

#[link(name = "sqlite3")]
unsafe extern "C" {
    fn sqlite3_threadsafe() -> c_int;
    fn sqlite3_open_v2(
        path: *const c_char,
        connection: *mut *mut RawConnection,
        flags: c_int,
        vfs: *const c_char,
    ) -> c_int;
    fn sqlite3_close(connection: *mut RawConnection) -> c_int;
    fn sqlite3_errmsg(connection: *mut RawConnection) -> *const c_char;
    fn sqlite3_busy_timeout(connection: *mut RawConnection, milliseconds: c_int) -> c_int;
    fn sqlite3_get_autocommit(connection: *mut RawConnection) -> c_int;
    fn sqlite3_exec(
        connection: *mut RawConnection,
        text: *const c_char,
        each: *const c_void,
        given: *mut c_void,
        error: *mut *mut c_char,
    ) -> c_int;
    fn sqlite3_prepare_v2(
        connection: *mut RawConnection,
        text: *const c_char,
        length: c_int,
        statement: *mut *mut RawStatement,
        rest: *mut *const c_char,
    ) -> c_int;
    fn sqlite3_bind_blob64(
        statement: *mut RawStatement,
        place: c_int,
        bytes: *const c_void,
        length: u64,
        destructor: *const c_void,
    ) -> c_int;
    fn sqlite3_bind_int64(statement: *mut RawStatement, place: c_int, number: i64) -> c_int;
    fn sqlite3_step(statement: *mut RawStatement) -> c_int;
    fn sqlite3_column_blob(statement: *mut RawStatement, column: c_int) -> *const c_void;
    fn sqlite3_column_bytes(statement: *mut RawStatement, column: c_int) -> c_int;
    fn sqlite3_reset(statement: *mut RawStatement) -> c_int;
    fn sqlite3_finalize(statement: *mut RawStatement) -> c_int;
}

/// An error of SQLite.
#[derive(Debug)]
pub(super) struct Fault {
    pub(super) code: c_int,
    pub(super) text: String,
}

impl Fault {
    /// Whether another process is in the way.
    pub(super) fn is_busy(&self) -> bool {
        IN_THE_WAY.contains(&self.code)
    }
}

/// A parameter of a statement.
pub(super) enum Given<'a> {
    Bytes(&'a [u8]),
    Number(i64),
}

/// A statement of a connection: its place in the list.
#[derive(Debug, Clone, Copy)]
pub(super) struct Statement(usize);

/// An open file with its statements.
pub(super) struct Connection {
    at: *mut RawConnection,
    statements: Vec<*mut RawStatement>,
}

// SAFETY: SQLite lets a connection go from one thread to another, unless it was built for one thread,
// which `open` refuses; its statements go with it.
unsafe impl Send for Connection {}

impl Connection {
    /// Opens a file, which is made if it is missing.
    pub(super) fn open(path: &CStr) -> Result<Connection, Fault> {
        let mut connection = Connection {
            at: ptr::null_mut(),
            statements: Vec::new(),
        };
        // SAFETY: it takes nothing.
        if unsafe { sqlite3_threadsafe() } == 0 {
            let text = "SQLite was built for one thread".to_string();
            return Err(Fault { code: OK, text });
        }
        // SAFETY: the path ends with a zero, and the place of the connection is this one's.
        let code =
            unsafe { sqlite3_open_v2(path.as_ptr(), &mut connection.at, FLAGS, ptr::null()) };
        connection.demand(code).map(|()| connection)
    }

    /// Whether a call did what it is for.
    fn demand(&self, code: c_int) -> Result<(), Fault> {
        if code == OK {
            return Ok(());
        }
        // SAFETY: the connection may be null, for which there is a text, too; the text ends with a zero,
        // and is copied before the next call.
        let text = unsafe { CStr::from_ptr(sqlite3_errmsg(self.at)) };
        let text = text.to_string_lossy().into_owned();
        Err(Fault { code, text })
    }

    /// How long calls wait for other processes.
    pub(super) fn wait_for(&mut self, patience: Duration) {
        let milliseconds = c_int::try_from(patience.as_millis()).unwrap_or(c_int::MAX);
        // SAFETY: the connection is open.
        unsafe { sqlite3_busy_timeout(self.at, milliseconds) };
    }

    /// Whether a transaction was begun and has not ended.
    pub(super) fn is_in_transaction(&mut self) -> bool {
        // SAFETY: the connection is open.
        unsafe { sqlite3_get_autocommit(self.at) == 0 }
    }

    /// Runs statements that take nothing and whose rows do not matter.
    pub(super) fn exec(&mut self, text: &CStr) -> Result<(), Fault> {
        let (none, no_error) = (ptr::null_mut(), ptr::null_mut());
        // SAFETY: the connection is open, and the text ends with a zero; the rest may be null.
        let code = unsafe { sqlite3_exec(self.at, text.as_ptr(), ptr::null(), none, no_error) };
        self.demand(code)
    }

    /// Makes a statement ready, which is kept as long as the connection is open.
    pub(super) fn prepare(&mut self, text: &CStr) -> Result<Statement, Fault> {
        let mut statement = ptr::null_mut();
        // SAFETY: as for `exec`; the place of the statement is this one's.
        let code = unsafe {
            sqlite3_prepare_v2(self.at, text.as_ptr(), -1, &mut statement, ptr::null_mut())
        };
        self.demand(code)?;
        self.statements.push(statement);
        Ok(Statement(self.statements.len() - 1))
    }

    /// Runs a statement with these parameters; the answer is its rows, which have a key and a value.
    pub(super) fn run(
        &mut self,
        statement: Statement,
        given: &[Given<'_>],
    ) -> Result<Vec<Pair>, Fault> {
        let at = self.statements[statement.0];
        let rows = self.bind(at, given).and_then(|()| self.rows(at));
        // SAFETY: the statement is one of this connection. What a reset answers was answered before.
        unsafe { sqlite3_reset(at) };
        rows
    }

    fn bind(&self, at: *mut RawStatement, given: &[Given<'_>]) -> Result<(), Fault> {
        let copied = ptr::without_provenance(usize::MAX); // SQLITE_TRANSIENT
        for (place, it) in (1..).zip(given) {
            // SAFETY: the statement is one of this connection, and SQLite copies the bytes.
            let code = unsafe {
                match it {
                    Given::Number(number) => sqlite3_bind_int64(at, place, *number),
                    Given::Bytes(bytes) => {
                        let from = bytes.as_ptr().cast();
                        sqlite3_bind_blob64(at, place, from, bytes.len() as u64, copied)
                    }
                }
            };
            self.demand(code)?;
        }
        Ok(())
    }

    fn rows(&self, at: *mut RawStatement) -> Result<Vec<Pair>, Fault> {
        let mut rows = Vec::new();
        loop {
            // SAFETY: the statement is one of this connection.
            match unsafe { sqlite3_step(at) } {
                ROW => rows.push((column(at, 0), column(at, 1))),
                DONE => return Ok(rows),
                code => return self.demand(code).map(|()| rows),
            }
        }
    }
}

/// The bytes that the present row of a statement has in a column.
fn column(at: *mut RawStatement, column: c_int) -> Vec<u8> {
    // SAFETY: the statement is at a row of two columns; no bytes may be at null, and those of SQLite stay
    // until its next call.
    unsafe {
        let bytes = sqlite3_column_blob(at, column);
        let length = usize::try_from(sqlite3_column_bytes(at, column)).unwrap_or(0);
        match bytes.is_null() {
            true => Vec::new(),
            false => slice::from_raw_parts(bytes.cast(), length).to_vec(),
        }
    }
}

impl Drop for Connection {
    fn drop(&mut self) {
        // SAFETY: the statements are of this connection, and none is used any more.
        unsafe {
            for statement in &self.statements {
                sqlite3_finalize(*statement);
            }
            sqlite3_close(self.at);
        }
    }
}
