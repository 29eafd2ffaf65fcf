//! SQLite in memory: the work of tools/peers/sqlite.c. One thread and one prepared statement insert
//! the rows; the index is created when half of them are there, and the other half waits meanwhile.
//!
//! SQLite's library is found when it is needed, so that the example runs without it.

use crate::{Measured, VALUES};
use std::ffi::{c_char, c_int, c_void, CStr};
use std::ptr;
use std::time::Instant;

const NOW: c_int = 2; // RTLD_NOW
const OK: c_int = 0; // SQLITE_OK
const DONE: c_int = 101; // SQLITE_DONE
const LIBRARIES: [&CStr; 3] = [c"libsqlite3.so.0", c"libsqlite3.so", c"libsqlite3.dylib"];

type Database = *mut c_void;
type Statement = *mut c_void;

unsafe extern "C" {
    fn dlopen(name: *const c_char, flags: c_int) -> *mut c_void;
    fn dlsym(library: *mut c_void, name: *const c_char) -> *mut c_void;
}

/// The functions that are used, with the types that SQLite's header gives them.
struct Sqlite {
    open: unsafe extern "C" fn(*const c_char, *mut Database) -> c_int,
    exec: unsafe extern "C" fn(
        Database,
        *const c_char,
        *const c_void,
        *mut c_void,
        *mut *mut c_char,
    ) -> c_int,
    prepare: unsafe extern "C" fn(
        Database,
        *const c_char,
        c_int,
        *mut Statement,
        *mut *const c_char,
    ) -> c_int,
    bind: unsafe extern "C" fn(Statement, c_int, i64) -> c_int,
    step: unsafe extern "C" fn(Statement) -> c_int,
    number: unsafe extern "C" fn(Statement, c_int) -> i64,
    reset: unsafe extern "C" fn(Statement) -> c_int,
}

/// A function of the library. Its type has to be the function's.
unsafe fn function<F: Copy>(library: *mut c_void, name: &CStr) -> Result<F, String> {
    // SAFETY: the name ends with a zero, and the library was opened.
    let found = unsafe { dlsym(library, name.as_ptr()) };
    match found.is_null() {
        true => Err(format!("SQLite has no {}", name.to_string_lossy())),
        // SAFETY: a pointer to a function is as large as any, and the caller knows its type.
        false => Ok(unsafe { std::mem::transmute_copy(&found) }),
    }
}

/// SQLite, if the machine has it.
fn sqlite() -> Result<Sqlite, String> {
    // SAFETY: the names end with a zero.
    let mut opened = LIBRARIES
        .map(|name| unsafe { dlopen(name.as_ptr(), NOW) })
        .into_iter();
    let library = opened
        .find(|it| !it.is_null())
        .ok_or("there is no libsqlite3")?;
    // SAFETY: the types are those of sqlite3.h.
    unsafe {
        Ok(Sqlite {
            open: function(library, c"sqlite3_open")?,
            exec: function(library, c"sqlite3_exec")?,
            prepare: function(library, c"sqlite3_prepare_v2")?,
            bind: function(library, c"sqlite3_bind_int64")?,
            step: function(library, c"sqlite3_step")?,
            number: function(library, c"sqlite3_column_int64")?,
            reset: function(library, c"sqlite3_reset")?,
        })
    }
}

/// An open database. It is closed when the program ends.
struct Memory {
    sqlite: Sqlite,
    database: Database,
}

/// Whether a call answers what it has to.
fn demand(answer: c_int, due: c_int) -> Result<(), String> {
    match answer == due {
        true => Ok(()),
        false => Err(format!("SQLite answers {answer}")),
    }
}

impl Memory {
    fn open() -> Result<Memory, String> {
        let (sqlite, mut database) = (sqlite()?, ptr::null_mut());
        // SAFETY: the name ends with a zero, and the place of the database is this one's.
        demand(
            unsafe { (sqlite.open)(c":memory:".as_ptr(), &mut database) },
            OK,
        )?;
        Ok(Memory { sqlite, database })
    }

    fn exec(&self, line: &CStr) -> Result<(), String> {
        let (none, no_text) = (ptr::null_mut(), ptr::null_mut());
        // SAFETY: the database is open, and the line ends with a zero; the rest may be null.
        let answer =
            unsafe { (self.sqlite.exec)(self.database, line.as_ptr(), ptr::null(), none, no_text) };
        demand(answer, OK)
    }

    fn prepare(&self, line: &CStr) -> Result<Statement, String> {
        let (mut statement, rest) = (ptr::null_mut(), ptr::null_mut());
        // SAFETY: as for exec; the place of the statement is this one's.
        let answer = unsafe {
            (self.sqlite.prepare)(self.database, line.as_ptr(), -1, &mut statement, rest)
        };
        demand(answer, OK).map(|()| statement)
    }

    /// Inserts the rows from one key up to another.
    fn insert_rows(&self, insert: Statement, from: i64, to: i64) -> Result<(), String> {
        for key in from..to {
            // SAFETY: the statement is one of this database, with two parameters.
            let answer = unsafe {
                (self.sqlite.bind)(insert, 1, key);
                (self.sqlite.bind)(insert, 2, key % VALUES);
                let answer = (self.sqlite.step)(insert);
                (self.sqlite.reset)(insert);
                answer
            };
            demand(answer, DONE)?;
        }
        Ok(())
    }

    /// The number that the first row of a query has.
    fn number(&self, query: &CStr) -> Result<i64, String> {
        let statement = self.prepare(query)?;
        // SAFETY: the statement is one of this database, and its rows have a column.
        unsafe {
            (self.sqlite.step)(statement);
            Ok((self.sqlite.number)(statement, 0))
        }
    }
}

/// The time of so many rows.
pub(crate) fn run(rows: i64) -> Measured {
    let memory = Memory::open()?;
    memory.exec(c"create table t (id integer primary key, a integer)")?;
    let insert = memory.prepare(c"insert into t values (?, ?)")?;
    let begun = Instant::now();
    memory.insert_rows(insert, 0, rows / 2)?;
    memory.exec(c"create index i on t (a)")?;
    memory.insert_rows(insert, rows / 2, rows)?;
    let taken = begun.elapsed();
    match memory.number(c"select count(*) from t where a >= 0")? == rows {
        true => Ok(taken),
        false => Err("a row is missing".to_string()),
    }
}
