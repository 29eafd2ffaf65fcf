//! A store in a file of SQLite, which several processes of one machine share.

mod ffi;

use crate::layer::chance;
use crate::layer::draft::Draft;
use crate::layer::store::{Answer, Page, Range, Store, StoreError};
use ffi::{Connection, Fault, Given, Statement};
use std::ffi::CString;
use std::fmt;
use std::path::Path;
use std::sync::{Mutex, MutexGuard, PoisonError};
use std::thread;
use std::time::{Duration, Instant};

/// The table of the pairs, and how long a call waits for other processes, if nothing else is said.
const TABLE: &str = "cagzhomul";
const PATIENCE: Duration = Duration::from_secs(10);
/// How long at most a pause is before a draft asks again for the lock of writers, and how long one is
/// before the file is made ready again.
const PAUSE: Duration = Duration::from_millis(1);
const AGAIN: Duration = Duration::from_millis(20);
/// What SQLite answers for a key, a value or a number of them that is over its limits.
const TOO_BIG: i32 = 18;

/// A table of a file of SQLite. Threads that share it take turns; those that are not to wait for each
/// other open their own. The file is that of the Python module's `SqliteStore`: programs of both may
/// share it.
///
/// ```
/// # use cagzhomul::layer::{Layer, SqliteStore};
/// # use cagzhomul::{Query, Table, Type};
/// # let folder = std::env::temp_dir().join(format!("cagzhomul-doc-{}", std::process::id()));
/// # std::fs::create_dir_all(&folder).unwrap();
/// # let path = folder.join("shop.db");
/// let tables = || [Table::new("people").key("id", Type::Int)];
/// Layer::open(SqliteStore::open(&path)?, tables())?.insert("people", 1, ())?;
/// let later = Layer::open(SqliteStore::open(&path)?, tables())?;
/// assert_eq!(later.query(&Query::of("people"))?.len(), 1);
/// # std::fs::remove_dir_all(&folder).unwrap();
/// # Ok::<(), cagzhomul::Error>(())
/// ```
pub struct SqliteStore {
    open: Mutex<Open>,
    patience: Duration,
}

/// An open file with its statements.
struct Open {
    connection: Connection,
    get: Statement,
    range: Statement,
    put: Statement,
    remove: Statement,
    begin_read: Statement,
    begin_write: Statement,
    commit: Statement,
}

impl SqliteStore {
    /// The table `cagzhomul` of a file, which is made if it is missing; a call waits for other processes
    /// for up to ten seconds.
    ///
    /// Refusal: [`StoreError::Unreachable`] if the file cannot be opened.
    pub fn open(path: impl AsRef<Path>) -> Result<SqliteStore, StoreError> {
        SqliteStore::with(path, TABLE, PATIENCE)
    }

    /// A table of a file, which are made if they are missing; a call waits for other processes for up to
    /// `patience`.
    ///
    /// Refusal: [`StoreError::Unreachable`] if the file cannot be opened, or the table have this name.
    pub fn with(
        path: impl AsRef<Path>,
        table: &str,
        patience: Duration,
    ) -> Result<SqliteStore, StoreError> {
        let no_path = || StoreError::Unreachable("no name of a file".to_string());
        let path = path.as_ref().to_str().ok_or_else(no_path)?;
        let open = prepared(path, table, patience).map_err(unreachable)?;
        Ok(SqliteStore {
            open: Mutex::new(open),
            patience,
        })
    }

    /// The open file. A thread that panicked under the lock was in no call of SQLite.
    fn lock(&self) -> MutexGuard<'_, Open> {
        self.open.lock().unwrap_or_else(PoisonError::into_inner)
    }

    /// Begins a transaction with the lock for writers. SQLite's own wait for that sleeps for up to 100 ms
    /// at a time, so that those who come later go first; here all sleep alike.
    fn begin_write(&self, open: &mut Open) -> Result<(), Fault> {
        let end = Instant::now() + self.patience;
        open.connection.wait_for(Duration::ZERO);
        let begun = loop {
            match open.connection.run(open.begin_write, &[]) {
                Err(fault) if fault.is_busy() && Instant::now() < end => chance::pause(PAUSE),
                begun => break begun,
            }
        };
        open.connection.wait_for(self.patience);
        begun.map(drop)
    }
}

fn unreachable(fault: Fault) -> StoreError {
    fault_as(fault, StoreError::Unreachable)
}

/// SQLite's error as the store's; `lost` is for those that it has no better name for.
fn fault_as(fault: Fault, lost: impl FnOnce(String) -> StoreError) -> StoreError {
    match fault.code {
        TOO_BIG => StoreError::TooLarge(fault.text),
        _ => lost(fault.text),
    }
}

/// Opens the file, and makes the table if it is missing.
fn prepared(path: &str, table: &str, patience: Duration) -> Result<Open, Fault> {
    let end = Instant::now() + patience;
    let table = format!("\"{}\"", table.replace('"', "\"\""));
    let mut connection = Connection::open(&line(path)?)?;
    connection.wait_for(patience);
    let make = format!(
        "PRAGMA journal_mode = WAL; PRAGMA synchronous = FULL; CREATE TABLE IF NOT EXISTS {table} \
         (key BLOB NOT NULL PRIMARY KEY, value BLOB NOT NULL) WITHOUT ROWID"
    );
    // SQLite does not wait where two processes turn the file to WAL at once, so this does
    while let Err(fault) = connection.exec(&line(&make)?) {
        if !fault.is_busy() || Instant::now() >= end {
            return Err(fault);
        }
        thread::sleep(AGAIN);
    }
    let mut statement = |text: String| connection.prepare(&line(&text)?);
    let pairs = format!("SELECT key, value FROM {table} WHERE key");
    Ok(Open {
        get: statement(format!("{pairs} = ?"))?,
        range: statement(format!("{pairs} >= ? AND key < ? ORDER BY key LIMIT ?"))?,
        put: statement(format!(
            "INSERT INTO {table} VALUES (?, ?) ON CONFLICT (key) DO UPDATE SET value = excluded.value"
        ))?,
        remove: statement(format!("DELETE FROM {table} WHERE key = ?"))?,
        begin_read: statement("BEGIN DEFERRED".to_string())?,
        begin_write: statement("BEGIN IMMEDIATE".to_string())?,
        commit: statement("COMMIT".to_string())?,
        connection,
    })
}

fn line(text: &str) -> Result<CString, Fault> {
    CString::new(text).map_err(|error| Fault {
        code: 0,
        text: error.to_string(),
    })
}

impl Open {
    fn answer(&mut self, points: &[Vec<u8>], ranges: &[Range]) -> Result<Answer, Fault> {
        let mut answer = Answer::default();
        for point in points {
            let found = self.connection.run(self.get, &[Given::Bytes(point)])?;
            answer.pairs.extend(found);
        }
        for range in ranges {
            let limit = i64::try_from(range.limit).unwrap_or(i64::MAX);
            let (low, high) = (Given::Bytes(&range.low), Given::Bytes(&range.high));
            let given = [low, high, Given::Number(limit)];
            let found = self.connection.run(self.range, &given)?;
            answer.pages.push(Page::of(found, range));
        }
        Ok(answer)
    }

    fn write(&mut self, draft: &Draft) -> Result<(), Fault> {
        for (key, value) in &draft.write {
            let key = Given::Bytes(key);
            match value {
                None => self.connection.run(self.remove, &[key])?,
                Some(value) => self.connection.run(self.put, &[key, Given::Bytes(value)])?,
            };
        }
        Ok(())
    }

    /// Compares and writes what was begun.
    fn apply(&mut self, draft: &Draft) -> Result<(), StoreError> {
        let answer = self.answer(&draft.points(), &draft.compared_ranges());
        draft.check(answer.map_err(unreachable)?)?;
        self.write(draft).map_err(unreachable)?;
        // a disk that fails in a commit may have it or not
        let committed = self.connection.run(self.commit, &[]);
        committed
            .map(drop)
            .map_err(|fault| fault_as(fault, StoreError::Unknown))
    }

    /// Rolls back what was begun and is not committed.
    fn end(&mut self) {
        if self.connection.is_in_transaction() {
            // what cannot be rolled back now is so when the file is opened again
            let _ = self.connection.exec(c"ROLLBACK");
        }
    }
}

impl Store for SqliteStore {
    /// The moment is that of the first statement: a transaction of WAL reads one snapshot.
    fn read(&self, points: &[Vec<u8>], ranges: &[Range]) -> Result<Answer, StoreError> {
        let mut open = self.lock();
        let begin = open.begin_read;
        open.connection.run(begin, &[]).map_err(unreachable)?;
        let answer = open.answer(points, ranges).and_then(|answer| {
            let commit = open.commit;
            open.connection.run(commit, &[]).map(|_| answer)
        });
        open.end();
        answer.map_err(unreachable)
    }

    /// `IMMEDIATE` takes the file's one lock for writers before anything is compared, so nobody writes
    /// between; [`StoreError::Unreachable`] if others held it for too long.
    fn apply(&self, draft: &Draft) -> Result<(), StoreError> {
        let mut open = self.lock();
        self.begin_write(&mut open).map_err(unreachable)?;
        let applied = open.apply(draft);
        open.end();
        applied
    }
}

impl fmt::Debug for SqliteStore {
    fn fmt(&self, f: &mut fmt::Formatter<'_>) -> fmt::Result {
        f.debug_struct("SqliteStore")
            .field("patience", &self.patience)
            .finish_non_exhaustive()
    }
}
