//! A store that outlives its process: a log file, and a checkpoint with the log behind it.

use crate::db::Db;
use crate::error::Error;
use crate::fetch::done;
use crate::ffi;
use crate::open::OpenOptions;
use crate::records::{records, BEFORE, BEHIND};
use crate::session::Session;
use crate::table::Table;
use std::fmt;
use std::fs::{self, File, OpenOptions as FileOptions};
use std::io::{self, ErrorKind, Write};
use std::path::{Path, PathBuf};

/// Where the bytes of a checkpoint have its place.
const PLACE: std::ops::Range<usize> = 17..25;

/// Why a log file, or the checkpoint before it, cannot be used.
#[derive(Debug)]
#[non_exhaustive]
pub enum LogError {
    /// A file was not read or written. A log file that was not written whole takes no more:
    /// [`recover`] reads its sound part.
    File(io::Error),
    /// A call of the store was refused.
    Store(Error),
    /// The log does not go on from the store: its entry of this place does not follow in it, or those
    /// before it are missing.
    BadLog {
        /// The place of the entry.
        place: u64,
        /// How many entries the store has.
        length: u64,
    },
}

impl fmt::Display for LogError {
    fn fmt(&self, f: &mut fmt::Formatter<'_>) -> fmt::Result {
        match self {
            LogError::File(error) => error.fmt(f),
            LogError::Store(error) => error.fmt(f),
            LogError::BadLog { place, length } => write!(
                f,
                "the log does not go on from the store: its entry of place {place} does not follow in one of {length} entries"
            ),
        }
    }
}

impl std::error::Error for LogError {}

impl From<io::Error> for LogError {
    fn from(error: io::Error) -> LogError {
        LogError::File(error)
    }
}

impl From<Error> for LogError {
    fn from(error: Error) -> LogError {
        LogError::Store(error)
    }
}

/// Whether saved bytes have a digest at their end. Those of releases before 2.1 have none: a store
/// opens from them, but damage to them may go unseen.
///
/// Refusal: [`Error::BadCheckpoint`] if they have another digest than theirs: they are damaged.
pub fn has_digest(saved: &[u8]) -> Result<bool, Error> {
    match ffi::saved_form(saved) {
        0 => Err(Error::BadCheckpoint),
        form => Ok(form == 2),
    }
}

/// A file to which the entries of a store's log are appended, each with a digest: after any end of the
/// process [`recover`] goes on from a checkpoint and the log behind it. Threads share it behind a
/// mutex; one process at a time may have the file open, to which the caller sees.
#[derive(Debug)]
pub struct LogFile {
    // none after a write that failed
    file: Option<File>,
    path: PathBuf,
    place: u64,
    lost: u64,
}

/// What a file has; nothing if there is none.
fn read(path: &Path) -> io::Result<Option<Vec<u8>>> {
    match fs::read(path) {
        Ok(bytes) => Ok(Some(bytes)),
        Err(error) if error.kind() == ErrorKind::NotFound => Ok(None),
        Err(error) => Err(error),
    }
}

/// Has the folder of a file keep the names in it.
fn sync_folder(path: &Path) -> io::Result<()> {
    let folder = path.parent().filter(|it| !it.as_os_str().is_empty());
    File::open(folder.unwrap_or(Path::new(".")))?.sync_all()
}

/// A new file with these bytes, which takes the name of that at the path once it is whole and on the
/// disk.
fn replaced(path: &Path, bytes: &[u8]) -> io::Result<File> {
    let mut name = path.as_os_str().to_owned();
    name.push(".new");
    let beside = PathBuf::from(name);
    match fs::remove_file(&beside) {
        Err(error) if error.kind() != ErrorKind::NotFound => return Err(error),
        _ => {} // a killed process left it
    }
    let mut file = FileOptions::new()
        .append(true)
        .create_new(true)
        .open(&beside)?;
    let written = file
        .write_all(bytes)
        .and_then(|()| file.sync_all())
        .and_then(|()| fs::rename(&beside, path))
        .and_then(|()| sync_folder(path));
    if let Err(error) = written {
        let _ = fs::remove_file(&beside);
        return Err(error);
    }
    Ok(file)
}

impl LogFile {
    /// Opens the file, or makes it, has the store repeat the entries that it does not have, and cuts off
    /// what is behind the sound part.
    fn open(path: &Path, session: &Session) -> Result<LogFile, LogError> {
        let bytes = read(path)?.unwrap_or_default();
        let (mut place, mut sound) = (session.log_length()?, 0);
        for (at, record) in records(&bytes) {
            repeat(session, at, &record[BEFORE..record.len() - BEHIND])?;
            (place, sound) = (at, sound + record.len());
        }
        let file = FileOptions::new().append(true).create(true).open(path)?;
        let lost = bytes.len() - sound;
        if lost > 0 {
            file.set_len(sound as u64)?;
            file.sync_all()?;
        }
        sync_folder(path)?;
        let (path, lost) = (path.to_owned(), lost as u64);
        let file = Some(file);
        Ok(LogFile {
            file,
            path,
            place,
            lost,
        })
    }

    /// The place of the last entry of the file, or that behind which the first is to come.
    pub fn place(&self) -> u64 {
        self.place
    }

    /// How many bytes were cut off when it was opened, behind the sound part: what was being written
    /// when the process ended, or is damaged.
    pub fn lost(&self) -> u64 {
        self.lost
    }

    /// Appends the entries that the store has and the file has not, and returns when they are on the
    /// disk: only then tell anybody that what they did is done.
    ///
    /// Refusals: [`Error::Closed`] after a write that failed; [`Error::NoEntry`] if the store has cut an
    /// entry that the file has not; [`Error::OutOfMemory`]; [`LogError::File`].
    pub fn append(&mut self, session: &Session) -> Result<(), LogError> {
        let last = session.log_length()?;
        let mut added = Vec::new();
        for place in self.place + 1..=last {
            let entry = session.entry(place)?;
            let start = added.len();
            added.resize(start + entry.len() + BEFORE + BEHIND, 0);
            done(ffi::log_record(place, &entry, &mut added[start..]).status)?;
        }
        if !added.is_empty() {
            self.write(&added)?;
            self.place = last;
        }
        Ok(())
    }

    /// Writes at the end; a file that was not written whole takes no more.
    fn write(&mut self, added: &[u8]) -> Result<(), LogError> {
        let mut file = self.file.take().ok_or(Error::Closed)?;
        file.write_all(added)?;
        file.sync_all()?;
        self.file = Some(file);
        Ok(())
    }

    /// Puts a checkpoint of the store into a file, which keeps what it had until the new one is whole
    /// and on the disk, and lets the entries before it go from this one.
    ///
    /// Refusals: those of [`Session::checkpoint`]; [`Error::Closed`]; [`LogError::File`], and each file is
    /// then as it was, or as it should be.
    pub fn restart(
        &mut self,
        session: &Session,
        checkpoint: impl AsRef<Path>,
    ) -> Result<(), LogError> {
        let saved = session.checkpoint()?;
        let before = saved[PLACE]
            .iter()
            .fold(0, |n, &byte| n << 8 | u64::from(byte));
        if self.file.is_none() {
            return Err(Error::Closed.into());
        }
        replaced(checkpoint.as_ref(), &saved)?;
        self.let_go(before)
    }

    /// Lets the entries up to a place go.
    fn let_go(&mut self, before: u64) -> Result<(), LogError> {
        let bytes = read(&self.path)?.unwrap_or_default();
        let sizes = records(&bytes).take_while(|(place, _)| *place <= before);
        let from: usize = sizes.map(|(_, record)| record.len()).sum();
        self.file = Some(replaced(&self.path, &bytes[from..])?);
        self.place = self.place.max(before);
        Ok(())
    }
}

/// Has a store repeat an entry that it does not have yet.
fn repeat(session: &Session, place: u64, entry: &[u8]) -> Result<(), LogError> {
    let length = session.log_length()?;
    if place <= length {
        return Ok(());
    }
    let bad = LogError::BadLog { place, length };
    if place > length + 1 {
        return Err(bad);
    }
    match session.repeat(entry) {
        Err(Error::NotNext | Error::BadEntry) => Err(bad),
        other => Ok(other?),
    }
}

/// The store that goes on from the checkpoint in a file and the log file behind it, and that log file,
/// open to be appended to; a store with these tables, and an empty file, if there is neither.
///
/// - `options`: as for [`OpenOptions::open`]; of a checkpoint the lease length is its own.
///
/// Refusals: those of [`OpenOptions::open_at`], [`Error::BadCheckpoint`] if the checkpoint is damaged;
/// [`LogError::File`]; [`LogError::BadLog`] if the log does not go on from the checkpoint.
///
/// ```
/// # use cagzhomul::{recover, Db, LogError, OpenOptions, Table, Type};
/// # let folder = std::env::temp_dir().join(format!("cagzhomul-recover-{}", std::process::id()));
/// # std::fs::create_dir_all(&folder)?;
/// let people = || [Table::new("people").key("id", Type::Int).column("town", Type::Text)];
/// let files = (folder.join("people.checkpoint"), folder.join("people.log"));
/// let (db, mut log) = recover(&OpenOptions::new(), people(), &files.0, &files.1)?;
/// db.lease(0)?.txn().insert("people", 1, [("town", "Ulm")]).commit(0)?;
/// log.append(db.session())?; // it is on the disk
/// log.restart(db.session(), &files.0)?; // now and then, so that the log stays short
/// drop((db, log)); // or the process is killed
/// let (db, _log) = recover(&OpenOptions::new(), people(), &files.0, &files.1)?;
/// assert_eq!(db.query(0, "select * from people")?.len(), 1);
/// # std::fs::remove_dir_all(&folder)?;
/// # Ok::<(), LogError>(())
/// ```
pub fn recover(
    options: &OpenOptions,
    tables: impl IntoIterator<Item = Table>,
    checkpoint: impl AsRef<Path>,
    log: impl AsRef<Path>,
) -> Result<(Db, LogFile), LogError> {
    let db = match read(checkpoint.as_ref())? {
        Some(saved) => options.open_at(&saved, tables)?,
        None => options.open(tables)?,
    };
    let before = db.session().log_length()?;
    let mut log = LogFile::open(log.as_ref(), db.session())?;
    if log.place < before {
        log.let_go(before)?;
    }
    Ok((db, log))
}
