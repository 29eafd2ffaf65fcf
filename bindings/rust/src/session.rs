//! A session of the script language.

use crate::change::WaitingChange;
use crate::clock::Clock;
use crate::error::Error;
use crate::fetch::{bytes_given, done, fetch};
use crate::ffi::{self, CheckpointHandle, SessionHandle, WorldHandle};
use crate::library::check_library;
use crate::open::OpenOptions;
use crate::schema::{self, schema_of, Schema};
use std::fmt;
use std::ops::{Deref, DerefMut};
use std::sync::atomic::{AtomicBool, AtomicU64, Ordering};
use std::sync::{Mutex, MutexGuard, OnceLock, PoisonError};

/// The handles of a session.
pub(crate) struct Held {
    /// It is closed before the line `open`.
    world: WorldHandle,
    /// What the lines keep. It is closed before the first line of a world that no line has opened.
    lines: SessionHandle,
}

impl Held {
    /// The reply to a line.
    fn reply_to(&mut self, line: &str) -> Result<String, Error> {
        let Held { world, lines } = self;
        if world.is_open() && !lines.is_open() {
            done(lines.attach())?;
        }
        let reply = fetch(|is_first, out| match is_first {
            true => lines.reply_to(world, line.as_bytes(), out),
            false => lines.reply_from(0, out),
        })?;
        String::from_utf8(reply).map_err(|error| Error::Reply(error.to_string()))
    }
}

/// The world of a session, which is open, under the session's lock.
pub(crate) struct World<'a>(MutexGuard<'a, Held>);

impl Deref for World<'_> {
    type Target = WorldHandle;

    fn deref(&self) -> &WorldHandle {
        &self.0.world
    }
}

impl DerefMut for World<'_> {
    fn deref_mut(&mut self) -> &mut WorldHandle {
        &mut self.0.world
    }
}

/// A session of the script language, which takes one line after another, and the world that they are
/// about. Any thread may call it: a lock has one call at a time. Both are freed when it is dropped.
///
/// ```
/// # fn main() -> Result<(), cagzhomul::Error> {
/// let session = cagzhomul::Session::open()?;
/// session.line("table people (id int key, town text)")?;
/// assert_eq!(session.line("open")?, "ok version 1\n");
/// assert_eq!(session.line("lease a at 5")?, "ok lease 1 5 15\n");
/// assert_eq!(session.line("txn b at 5: delete people (1)")?, "refused NoServer\n");
/// assert_eq!(session.line("what"), Err(cagzhomul::Error::BadLine));
/// # Ok(())
/// # }
/// ```
pub struct Session {
    held: Mutex<Held>,
    /// How many moments after the last entry a call may come, for worlds that go on from this one.
    furthest_jump: u64,
    /// More entries than this are not kept in memory.
    keep: AtomicU64,
    /// How many entries come before those that are in memory, as far as this crate cut them off.
    start: AtomicU64,
    /// Whether a version may have been published that the kept lease of a store is not on. It is
    /// written under the lock of the handles.
    is_newer: AtomicBool,
    /// The clock of the world, once it was asked for.
    pub(crate) its_clock: OnceLock<Clock>,
    /// The change that waits for its first step. Its lock is taken before that of the handles.
    pub(crate) waiting: Mutex<Option<WaitingChange>>,
}

impl Session {
    /// Opens a session at its start: before its line `open`. No moment is too far for the world that
    /// this line opens.
    ///
    /// Refusals: [`Error::LibraryVersion`], as each opening has, [`Error::OutOfMemory`].
    pub fn open() -> Result<Session, Error> {
        check_library()?;
        let (world, mut lines) = (WorldHandle::closed(), SessionHandle::closed());
        done(lines.open())?;
        Ok(Session::of(Held { world, lines }, ffi::ANY_JUMP))
    }

    /// Opens a session whose world goes on from a checkpoint, as [`Session::checkpoint`] gives its
    /// bytes: with no leases by name, nothing prepared and no plan. The bytes are tested, whoever
    /// wrote them. [`OpenOptions::session_at`] can give it a furthest jump.
    ///
    /// Refusals: [`Error::BadCheckpoint`] if no world may open from these bytes, [`Error::OutOfMemory`].
    pub fn open_at(checkpoint: &[u8]) -> Result<Session, Error> {
        OpenOptions::new().session_at(checkpoint)
    }

    /// A session of a world that no line has opened, and that has this furthest jump.
    pub(crate) fn over(world: WorldHandle, furthest_jump: u64) -> Session {
        let lines = SessionHandle::closed();
        Session::of(Held { world, lines }, furthest_jump)
    }

    /// As [`Session::over`], for a world that goes on from a checkpoint.
    pub(crate) fn going_on(mut world: WorldHandle, furthest_jump: u64) -> Session {
        let start = world.log_start().length as u64;
        let session = Session::over(world, furthest_jump);
        session.start.store(start, Ordering::Relaxed);
        session
    }

    fn of(held: Held, furthest_jump: u64) -> Session {
        Session {
            held: Mutex::new(held),
            furthest_jump,
            keep: AtomicU64::new(u64::MAX),
            start: AtomicU64::new(0),
            is_newer: AtomicBool::new(false),
            its_clock: OnceLock::new(),
            waiting: Mutex::new(None),
        }
    }

    /// The handles, for as long as the guard lives. A thread that panicked under the lock was in no
    /// call of the library, so the handles are whole.
    fn lock(&self) -> MutexGuard<'_, Held> {
        self.held.lock().unwrap_or_else(PoisonError::into_inner)
    }

    /// The world, for as long as the guard lives.
    ///
    /// Refusals: [`Error::Closed`]; [`Error::NotOpened`] before the line `open`.
    pub(crate) fn world(&self) -> Result<World<'_>, Error> {
        let held = self.lock();
        match (held.world.is_open(), held.lines.is_open()) {
            (true, _) => Ok(World(held)),
            (false, true) => Err(Error::NotOpened),
            (false, false) => Err(Error::Closed),
        }
    }

    /// From now on the last so many entries stay in memory, and the log is cut to them once it has more
    /// than twice as many.
    pub(crate) fn keep(&self, entries: u64) {
        self.keep.store(entries, Ordering::Relaxed);
    }

    /// A version may have been published, by a caller who has the lock.
    pub(crate) fn published(&self) {
        self.is_newer.store(true, Ordering::Relaxed);
    }

    /// Whether this schema, which was the newest, still is; the library is asked if another version may
    /// have been published since.
    pub(crate) fn is_newest(&self, schema: &Schema) -> Result<bool, Error> {
        let mut world = self.world()?;
        if !self.is_newer.load(Ordering::Relaxed) {
            return Ok(true);
        }
        let newest = schema_of(|code| world.schema(code))?;
        self.is_newer.store(false, Ordering::Relaxed);
        Ok(newest == *schema)
    }

    /// The log has an entry of this place, by a call at this moment: it is cut if it has grown long
    /// enough.
    pub(crate) fn grown(&self, world: &mut WorldHandle, place: u64, now: u64) {
        self.reached(now);
        let keep = self.keep.load(Ordering::Relaxed);
        let kept = place.saturating_sub(self.start.load(Ordering::Relaxed));
        if kept / 2 >= keep
            && kept > keep
            && world.cut(usize::try_from(keep).unwrap_or(usize::MAX)) == ffi::OK
        {
            self.start.store(place - keep, Ordering::Relaxed);
        }
    }

    /// The reply to a line, which is given without its ending: lines with their endings, or none.
    ///
    /// A refusal of the language, as `refused NoServer`, is a reply. Refusals: [`Error::Closed`],
    /// [`Error::BadLine`], [`Error::TooFar`] of a moment that it names, and [`Error::OutOfMemory`],
    /// which may free the session.
    pub fn line(&self, line: &str) -> Result<String, Error> {
        let mut held = self.lock();
        let reply = held.reply_to(line)?;
        if reply.starts_with("ok version ") {
            self.published();
        }
        if held.world.is_open() {
            self.follow(&mut held.world);
        }
        Ok(reply)
    }

    /// The code of the log's entry of this place. Places count from 1, as those of a
    /// [`Receipt`](crate::Receipt), and a place keeps its entry.
    ///
    /// Refusals: [`Error::Closed`], [`Error::NotOpened`], [`Error::NoEntry`],
    /// [`Error::OutOfMemory`].
    ///
    /// ```
    /// # fn main() -> Result<(), cagzhomul::Error> {
    /// # use cagzhomul::Session;
    /// let (first, replica) = (Session::open()?, Session::open()?);
    /// for line in ["table t (id int key)", "open"] {
    ///     assert_eq!(first.line(line)?, replica.line(line)?);
    /// }
    /// first.line("lease a at 0")?;
    /// replica.repeat(&first.entry(1)?)?;
    /// assert_eq!(replica.log_length()?, 1);
    /// assert_eq!(replica.entry(2), Err(cagzhomul::Error::NoEntry));
    /// # Ok(())
    /// # }
    /// ```
    pub fn entry(&self, place: u64) -> Result<Vec<u8>, Error> {
        let place = usize::try_from(place).map_err(|_| Error::NoEntry)?;
        let mut world = self.world()?;
        fetch(|_, out| world.entry(place, out))
    }

    /// The newest version of the schema: its tables, columns and indexes.
    ///
    /// Refusals: [`Error::Closed`], [`Error::NotOpened`], [`Error::OutOfMemory`].
    ///
    /// ```
    /// # fn main() -> Result<(), cagzhomul::Error> {
    /// # use cagzhomul::{SchemaKind, Session, State};
    /// let session = Session::open()?;
    /// for line in ["table t (id int key, a text)", "index i on t (a)", "open"] {
    ///     session.line(line)?;
    /// }
    /// let index = &session.schema()?.elements[1];
    /// assert_eq!((index.number, index.name.as_str(), index.state), (2, "i", State::Public));
    /// assert_eq!(index.what, SchemaKind::Index { columns: vec!["a".to_string()] });
    /// # Ok(())
    /// # }
    /// ```
    pub fn schema(&self) -> Result<Schema, Error> {
        schema::read(&self.schema_code()?)
    }

    /// The code of the newest version.
    pub(crate) fn schema_code(&self) -> Result<Vec<u8>, Error> {
        let mut world = self.world()?;
        bytes_given(|code| world.schema(code))
    }

    /// How many entries the log had ever, those that were cut off among them: the last one's place.
    ///
    /// Refusals: [`Error::Closed`], [`Error::NotOpened`].
    pub fn log_length(&self) -> Result<u64, Error> {
        let outcome = self.world()?.log_length();
        done(outcome.status).map(|()| outcome.length as u64)
    }

    /// How many entries of the log come before those that are in memory, which [`Session::entry`]
    /// gives: 0 until it is cut.
    ///
    /// Refusals: [`Error::Closed`], [`Error::NotOpened`].
    pub fn log_start(&self) -> Result<u64, Error> {
        let outcome = self.world()?.log_start();
        done(outcome.status).map(|()| outcome.length as u64)
    }

    /// The checkpoint of the world as it is now, as bytes: all that a world needs to go on from here.
    /// The session is locked only while it is taken, which does not take longer where there are more
    /// rows.
    ///
    /// Refusals: [`Error::Closed`], [`Error::NotOpened`], [`Error::OutOfMemory`].
    ///
    /// ```
    /// # fn main() -> Result<(), cagzhomul::Error> {
    /// # use cagzhomul::Session;
    /// let first = Session::open()?;
    /// for line in ["table t (id int key)", "open", "lease a at 0", "txn a at 0: insert t (1)"] {
    ///     first.line(line)?;
    /// }
    /// let later = Session::open_at(&first.checkpoint()?)?;
    /// assert_eq!((later.log_length()?, later.log_start()?), (2, 2));
    /// assert_eq!(later.line("check")?, "ok rows 1 missing 0 extra 0\n");
    /// assert_eq!(later.checkpoint()?, first.checkpoint()?);
    /// assert_eq!(Session::open_at(b"").err(), Some(cagzhomul::Error::BadCheckpoint));
    /// # Ok(())
    /// # }
    /// ```
    pub fn checkpoint(&self) -> Result<Vec<u8>, Error> {
        let mut taken = CheckpointHandle::closed();
        done(self.world()?.checkpoint(&mut taken))?;
        bytes_given(|bytes| taken.save(bytes))
    }

    /// A session that goes on from the world as it is now, apart from this one: a program can try calls
    /// there, and look at the entries that they add, before it makes them here. No row is copied. It
    /// has the furthest jump of this one, no leases by name, nothing prepared and no plan.
    ///
    /// Refusals: [`Error::Closed`], [`Error::NotOpened`], [`Error::OutOfMemory`].
    ///
    /// ```
    /// # fn main() -> Result<(), cagzhomul::Error> {
    /// # let session = cagzhomul::Session::open()?;
    /// for line in ["table t (id int key)", "open", "lease a at 0"] {
    ///     session.line(line)?;
    /// }
    /// let trial = session.fork()?;
    /// trial.line("lease b at 3")?;
    /// assert_eq!((trial.log_length()?, session.log_length()?), (2, 1));
    /// session.repeat(&trial.entry(2)?)?;
    /// assert_eq!(session.entry(2)?, trial.entry(2)?);
    /// # Ok(())
    /// # }
    /// ```
    pub fn fork(&self) -> Result<Session, Error> {
        let (mut taken, mut world) = (CheckpointHandle::closed(), WorldHandle::closed());
        done(self.world()?.checkpoint(&mut taken))?;
        done(taken.open(self.furthest_jump, &mut world))?;
        Ok(Session::going_on(world, self.furthest_jump))
    }

    /// Gives the memory of the log's entries back, but for the last `keep` of those that are in memory;
    /// no answer changes but those of [`Session::entry`] and [`Session::log_start`].
    ///
    /// Refusals: [`Error::Closed`], [`Error::NotOpened`].
    ///
    /// ```
    /// # fn main() -> Result<(), cagzhomul::Error> {
    /// # let session = cagzhomul::Session::open()?;
    /// for line in ["table t (id int key)", "open", "lease a at 0"] {
    ///     session.line(line)?;
    /// }
    /// session.cut(0)?;
    /// assert_eq!((session.log_start()?, session.log_length()?), (1, 1));
    /// assert_eq!(session.entry(1), Err(cagzhomul::Error::NoEntry));
    /// # Ok(())
    /// # }
    /// ```
    pub fn cut(&self, keep: usize) -> Result<(), Error> {
        done(self.world()?.cut(keep))
    }

    /// Repeats an entry of another session's log, given by its code, in this session's world: the
    /// log has exactly this entry more.
    ///
    /// A session that had the same opening and repeats each entry once, in the order of its place,
    /// has an equal world. Refusals: [`Error::Closed`], [`Error::NotOpened`], [`Error::BadEntry`],
    /// [`Error::NotNext`], also if its moment is too far, [`Error::OutOfMemory`], which may come in
    /// place of the two before it.
    pub fn repeat(&self, entry: &[u8]) -> Result<(), Error> {
        let mut world = self.world()?;
        done(world.repeat(entry))?;
        self.published();
        self.follow(&mut world);
        Ok(())
    }
}

impl fmt::Debug for Session {
    fn fmt(&self, f: &mut fmt::Formatter<'_>) -> fmt::Result {
        f.debug_struct("Session").finish_non_exhaustive()
    }
}
