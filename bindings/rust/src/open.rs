//! How stores are opened.

use crate::code;
use crate::db::{Db, DEFAULT_LEASE_LENGTH};
use crate::declarations::bad_table;
use crate::error::Error;
use crate::fetch::done;
use crate::ffi::{self, WorldHandle};
use crate::library::check_library;
use crate::session::Session;
use crate::table::Table;

/// What is said of a store as it is opened: how long its leases last, and how far its moments may
/// jump.
///
/// A call whose moment is more than the furthest jump after that of the log's last entry is refused
/// as [`Error::TooFar`], and nothing changes: so a clock that runs wild ends no leases. Before the
/// first entry no moment is too far. An entry with such a moment is [`Error::NotNext`] for
/// [`Session::repeat`], so all replicas of one log open with the same furthest jump.
///
/// ```
/// # use cagzhomul::{Db, Error, OpenOptions, Table, Type};
/// let table = Table::new("t").key("id", Type::Int);
/// let db = OpenOptions::new().lease_length(20).furthest_jump(1_000).open([table])?;
/// assert_eq!(db.lease(5)?.until(), 25);
/// assert_eq!(db.lease(1_006).err(), Some(Error::TooFar));
/// assert_eq!(db.lease(1_005)?.until(), 1_025);
/// # Ok::<(), Error>(())
/// ```
#[derive(Debug, Clone, PartialEq, Eq)]
#[must_use = "nothing is opened yet"]
pub struct OpenOptions {
    lease_length: u64,
    furthest_jump: u64,
}

impl OpenOptions {
    /// Leases of [`DEFAULT_LEASE_LENGTH`] moments of your clock, and no moment is too far.
    pub fn new() -> OpenOptions {
        OpenOptions {
            lease_length: DEFAULT_LEASE_LENGTH,
            furthest_jump: ffi::ANY_JUMP,
        }
    }

    /// A lease lasts so many moments of your clock, which are milliseconds with [`Db::clock`], from 1 to
    /// 2^32, and each version stays the newest for as long. A checkpoint has its own lease length.
    pub fn lease_length(mut self, moments: u64) -> OpenOptions {
        self.lease_length = moments;
        self
    }

    /// A call may be so many moments after the log's last entry, and no more: with 0 each later moment
    /// is too far, and with 2^64 - 1, as without this call, none is.
    pub fn furthest_jump(mut self, moments: u64) -> OpenOptions {
        self.furthest_jump = moments;
        self
    }

    /// Opens a store with these tables, as [`Db::with_lease_length`] does.
    ///
    /// Refusals: [`Error::BadTable`], [`Error::BadLength`], [`Error::OutOfMemory`].
    pub fn open(&self, tables: impl IntoIterator<Item = Table>) -> Result<Db, Error> {
        check_library()?;
        let tables: Vec<Table> = tables.into_iter().collect();
        let opening = code::opening(self.lease_length, &tables);
        let mut world = WorldHandle::closed();
        match world.open(opening.as_bytes(), self.furthest_jump) {
            ffi::BAD_TABLE => return Err(bad_table(opening.as_bytes(), &tables)),
            status => done(status)?,
        }
        Db::over(Session::over(world, self.furthest_jump), &tables)
    }

    /// Opens a store that goes on from a checkpoint, as [`Db::open_at`] does.
    ///
    /// Refusals: [`Error::BadCheckpoint`], [`Error::BadTable`], [`Error::OutOfMemory`].
    pub fn open_at(
        &self,
        checkpoint: &[u8],
        tables: impl IntoIterator<Item = Table>,
    ) -> Result<Db, Error> {
        let tables: Vec<Table> = tables.into_iter().collect();
        Db::over(self.session_at(checkpoint)?, &tables)
    }

    /// Opens a session whose world goes on from a checkpoint, as [`Session::open_at`] does.
    ///
    /// Refusals: [`Error::BadCheckpoint`], [`Error::OutOfMemory`].
    pub fn session_at(&self, checkpoint: &[u8]) -> Result<Session, Error> {
        check_library()?;
        let mut world = WorldHandle::closed();
        match world.open_at(checkpoint, self.furthest_jump) {
            ffi::BAD_CODE => Err(Error::BadCheckpoint),
            status => done(status).map(|()| Session::going_on(world, self.furthest_jump)),
        }
    }
}

impl Default for OpenOptions {
    fn default() -> OpenOptions {
        OpenOptions::new()
    }
}
