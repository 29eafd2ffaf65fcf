//! Snapshots and audits.

use crate::error::Error;
use crate::fetch::done;
use crate::ffi::{Checked, SnapshotHandle};
use crate::names::Names;
use crate::pages::{find_page, KeyRange, Page, Pages};
use crate::query::{find, Query};
use crate::rows::Row;
use std::fmt;
use std::sync::{Arc, Mutex, MutexGuard, PoisonError};

/// What an audit found.
#[derive(Debug, Clone, Copy, PartialEq, Eq, Hash)]
pub struct Check {
    /// How many rows there are.
    pub rows: u64,
    /// How many pairs public indexes and columns with a default lack.
    pub missing: u64,
    /// How many pairs no row gives.
    pub extra: u64,
}

impl Check {
    /// Whether nothing is missing and nothing extra.
    pub fn is_clean(&self) -> bool {
        self.missing == 0 && self.extra == 0
    }

    /// What an audit answered.
    pub(crate) fn found(found: Checked) -> Result<Check, Error> {
        done(found.status)?;
        Ok(Check {
            rows: found.rows,
            missing: found.missing,
            extra: found.extra,
        })
    }
}

/// What a store held at a moment. It stays as it is, and its calls need no lock of the store: any
/// thread may query it while others write.
///
/// ```
/// # use cagzhomul::{Db, Query, Table, Type};
/// # let db = Db::open([Table::new("t").key("id", Type::Int)])?;
/// let lease = db.lease(0)?;
/// lease.txn().insert("t", 1, ()).commit(0)?;
/// let snapshot = lease.snapshot(0)?;
/// lease.txn().insert("t", 2, ()).commit(0)?;
/// assert_eq!((snapshot.check()?.rows, db.check()?.rows), (1, 2));
/// assert_eq!(snapshot.query(&Query::of("t"))?.len(), 1);
/// # Ok::<(), cagzhomul::Error>(())
/// ```
pub struct Snapshot {
    handle: Mutex<SnapshotHandle>,
    names: Arc<Names>,
}

impl Snapshot {
    pub(crate) fn over(handle: SnapshotHandle, names: Arc<Names>) -> Snapshot {
        let handle = Mutex::new(handle);
        Snapshot { handle, names }
    }

    fn lock(&self) -> MutexGuard<'_, SnapshotHandle> {
        self.handle.lock().unwrap_or_else(PoisonError::into_inner)
    }

    /// The rows of a query, by rising primary key. Its names are those of the version of the lease
    /// that the snapshot was taken under.
    ///
    /// Refusals: [`Error::NoTable`]; of the first faulty column or condition [`Error::NotPublic`]
    /// or [`Error::WrongType`], but a text that is too long is [`Error::WrongType`] before all;
    /// [`Error::OutOfMemory`].
    pub fn query(&self, query: &Query) -> Result<Vec<Row>, Error> {
        find(query, &self.names, |code, rows| {
            Ok(self.lock().query(code, rows))
        })
    }

    /// A page of the rows of a query: the first, at most as many as `limit` says, 1 to 1,000, of those
    /// whose key is in the range, by rising primary key.
    ///
    /// Refusals: [`Error::BadCount`] of the limit; then those of [`query`](Snapshot::query);
    /// [`Error::WrongType`] of the range comes after the query's own.
    ///
    /// ```
    /// # use cagzhomul::{Db, KeyRange, Query, Table, Type};
    /// # let db = Db::open([Table::new("t").key("id", Type::Int)])?;
    /// # let lease = db.lease(0)?;
    /// # lease.txn().insert("t", 1, ()).insert("t", 2, ()).insert("t", 3, ()).commit(0)?;
    /// let page = lease.snapshot(0)?.page(&Query::of("t"), &KeyRange::all().after(1), 1)?;
    /// assert_eq!((page.rows[0].key(), page.more), (&[2.into()][..], true));
    /// # Ok::<(), cagzhomul::Error>(())
    /// ```
    pub fn page(&self, query: &Query, range: &KeyRange, limit: u32) -> Result<Page, Error> {
        find_page(query, range, limit, &self.names, |code, rows| {
            Ok(self.lock().query_page(code, rows))
        })
    }

    /// The rows of a query in a range in pages of at most so many, each asked after the last row of the
    /// one before: together they are the whole answer in the range. There is one empty page if there
    /// are no rows, and none after a refusal, which is as of [`page`](Snapshot::page).
    ///
    /// ```
    /// # use cagzhomul::{Db, KeyRange, Query, Table, Type};
    /// # let db = Db::open([Table::new("t").key("id", Type::Int)])?;
    /// # let lease = db.lease(0)?;
    /// # lease.txn().insert("t", 1, ()).insert("t", 2, ()).insert("t", 3, ()).commit(0)?;
    /// let snapshot = lease.snapshot(0)?;
    /// let mut lengths = Vec::new();
    /// for rows in snapshot.pages(&Query::of("t"), &KeyRange::all(), 2) {
    ///     lengths.push(rows?.len());
    /// }
    /// assert_eq!(lengths, [2, 1]);
    /// # Ok::<(), cagzhomul::Error>(())
    /// ```
    pub fn pages<'a>(&'a self, query: &'a Query, range: &KeyRange, size: u32) -> Pages<'a> {
        Pages::of(self, query, range.clone(), size)
    }

    /// Audits all of its pairs, which takes time with their number.
    ///
    /// Refusal: [`Error::OutOfMemory`].
    pub fn check(&self) -> Result<Check, Error> {
        Check::found(self.lock().check())
    }
}

impl fmt::Debug for Snapshot {
    fn fmt(&self, f: &mut fmt::Formatter<'_>) -> fmt::Result {
        f.debug_struct("Snapshot").finish_non_exhaustive()
    }
}
