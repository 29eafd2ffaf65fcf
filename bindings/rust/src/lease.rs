//! Leases.

use crate::db::Db;
use crate::error::Error;
use crate::fetch::{done, moment_of};
use crate::ffi::{self, Granted, LeaseHandle, SnapshotHandle, WorldHandle};
use crate::names::Names;
use crate::pages::{find_page, KeyRange, Page};
use crate::prepared::Receipt;
use crate::query::{find, Query};
use crate::rows::Row;
use crate::schema::Schema;
use crate::session::Session;
use crate::snapshot::Snapshot;
use crate::txn::Txn;
use crate::value::{Cells, Key};
use crate::wanted::Wanted;
use std::fmt;
use std::ops::Deref;
use std::sync::{Arc, Mutex, MutexGuard, PoisonError};

/// A lease as it was granted, with the names of its version.
pub(crate) struct Grant {
    handle: Mutex<LeaseHandle>,
    granted: Granted,
    names: Arc<Names>,
}

impl Grant {
    pub(crate) fn new(handle: LeaseHandle, granted: Granted, names: Arc<Names>) -> Grant {
        let handle = Mutex::new(handle);
        Grant {
            handle,
            granted,
            names,
        }
    }

    /// The schema of its version.
    pub(crate) fn schema(&self) -> &Schema {
        self.names.schema()
    }

    /// The moment at which it ends.
    pub(crate) fn until(&self) -> u64 {
        self.granted.until
    }

    /// The rows of a query of the store of this session under it. The store is locked while one row at
    /// most is looked for by its key, or while a snapshot is taken, from which all else is answered.
    pub(crate) fn find(
        &self,
        session: &Session,
        now: u64,
        query: &Query,
    ) -> Result<Vec<Row>, Error> {
        find(query, &self.names, |code, rows| {
            let mut world = session.world()?;
            let mut taken = SnapshotHandle::closed();
            if !query.is_by_key() && self.takes(&mut world, now, &mut taken) {
                drop(world);
                return Ok(taken.query(code, rows));
            }
            let queried = world.query(now, &mut self.lock(), code, rows);
            self.in_force(&mut world, now, queried.status)?;
            Ok(queried)
        })
    }

    /// Whether a snapshot of this world is taken under it into a closed handle. If not, a query is refused,
    /// too, or memory ran out.
    fn takes(&self, world: &mut WorldHandle, now: u64, taken: &mut SnapshotHandle) -> bool {
        world.snapshot(now, &mut self.lock(), taken) == ffi::OK
    }

    /// Whether a call of this world under it, with this status, was not refused since it has ended.
    fn in_force(&self, world: &mut WorldHandle, now: u64, status: i32) -> Result<(), Error> {
        if status != ffi::LEASE_ENDED {
            return Ok(());
        }
        let (until, now) = (self.granted.until, now.max(moment_of(world)?));
        Err(Error::LeaseEnded { until, now })
    }

    /// The handle. Its lock is taken after that of the session.
    fn lock(&self) -> MutexGuard<'_, LeaseHandle> {
        self.handle.lock().unwrap_or_else(PoisonError::into_inner)
    }
}

impl fmt::Debug for Grant {
    fn fmt(&self, f: &mut fmt::Formatter<'_>) -> fmt::Result {
        self.granted.fmt(f)
    }
}

/// The store of a lease.
pub(crate) enum Store<'db> {
    Borrowed(&'db Db),
    Owned(Arc<Db>),
}

impl Deref for Store<'_> {
    type Target = Db;

    fn deref(&self) -> &Db {
        match self {
            Store::Borrowed(db) => db,
            Store::Owned(db) => db,
        }
    }
}

/// A lease on a version: until it ends, transactions and queries may run under it, from any thread.
///
/// A transaction finds its columns by the names that they have in this version.
pub struct Lease<'db> {
    db: Store<'db>,
    grant: Arc<Grant>,
}

impl<'db> Lease<'db> {
    pub(crate) fn new(db: Store<'db>, grant: Arc<Grant>) -> Lease<'db> {
        Lease { db, grant }
    }

    /// The store that granted it.
    pub fn db(&self) -> &Db {
        &self.db
    }

    /// The number of the version that it is on.
    pub fn version(&self) -> u64 {
        self.grant.granted.version
    }

    /// The schema of that version.
    ///
    /// ```
    /// # use cagzhomul::{Db, Table, Type};
    /// # let db = Db::open([Table::new("t").key("id", Type::Int)])?;
    /// let lease = db.lease(10)?;
    /// db.line("publish at 10: add column a int on t")?;
    /// assert_eq!((lease.schema().next, db.lease(10)?.schema().next), (1, 2));
    /// # Ok::<(), cagzhomul::Error>(())
    /// ```
    pub fn schema(&self) -> &Schema {
        self.grant.schema()
    }

    /// The moment from which on it is in force.
    pub fn granted(&self) -> u64 {
        self.grant.granted.granted
    }

    /// The moment at which it ends: it is in force before it.
    pub fn until(&self) -> u64 {
        self.grant.granted.until
    }

    /// The place of its entry in the log.
    pub fn place(&self) -> u64 {
        self.grant.granted.place
    }

    /// A transaction under this lease, without operations yet.
    pub fn txn(&self) -> Txn<'_> {
        Txn::new(self)
    }

    /// Changes a row by what it holds: gets the row, calls the function with it, or with `None` if
    /// it is not there, and writes the cells that this gives: it updates the row, or inserts it.
    /// `None` leaves all as it is, and then there is no receipt.
    ///
    /// If the row has changed meanwhile, all is done again, so no update is lost; the function,
    /// which is called without a lock, may be called several times.
    ///
    /// Refusals: those of [`Txn::get`], and those of [`Txn::commit`] but [`Error::Conflict`].
    ///
    /// ```
    /// # use cagzhomul::{Db, Receipt, Row, Table, Type, Value};
    /// # let db = Db::open([Table::new("counters").key("id", Type::Int).column("n", Type::Int)])?;
    /// # let lease = db.lease(0)?;
    /// let add_one = |row: Option<&Row>| match row.map(|row| row.get("n")) {
    ///     Some(Some(Value::Int(n))) => Some([("n", n + 1)]),
    ///     _ => Some([("n", 1)]),
    /// };
    /// assert_eq!(lease.modify("counters", 1, add_one, 0)?, Some(Receipt { place: 2 }));
    /// assert_eq!(lease.modify("counters", 1, add_one, 0)?, Some(Receipt { place: 3 }));
    /// assert_eq!(db.query(0, "select n from counters")?[0].get("n"), Some(&2.into()));
    /// # Ok::<(), cagzhomul::Error>(())
    /// ```
    pub fn modify<'c, C: Into<Cells<'c>>>(
        &self,
        table: &str,
        key: impl Into<Key>,
        mut function: impl FnMut(Option<&Row>) -> Option<C>,
        now: u64,
    ) -> Result<Option<Receipt>, Error> {
        let key = key.into();
        loop {
            match self.modify_once(table, &key, &mut function, || now) {
                Err(Error::Conflict { .. }) => {}
                ended => return ended,
            }
        }
    }

    /// One attempt of [`Lease::modify`], which is committed at the moment that the clock then gives.
    pub(crate) fn modify_once<'c, C: Into<Cells<'c>>>(
        &self,
        table: &str,
        key: &Key,
        function: impl FnOnce(Option<&Row>) -> Option<C>,
        clock: impl FnOnce() -> u64,
    ) -> Result<Option<Receipt>, Error> {
        let mut txn = self.txn();
        let row = txn.get(table, key.clone())?;
        let Some(cells) = function(row.as_ref()) else {
            return Ok(None);
        };
        let txn = match row {
            None => txn.insert(table, key.clone(), cells),
            Some(_) => txn.update(table, key.clone(), cells),
        };
        txn.prepare()?.commit(clock()).map(Some)
    }

    /// The rows of a query, by rising primary key: of a [`Query`], or of its words `select COLUMNS from
    /// TABLE [where CONDITION {and CONDITION}]`, as `docs/SCRIPT.md` has them.
    /// [`Value`](crate::Value) writes values for them.
    ///
    /// Refusals: [`Error::Closed`], [`Error::BadLine`], of which [`BadWords`](crate::BadWords) has the
    /// place, and those of [`Lease::find`].
    ///
    /// ```
    /// # use cagzhomul::{Db, Error, Query, Table, Type, Value};
    /// # let db = Db::open([Table::new("t").key("id", Type::Int).column("a", Type::Text)])?;
    /// let lease = db.lease(0)?;
    /// lease.txn().insert("t", 1, [("a", "x")]).insert("t", 2, ()).commit(0)?;
    /// let rows = lease.query(0, "select * from t where a = null")?;
    /// assert_eq!((rows[0].key(), rows[0].get("a")), (&[2.into()][..], Some(&Value::Null)));
    /// assert_eq!(lease.query(0, Query::of("t").equal("a", Value::Null))?, rows);
    /// let (column, is_key) = (Some("b".to_string()), false);
    /// assert_eq!(lease.query(0, "select b from t"), Err(Error::NotPublic { column, is_key }));
    /// # Ok::<(), Error>(())
    /// ```
    pub fn query<'q>(
        &self,
        now: u64,
        query: impl Into<Wanted<'q, Query>>,
    ) -> Result<Vec<Row>, Error> {
        self.find(now, &*self.db.session().read(&query.into())?)
    }

    /// The rows of a query, by rising primary key, all as they are at one moment. They are no part of a
    /// transaction: an update made from what they hold may undo that of another thread that comes
    /// between; [`modify`](Lease::modify) changes a row by what it holds, and [`Db::run`] any rows.
    ///
    /// Refusals: [`Error::Closed`], [`Error::TooFar`], [`Error::MomentTooLarge`],
    /// [`Error::BadLease`], [`Error::LeaseEnded`], [`Error::NoTable`]; of the first faulty column or
    /// condition [`Error::NotPublic`] or [`Error::WrongType`], but a text that is too long is
    /// [`Error::WrongType`] before all but the first two; [`Error::OutOfMemory`].
    ///
    /// ```
    /// # use cagzhomul::{Db, Error, Query, Table, Type, Value};
    /// # let db = Db::open([Table::new("t").key("id", Type::Int).column("a", Type::Text)])?;
    /// let lease = db.lease(0)?;
    /// lease.txn().insert("t", 1, [("a", "x")]).insert("t", 2, ()).commit(0)?;
    /// let rows = lease.find(0, &Query::of("t").equal("a", Value::Null))?;
    /// assert_eq!((rows[0].key(), rows[0].get("a")), (&[2.into()][..], Some(&Value::Null)));
    /// let (column, is_key) = (Some("id".to_string()), true);
    /// let by_id = Query::of("t").equal("id", 1); // a key column, for which there is `key`
    /// assert_eq!(lease.find(0, &by_id), Err(Error::NotPublic { column, is_key }));
    /// # Ok::<(), Error>(())
    /// ```
    pub fn find(&self, now: u64, query: &Query) -> Result<Vec<Row>, Error> {
        self.grant.find(self.db.session(), now, query)
    }

    /// A page of the rows of a query, as [`Snapshot::page`] gives it: the first, at most as many as
    /// `limit` says, 1 to 1,000, of those whose key is in the range.
    ///
    /// Refusals: as for [`find`](Lease::find), but that [`Error::BadCount`] of the limit comes after
    /// [`Error::LeaseEnded`].
    pub fn page(
        &self,
        now: u64,
        query: &Query,
        range: &KeyRange,
        limit: u32,
    ) -> Result<Page, Error> {
        find_page(query, range, limit, self.names(), |code, rows| {
            let mut world = self.db.session().world()?;
            let mut taken = SnapshotHandle::closed();
            if self.grant.takes(&mut world, now, &mut taken) {
                drop(world);
                return Ok(taken.query_page(code, rows));
            }
            let paged = world.query_page(now, &mut self.lock(), code, rows);
            self.grant.in_force(&mut world, now, paged.status)?;
            Ok(paged)
        })
    }

    /// What the store holds now, for queries and audits that need no lock of it.
    ///
    /// Refusals: [`Error::Closed`], [`Error::TooFar`], [`Error::MomentTooLarge`],
    /// [`Error::BadLease`], [`Error::LeaseEnded`], [`Error::OutOfMemory`].
    pub fn snapshot(&self, now: u64) -> Result<Snapshot, Error> {
        let mut handle = SnapshotHandle::closed();
        let mut world = self.db.session().world()?;
        let status = world.snapshot(now, &mut self.lock(), &mut handle);
        self.grant.in_force(&mut world, now, status)?;
        done(status)?;
        Ok(Snapshot::over(handle, Arc::clone(&self.grant.names)))
    }

    /// The names of its version.
    pub(crate) fn names(&self) -> &Names {
        &self.grant.names
    }

    pub(crate) fn lock(&self) -> MutexGuard<'_, LeaseHandle> {
        self.grant.lock()
    }
}

impl fmt::Debug for Lease<'_> {
    fn fmt(&self, f: &mut fmt::Formatter<'_>) -> fmt::Result {
        f.debug_struct("Lease")
            .field("version", &self.version())
            .field("granted", &self.granted())
            .field("until", &self.until())
            .field("place", &self.place())
            .finish_non_exhaustive()
    }
}
