//! A database.

use crate::advance::{Due, Step};
use crate::change::Change;
use crate::error::Error;
use crate::lease::{Grant, Lease, Store};
use crate::names::Names;
use crate::open::OpenOptions;
use crate::plan::SchemaChange;
use crate::query::Query;
use crate::rows::Row;
use crate::session::Session;
use crate::snapshot::Check;
use crate::table::Table;
use crate::wanted::Wanted;
use std::sync::{Arc, Mutex};

/// How many moments of your clock a lease lasts if nothing else is said: milliseconds with [`Db::clock`].
pub const DEFAULT_LEASE_LENGTH: u64 = 10;

/// How many of the last entries of its log a store keeps in memory, if nothing else is said.
pub const DEFAULT_KEEP: u64 = 10_000;

/// A store of tables, in memory, whose indexes and columns come and go while transactions run.
///
/// Any number of threads may share it: a lock has one call at a time, and transactions are made and
/// prepared outside it. Moments (`now`) are numbers of the caller's clock, as [`Db::clock`]; one that
/// is below the moment of the last entry of the log counts as that, and
/// [`OpenOptions::furthest_jump`] refuses those that are too far after it. [`Db::run`], [`Db::write`],
/// [`Db::modify`] and [`Db::query`] go under a lease that it takes, and renews, by itself.
///
/// ```
/// use cagzhomul::{Db, Table};
/// use cagzhomul::Type::{Int, Text};
///
/// # fn main() -> Result<(), cagzhomul::Error> {
/// let people = Table::new("people").key("id", Int).column("town", Text);
/// let db = Db::open([people])?;
/// let lease = db.lease(5)?;
/// lease
///     .txn()
///     .insert("people", 1, [("town", "Ulm")])
///     .insert("people", 2, [("town", "Bonn")])
///     .commit(5)?;
/// let rows = db.query(6, "select town from people where town = 'Ulm'")?;
/// assert_eq!(rows[0].key(), [1.into()]);
/// # Ok(())
/// # }
/// ```
#[derive(Debug)]
pub struct Db {
    session: Session,
    pub(crate) names: Mutex<Arc<Names>>,
    /// The lease of [`Db::query`] and [`Db::run`]. Its lock is taken before that of the session.
    pub(crate) kept: Mutex<Option<Arc<Grant>>>,
}

impl Db {
    /// Opens a store with these tables, whose leases last [`DEFAULT_LEASE_LENGTH`] moments of your clock.
    ///
    /// Refusals: those of [`Db::with_lease_length`].
    pub fn open(tables: impl IntoIterator<Item = Table>) -> Result<Db, Error> {
        Db::with_lease_length(DEFAULT_LEASE_LENGTH, tables)
    }

    /// Opens a store with these tables. A lease lasts `lease_length` moments of your clock, which are
    /// milliseconds with [`Db::clock`], from 1 to 2^32, and each version stays the newest for as long.
    /// [`OpenOptions`] can also give it a furthest jump.
    ///
    /// Refusals: [`Error::BadTable`], [`Error::BadLength`], [`Error::OutOfMemory`].
    ///
    /// ```
    /// use cagzhomul::{Db, Error, Table, Type};
    ///
    /// let table = || Table::new("t").key("id", Type::Int);
    /// assert_eq!(Db::with_lease_length(100, [table()])?.lease(0)?.until(), 100);
    /// assert_eq!(Db::with_lease_length(0, [table()]).err(), Some(Error::BadLength));
    /// assert!(matches!(Db::open([table(), table()]), Err(Error::BadTable(Some(_)))));
    /// # Ok::<(), Error>(())
    /// ```
    pub fn with_lease_length(
        lease_length: u64,
        tables: impl IntoIterator<Item = Table>,
    ) -> Result<Db, Error> {
        OpenOptions::new().lease_length(lease_length).open(tables)
    }

    /// A store over a session, whose tables are to be these: their names and their keys count.
    pub(crate) fn over(session: Session, tables: &[Table]) -> Result<Db, Error> {
        let names = Names::read(0, session.schema_code()?)?;
        let opened = names.schema().tables.iter().map(|it| (&it.name, &it.key));
        if !opened.eq(tables.iter().map(|it| (&it.name, &it.key))) {
            return Err(Error::BadTable(None));
        }
        session.keep(DEFAULT_KEEP);
        Ok(Db {
            session,
            names: Mutex::new(Arc::new(names)),
            kept: Mutex::new(None),
        })
    }

    /// Opens a store that goes on from a checkpoint, as [`Session::checkpoint`] gives its bytes: the
    /// tables, of which the names and the keys count, are those that were opened then.
    ///
    /// Refusals: [`Error::BadCheckpoint`] if no world may open from these bytes, [`Error::BadTable`] if
    /// its tables are others, [`Error::OutOfMemory`].
    ///
    /// ```
    /// # use cagzhomul::{Db, Table, Type};
    /// let tables = || [Table::new("t").key("id", Type::Int)];
    /// let db = Db::open(tables())?;
    /// db.lease(5)?.txn().insert("t", 1, [] as [(&str, i64); 0]).commit(5)?;
    /// let later = Db::open_at(&db.session().checkpoint()?, tables())?;
    /// assert_eq!(later.query(6, "select * from t")?.len(), 1);
    /// assert_eq!(later.session().log_length()?, 3);
    /// # Ok::<(), cagzhomul::Error>(())
    /// ```
    pub fn open_at(
        checkpoint: &[u8],
        tables: impl IntoIterator<Item = Table>,
    ) -> Result<Db, Error> {
        OpenOptions::new().open_at(checkpoint, tables)
    }

    /// The last so many entries of the log stay in memory, and the older ones are given back once there
    /// are as many of them; with `None` none ever is, as for a caller who takes each
    /// [`Session::entry`] and then calls [`Session::cut`]. Without this call it is [`DEFAULT_KEEP`].
    ///
    /// ```
    /// # use cagzhomul::{Db, Table, Type};
    /// let db = Db::open([Table::new("t").key("id", Type::Int)])?.keep(Some(2));
    /// for now in 0..7 {
    ///     db.lease(now)?;
    /// }
    /// assert_eq!((db.session().log_length()?, db.session().log_start()?), (7, 4));
    /// # Ok::<(), cagzhomul::Error>(())
    /// ```
    #[must_use]
    pub fn keep(self, entries: Option<u64>) -> Db {
        self.session.keep(entries.unwrap_or(u64::MAX));
        self
    }

    /// Grants a lease on the newest version: transactions and queries under it see that version's
    /// columns and indexes.
    ///
    /// Refusals: [`Error::Closed`], [`Error::TooFar`], [`Error::MomentTooLarge`],
    /// [`Error::OutOfMemory`], which may come in place of the one before it.
    ///
    /// ```
    /// # use cagzhomul::{Db, Table, Type};
    /// # let db = Db::open([Table::new("t").key("id", Type::Int)])?;
    /// let lease = db.lease(5)?;
    /// assert_eq!((lease.version(), lease.granted(), lease.until()), (1, 5, 15));
    /// assert_eq!(lease.place(), 1);
    /// # Ok::<(), cagzhomul::Error>(())
    /// ```
    pub fn lease(&self, now: u64) -> Result<Lease<'_>, Error> {
        let grant = Arc::new(self.grant(now)?);
        Ok(Lease::new(Store::Borrowed(self), grant))
    }

    /// Grants a lease as [`Db::lease`] does, which owns its share of the store: it may go to a thread, or
    /// into a struct, that outlives the caller.
    ///
    /// Refusals: those of [`Db::lease`].
    ///
    /// ```
    /// # use cagzhomul::{Db, Table, Type};
    /// # use std::sync::Arc;
    /// let db = Arc::new(Db::open([Table::new("t").key("id", Type::Int)])?);
    /// let lease = db.lease_owned(5)?;
    /// drop(db);
    /// let writer = std::thread::spawn(move || lease.txn().insert("t", 1, ()).commit(5));
    /// assert_eq!(writer.join().unwrap()?.place, 2);
    /// # Ok::<(), cagzhomul::Error>(())
    /// ```
    pub fn lease_owned(self: &Arc<Self>, now: u64) -> Result<Lease<'static>, Error> {
        let grant = Arc::new(self.grant(now)?);
        Ok(Lease::new(Store::Owned(Arc::clone(self)), grant))
    }

    /// The rows of a query, as [`Lease::query`] gives them, under a lease that the store keeps. It
    /// takes one, which is an entry of the log, at the first query, and then only if the kept one
    /// has ended or a newer version was published, by any call of this store.
    ///
    /// Refusals: if it takes a lease, those of [`Db::lease`]; then those of [`Lease::query`].
    /// [`Error::BadLease`] or [`Error::LeaseEnded`] only if the lease that it took has ended
    /// meanwhile, too.
    ///
    /// ```
    /// # use cagzhomul::{Db, Query, Table, Type};
    /// # let db = Db::open([Table::new("t").key("id", Type::Int)])?;
    /// for now in 5..15 {
    ///     assert_eq!(db.query(now, "select * from t")?, db.query(now, Query::of("t"))?);
    /// }
    /// assert_eq!(db.session().log_length()?, 1); // the lease is in force before 15
    /// # Ok::<(), cagzhomul::Error>(())
    /// ```
    pub fn query<'q>(
        &self,
        now: u64,
        query: impl Into<Wanted<'q, Query>>,
    ) -> Result<Vec<Row>, Error> {
        let kept = self.kept_lease(now, None)?;
        let query = query.into();
        let query = self.session.read(&query)?;
        match kept.find(&self.session, now, &query) {
            Err(Error::BadLease | Error::LeaseEnded { .. }) => {
                let kept = self.kept_lease(now, Some(&kept))?;
                kept.find(&self.session, now, &query)
            }
            found => found,
        }
    }

    /// The reply to any line of the script language, as text.
    ///
    /// Refusals: those of [`Session::line`].
    ///
    /// ```
    /// # use cagzhomul::{Db, Table, Type};
    /// # let db = Db::open([Table::new("t").key("id", Type::Int)])?;
    /// assert_eq!(db.line("lease a at 5")?, "ok lease 1 5 15\n");
    /// # Ok::<(), cagzhomul::Error>(())
    /// ```
    pub fn line(&self, line: &str) -> Result<String, Error> {
        self.session.line(line)
    }

    /// Audits all pairs of the store, as they are at one moment, which takes time with their number;
    /// other threads write meanwhile.
    ///
    /// Refusals: [`Error::Closed`], [`Error::OutOfMemory`].
    ///
    /// ```
    /// # use cagzhomul::{Check, Db, Table, Type};
    /// # let db = Db::open([Table::new("t").key("id", Type::Int)])?;
    /// assert_eq!(db.check()?, Check { rows: 0, missing: 0, extra: 0 });
    /// # Ok::<(), cagzhomul::Error>(())
    /// ```
    pub fn check(&self) -> Result<Check, Error> {
        let fork = self.session.fork()?;
        let audited = fork.world()?.check();
        Check::found(audited)
    }

    /// The session, which has the lines, and the calls for replicas.
    pub fn session(&self) -> &Session {
        &self.session
    }

    /// Begins a schema change, and gives the steps that complete it. The change is a
    /// [`SchemaChange`], or its words: `add index NAME on TABLE (COLUMNS)`, `add column NAME TYPE
    /// [default VALUE] on TABLE`, `drop index NAME on TABLE`, `drop column NAME on TABLE` or
    /// `abandon TABLE.NAME`.
    ///
    /// When the call returns, the first of the steps is [`Step::Acted`], and the change is under
    /// way; or it is [`Step::Waiting`], since the newest version is not old enough. Then the store
    /// keeps the change, and the next step, [`Db::advance`] or [`Db::resume`] that is late enough
    /// begins it, also if these steps are dropped; until then another change is refused.
    ///
    /// `clock` gives the present moment, as that of [`Db::clock`], and is asked before each step. Each
    /// step is one short call, so other threads go on. The step after a [`Step::Waiting`] comes once the clock has
    /// got to its moment: until then the thread sleeps, and asks the clock every millisecond. The
    /// steps end when no change at all is under way, or after an error; [`Db::resume`] goes on
    /// then.
    ///
    /// Refusals: [`Error::BadLine`] for a list of changes; [`Error::StillWaiting`] if another
    /// change waits; [`Error::Closed`]; [`Error::BadLine`], of which
    /// [`BadWords`](crate::BadWords) has the place; [`Error::Unknown`],
    /// [`Error::NameTaken`], [`Error::StillIndexed`], [`Error::InChange`] or [`Error::Limit`];
    /// [`Error::TooFar`]; [`Error::MomentTooLarge`]; [`Error::VersionsSpent`];
    /// [`Error::OutOfMemory`]. The steps have those of [`Db::advance`].
    ///
    /// ```
    /// # use cagzhomul::{Db, Error, Step, Table, Type};
    /// # use std::cell::Cell;
    /// # let people = Table::new("people").key("id", Type::Int).column("town", Type::Text);
    /// # let db = Db::open([people])?;
    /// let now = Cell::new(0); // a clock that is set forward, in place of a wait
    /// for step in db.change("add index by_town on people (town)", || now.get())? {
    ///     if let Step::Waiting { until } = step? {
    ///         now.set(until);
    ///     }
    /// }
    /// assert_eq!(db.lease(now.get())?.version(), 4);
    /// let again = db.change("add index by_town on people (town)", || now.get());
    /// assert_eq!(again.err(), Some(Error::NameTaken));
    /// # Ok::<(), Error>(())
    /// ```
    pub fn change<'w, C: FnMut() -> u64>(
        &self,
        change: impl Into<Wanted<'w, SchemaChange>>,
        clock: C,
    ) -> Result<Change<'_, C>, Error> {
        Change::begin(self, &change.into(), clock)
    }

    /// Begins a schema change as [`Db::change`] does, and takes its steps to their end: when the
    /// call returns, no change is under way. The thread sleeps while nothing can be done. If it is to
    /// end before, or to tell what it does, take [`Change::within`], [`Change::cancel`] and
    /// [`Change::complete`]: `db.change(change, clock)?.within(limit).complete(progress)`.
    ///
    /// Refusals: those of [`Db::change`] and of its steps; after an error [`Db::resume`] goes on.
    ///
    /// ```
    /// # use cagzhomul::{Db, Table, Type};
    /// # let people = Table::new("people").key("id", Type::Int).column("town", Type::Text);
    /// let db = Db::with_lease_length(20, [people])?;
    /// let clock = db.clock()?; // in milliseconds
    /// db.complete("add index by_town on people (town)", || clock.now())?;
    /// assert_eq!(db.lease(clock.now())?.version(), 4);
    /// assert!(clock.now() >= 60); // each version was the newest for a lease length
    /// # Ok::<(), cagzhomul::Error>(())
    /// ```
    pub fn complete<'w>(
        &self,
        change: impl Into<Wanted<'w, SchemaChange>>,
        clock: impl FnMut() -> u64,
    ) -> Result<(), Error> {
        self.change(change, clock)?
            .try_for_each(|step| step.map(drop))
    }

    /// Does the one act that is due of the changes under way, or begins the change that waits:
    /// [`Session::advance`].
    ///
    /// Refusals: those of [`Session::advance`].
    ///
    /// ```
    /// # use cagzhomul::{Db, Step, Table, Type};
    /// # let db = Db::open([Table::new("t").key("id", Type::Int)])?;
    /// drop(db.change("add column a int on t", || 5)?); // it waits, and the store keeps it
    /// assert_eq!(db.advance(5, 8, 1000)?, Some(Step::Waiting { until: 10 }));
    /// assert_eq!(db.advance(10, 8, 1000)?, Some(Step::Acted));
    /// assert_eq!(db.advance(20, 8, 1000)?, Some(Step::Acted));
    /// assert_eq!(db.advance(20, 8, 1000)?, None);
    /// # Ok::<(), cagzhomul::Error>(())
    /// ```
    pub fn advance(&self, now: u64, pieces: u32, limit: u32) -> Result<Option<Step>, Error> {
        self.session.advance(now, pieces, limit)
    }

    /// The entry that [`Db::advance`] would add now, and nothing changes: [`Session::due_entry`].
    ///
    /// Refusals: those of [`Session::due_entry`].
    pub fn due_entry(&self, now: u64, pieces: u32, limit: u32) -> Result<Option<Due>, Error> {
        self.session.due_entry(now, pieces, limit)
    }

    /// The steps that complete the changes under way, and that which waits, whoever began them, as
    /// [`Db::change`] gives them.
    ///
    /// ```
    /// # use cagzhomul::{Db, Step, Table, Type};
    /// # let db = Db::open([Table::new("t").key("id", Type::Int)])?;
    /// db.line("publish at 10: add column a int on t")?;
    /// let mut steps = db.resume(|| 15);
    /// assert_eq!(steps.next(), Some(Ok(Step::Waiting { until: 20 })));
    /// let steps: Result<Vec<Step>, _> = db.resume(|| 20).collect();
    /// assert_eq!(steps?, [Step::Acted]);
    /// # Ok::<(), cagzhomul::Error>(())
    /// ```
    pub fn resume<C: FnMut() -> u64>(&self, clock: C) -> Change<'_, C> {
        Change::new(self, clock, None)
    }
}
