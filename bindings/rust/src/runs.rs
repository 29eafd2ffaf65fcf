//! Transactions that are made again, and under leases that renew themselves.

use crate::db::Db;
use crate::error::Error;
use crate::lease::{Lease, Store};
use crate::operations::Kind;
use crate::prepared::Receipt;
use crate::rows::Row;
use crate::txn::Txn;
use crate::value::{Cells, Key};
use std::fmt;
use std::sync::Arc;
use std::time::{Duration, Instant};

/// How long a transaction is begun again if nothing else is said.
const WITHIN: Duration = Duration::from_secs(30);

/// A transaction of [`Db::run`], to which its function adds by reference: it gets rows and writes them
/// as a [`Txn`] does, and is committed after the function.
#[derive(Debug)]
pub struct Attempt<'a> {
    txn: Txn<'a>,
}

impl Attempt<'_> {
    /// A row as the store holds it, or `None` if it is not there; from then on it is pinned:
    /// [`Txn::get`].
    ///
    /// Refusals: those of [`Txn::get`].
    pub fn get(&mut self, table: &str, key: impl Into<Key>) -> Result<Option<Row>, Error> {
        self.txn.get(table, key)
    }

    /// Adds the insertion of a row: its key, and values by column. `()` is no values.
    pub fn insert<'c>(
        &mut self,
        table: &str,
        key: impl Into<Key>,
        cells: impl Into<Cells<'c>>,
    ) -> &mut Self {
        self.txn
            .add(Kind::Insert, table, &key.into(), &cells.into());
        self
    }

    /// Adds new values for columns of a row that is there.
    pub fn update<'c>(
        &mut self,
        table: &str,
        key: impl Into<Key>,
        cells: impl Into<Cells<'c>>,
    ) -> &mut Self {
        self.txn
            .add(Kind::Update, table, &key.into(), &cells.into());
        self
    }

    /// Adds the deletion of a row that is there.
    pub fn delete(&mut self, table: &str, key: impl Into<Key>) -> &mut Self {
        self.txn.add_deletion(table, &key.into());
        self
    }
}

/// Transactions of a store by a clock of the caller, and as long as the caller says: [`Db::runs`].
#[must_use = "nothing runs yet"]
pub struct Runs<'db, C> {
    db: &'db Db,
    clock: C,
    within: Duration,
}

impl<C: Fn() -> u64> Runs<'_, C> {
    /// A transaction is begun again until so much time has passed since its call: 30 seconds if nothing
    /// else is said.
    pub fn within(mut self, limit: Duration) -> Self {
        self.within = limit;
        self
    }

    /// As [`Db::run`].
    ///
    /// Refusals: those of [`Db::run`].
    pub fn run<T>(
        &self,
        mut function: impl FnMut(&mut Attempt<'_>) -> Result<T, Error>,
    ) -> Result<T, Error> {
        self.again(|lease| {
            let mut attempt = Attempt { txn: lease.txn() };
            let answer = function(&mut attempt)?;
            attempt.txn.prepare()?.commit((self.clock)())?;
            Ok(answer)
        })
    }

    /// As [`Db::write`].
    ///
    /// Refusals: those of [`Db::write`].
    pub fn write(
        &self,
        mut function: impl for<'a> FnMut(Txn<'a>) -> Txn<'a>,
    ) -> Result<Receipt, Error> {
        self.again(|lease| {
            let txn = function(lease.txn());
            txn.write((self.clock)())
        })
    }

    /// As [`Db::modify`].
    ///
    /// Refusals: those of [`Db::modify`].
    pub fn modify<'c, D: Into<Cells<'c>>>(
        &self,
        table: &str,
        key: impl Into<Key>,
        mut function: impl FnMut(Option<&Row>) -> Option<D>,
    ) -> Result<Option<Receipt>, Error> {
        let key = key.into();
        self.again(|lease| lease.modify_once(table, &key, &mut function, &self.clock))
    }

    /// Makes an attempt under the kept lease, again as long as it meets what the next one may not, but no
    /// longer than it is said.
    fn again<T>(
        &self,
        mut attempt: impl FnMut(&Lease<'_>) -> Result<T, Error>,
    ) -> Result<T, Error> {
        let end = Instant::now().checked_add(self.within);
        let mut refused = None;
        loop {
            let is_first = refused.is_none();
            let kept = self.db.kept_lease((self.clock)(), refused.as_ref())?;
            let lease = Lease::new(Store::Borrowed(self.db), Arc::clone(&kept));
            let error = match attempt(&lease) {
                Err(error) if is_met(&error) => error,
                ended => return ended,
            };
            let is_conflict = matches!(error, Error::Conflict { .. });
            // the first lease is one from before, which others may have ended
            let is_last = is_conflict || !is_first;
            if is_last && end.is_some_and(|end| Instant::now() >= end) {
                return Err(error);
            }
            if !is_conflict {
                refused = Some(kept);
            }
        }
    }
}

/// Whether the next attempt, under a new lease, may not meet this.
fn is_met(error: &Error) -> bool {
    matches!(
        error,
        Error::Conflict { .. } | Error::LeaseEnded { .. } | Error::BadLease | Error::WrongSchema
    )
}

impl<C> fmt::Debug for Runs<'_, C> {
    fn fmt(&self, f: &mut fmt::Formatter<'_>) -> fmt::Result {
        f.debug_struct("Runs")
            .field("within", &self.within)
            .finish_non_exhaustive()
    }
}

impl Db {
    /// Calls the function with a transaction, and then commits that, under the lease that the store keeps
    /// for [`Db::query`], too; all again if a row that it got has changed meanwhile, or the lease has
    /// ended, under a new one. No update is lost if the function computes from nothing but what
    /// [`Attempt::get`] gives; it is called without a lock, and may be called several times. The answer is
    /// its last.
    ///
    /// Its moments are those of [`Db::clock`], and it begins again for 30 seconds; [`Db::runs`] takes
    /// others.
    ///
    /// Refusals: those of [`Db::lease`], of the function, and of [`Txn::commit`]; but
    /// [`Error::Conflict`], [`Error::LeaseEnded`], [`Error::BadLease`] and [`Error::WrongSchema`] only once
    /// the time has passed.
    ///
    /// ```
    /// # use cagzhomul::{Db, Error, Table, Type, Value};
    /// # let db = Db::open([Table::new("counters").key("id", Type::Int).column("n", Type::Int)])?;
    /// # db.write(|txn| txn.insert("counters", 1, [("n", 5)]))?;
    /// let before = db.run(|txn| {
    ///     let row = txn.get("counters", 1)?;
    ///     let Some(Value::Int(n)) = row.as_ref().and_then(|row| row.get("n")) else {
    ///         return Ok(None);
    ///     };
    ///     txn.update("counters", 1, [("n", n + 1)]);
    ///     Ok(Some(*n))
    /// })?;
    /// assert_eq!(before, Some(5));
    /// # Ok::<(), Error>(())
    /// ```
    pub fn run<T>(
        &self,
        function: impl FnMut(&mut Attempt<'_>) -> Result<T, Error>,
    ) -> Result<T, Error> {
        let clock = self.clock()?;
        self.runs(|| clock.now()).run(function)
    }

    /// Does what [`Db::run`] does, but writes by [`Txn::write`], in one call: the faster way if the function
    /// gets no rows. It gives the receipt.
    ///
    /// Refusals: those of [`Db::run`].
    ///
    /// ```
    /// # use cagzhomul::{Db, Receipt, Table, Type};
    /// # let db = Db::open([Table::new("people").key("id", Type::Int).column("town", Type::Text)])?;
    /// let written = db.write(|txn| txn.insert("people", 1, [("town", "Ulm")]).insert("people", 2, ()))?;
    /// assert_eq!(written, Receipt { place: 2 }); // after the entry of its lease
    /// # Ok::<(), cagzhomul::Error>(())
    /// ```
    pub fn write(
        &self,
        function: impl for<'a> FnMut(Txn<'a>) -> Txn<'a>,
    ) -> Result<Receipt, Error> {
        let clock = self.clock()?;
        self.runs(|| clock.now()).write(function)
    }

    /// Changes a row by what it holds, as [`Lease::modify`], but under leases of the store, as [`Db::run`].
    ///
    /// Refusals: those of [`Db::run`].
    ///
    /// ```
    /// # use cagzhomul::{Db, Receipt, Row, Table, Type};
    /// # let db = Db::open([Table::new("people").key("id", Type::Int).column("town", Type::Text)])?;
    /// let settle = |row: Option<&Row>| row.is_none().then_some([("town", "Ulm")]); // if it is not there
    /// assert_eq!(db.modify("people", 1, settle)?, Some(Receipt { place: 2 }));
    /// assert_eq!(db.modify("people", 1, settle)?, None);
    /// # Ok::<(), cagzhomul::Error>(())
    /// ```
    pub fn modify<'c, D: Into<Cells<'c>>>(
        &self,
        table: &str,
        key: impl Into<Key>,
        function: impl FnMut(Option<&Row>) -> Option<D>,
    ) -> Result<Option<Receipt>, Error> {
        let clock = self.clock()?;
        self.runs(|| clock.now()).modify(table, key, function)
    }

    /// [`Db::run`], [`Db::write`] and [`Db::modify`] by another clock, which gives the present moment, or
    /// with another limit of time.
    ///
    /// ```
    /// # use cagzhomul::{Db, Error, Table, Type};
    /// # use std::time::Duration;
    /// # let db = Db::open([Table::new("t").key("id", Type::Int)])?;
    /// let runs = db.runs(|| 5).within(Duration::from_secs(1));
    /// assert_eq!(runs.write(|txn| txn.insert("t", 1, ()))?.place, 2);
    /// assert_eq!(runs.run(|txn| txn.get("t", 2)), Ok(None));
    /// # Ok::<(), Error>(())
    /// ```
    pub fn runs<C: Fn() -> u64>(&self, clock: C) -> Runs<'_, C> {
        Runs {
            db: self,
            clock,
            within: WITHIN,
        }
    }
}

/// Makes an attempt up to so many times, at least once: again as long as it is refused as
/// [`Error::Conflict`].
///
/// No update is lost if the attempt begins its transaction, and computes from nothing but what
/// [`Txn::get`] gives. What it reads by a query, or before it, is no part of the transaction, and may
/// have changed. [`Lease::modify`] does all this for one row, and [`Db::run`] for any transaction, under
/// leases of the store.
///
/// ```
/// # use cagzhomul::{retry, Db, Error, Receipt, Table, Type, Value};
/// # let db = Db::open([Table::new("counters").key("id", Type::Int).column("n", Type::Int)])?;
/// # let lease = db.lease(0)?;
/// # lease.txn().insert("counters", 1, [("n", 5)]).commit(0)?;
/// let add_one = || {
///     let mut txn = lease.txn();
///     let row = txn.get("counters", 1)?;
///     let Some(Value::Int(n)) = row.as_ref().and_then(|row| row.get("n")) else {
///         return Err(Error::NoRow { operation: 0 });
///     };
///     txn.update("counters", 1, [("n", n + 1)]).commit(0)
/// };
/// assert_eq!(retry(100, add_one)?, Receipt { place: 3 });
/// # Ok::<(), Error>(())
/// ```
pub fn retry<T>(
    attempts: usize,
    mut attempt: impl FnMut() -> Result<T, Error>,
) -> Result<T, Error> {
    for _ in 1..attempts {
        match attempt() {
            Err(Error::Conflict { .. }) => {}
            ended => return ended,
        }
    }
    attempt()
}

#[cfg(test)]
mod tests {
    use super::*;
    use crate::value::RowKey;

    #[test]
    fn only_conflicts_are_tried_again() {
        for (attempts, made) in [(0, 1), (1, 1), (4, 4)] {
            let mut count = 0;
            let ended = retry(attempts, || -> Result<(), Error> {
                count += 1;
                Err(Error::Conflict { row: None })
            });
            assert_eq!((ended, count), (Err(Error::Conflict { row: None }), made));
        }
        let row = Some(RowKey::new("t", 1));
        let mut errors = vec![Error::WrongSchema, Error::Conflict { row }];
        let ended = retry(9, || errors.pop().map_or(Ok(()), Err));
        assert_eq!((ended, errors.len()), (Err(Error::WrongSchema), 0));
    }
}
