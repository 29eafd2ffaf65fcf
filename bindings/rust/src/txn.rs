//! Transactions.

use crate::code::Code;
use crate::error::Error;
use crate::faults::wrong_operation;
use crate::fetch::done;
use crate::ffi::{self, TxnHandle};
use crate::lease::Lease;
use crate::names::Unknown;
use crate::operations::{self, Kind, Operations};
use crate::prepared::{received, Prepared, Receipt};
use crate::reads::Reads;
use crate::rows::Row;
use crate::value::{Cells, Key};
use std::fmt;

/// Operations under a lease, of which all are committed or none, at most 64.
///
/// Tables and columns are given by name, rows by their primary keys. [`Value::Null`] is no value,
/// and in a column with a default the default.
///
/// It is serializable in all rows that it gets or writes: none of them changes between
/// [`Txn::get`], or [`Txn::prepare`] for those that it did not get, and the commit, which is
/// refused as [`Error::Conflict`] if one did.
///
/// [`Value::Null`]: crate::Value::Null
///
/// ```
/// # use cagzhomul::{Db, Error, Table, Type};
/// # let db = Db::open([Table::new("t").key("id", Type::Int).column("a", Type::Int)])?;
/// # let lease = db.lease(0)?;
/// let insert = |key| lease.txn().insert("t", key, [("a", 5)]);
/// assert_eq!(insert(1).commit(0)?.place, 2);
/// assert_eq!(insert(1).commit(0), Err(Error::Duplicate { operation: 0 }));
/// let change = lease.txn().update("t", 1, [("a", 6)]).delete("t", 2);
/// assert_eq!(change.commit(0), Err(Error::NoRow { operation: 1 }));
/// let (column, is_key) = (Some("b".to_string()), false);
/// let wrong = lease.txn().update("t", 1, [("b", 6)]);
/// assert_eq!(wrong.commit(0), Err(Error::NotPublic { column, is_key }));
/// # Ok::<(), Error>(())
/// ```
#[must_use = "a transaction does nothing until it is committed"]
pub struct Txn<'a> {
    lease: &'a Lease<'a>,
    operations: Operations,
    /// What it got, if it got anything.
    reads: Option<Box<Reads>>,
    /// The first name of a column that its table does not have.
    unknown: Option<Unknown>,
}

impl<'a> Txn<'a> {
    pub(crate) fn new(lease: &'a Lease<'a>) -> Txn<'a> {
        Txn {
            lease,
            operations: Operations::new(),
            reads: None,
            unknown: None,
        }
    }

    /// A row as the store holds it, with all public columns, or `None` if it is not there; what
    /// this transaction writes is not in it. From then on the row is pinned: the commit is refused
    /// as [`Error::Conflict`] if another call has changed it since, whether or not this transaction
    /// writes it. So what it writes may be computed from it, as [`retry`](crate::retry) shows.
    ///
    /// Rows are read one after the other: that they are all of one moment is sure only once the
    /// commit is accepted. A second call for a row gives the same answer. A row that is got and not
    /// written counts as an operation, or as two if it is not there.
    ///
    /// Refusals: [`Error::Closed`]; [`Error::NoTable`] or [`Error::WrongType`], but a text that is
    /// too long is [`Error::WrongType`] before both; [`Error::OutOfMemory`]. After each of them the
    /// transaction may go on.
    ///
    /// ```
    /// # use cagzhomul::{Db, Error, RowKey, Table, Type};
    /// # let db = Db::open([Table::new("t").key("id", Type::Int).column("a", Type::Int)])?;
    /// # let lease = db.lease(0)?;
    /// lease.txn().insert("t", 1, [("a", 5)]).commit(0)?;
    /// let mut txn = lease.txn();
    /// assert_eq!(txn.get("t", 1)?.unwrap().get("a"), Some(&5.into()));
    /// assert_eq!(txn.get("t", 2)?, None);
    /// lease.txn().insert("t", 2, ()).commit(0)?;
    /// let row = Some(RowKey::new("t", 2));
    /// assert_eq!(txn.update("t", 1, [("a", 6)]).commit(0), Err(Error::Conflict { row }));
    /// # Ok::<(), Error>(())
    /// ```
    pub fn get(&mut self, table: &str, key: impl Into<Key>) -> Result<Option<Row>, Error> {
        let key = key.into();
        let row = operations::row(self.lease.names().table(table), &key);
        let reads = self.reads.get_or_insert_with(|| Box::new(Reads::new()));
        reads.get(self.lease, row, table, key)
    }

    /// Adds the insertion of a row: its key, and values by column. `()` is no values.
    pub fn insert<'c>(
        mut self,
        table: &str,
        key: impl Into<Key>,
        cells: impl Into<Cells<'c>>,
    ) -> Txn<'a> {
        self.add(Kind::Insert, table, &key.into(), &cells.into());
        self
    }

    /// Adds new values for columns of a row that is there.
    pub fn update<'c>(
        mut self,
        table: &str,
        key: impl Into<Key>,
        cells: impl Into<Cells<'c>>,
    ) -> Txn<'a> {
        self.add(Kind::Update, table, &key.into(), &cells.into());
        self
    }

    /// Adds the deletion of a row that is there.
    pub fn delete(mut self, table: &str, key: impl Into<Key>) -> Txn<'a> {
        self.add_deletion(table, &key.into());
        self
    }

    /// As [`Txn::delete`], by reference.
    pub(crate) fn add_deletion(&mut self, table: &str, key: &Key) {
        let number = self.lease.names().table(table);
        self.operations.push(Kind::Delete, number, key);
    }

    /// An insertion or an update.
    pub(crate) fn add(&mut self, kind: Kind, table: &str, key: &Key, cells: &Cells<'_>) {
        let names = self.lease.names();
        let number = |column: &str| names.element(table, column);
        self.operations.push(kind, names.table(table), key);
        self.operations.push_cells(&cells.0, number);
        if self.unknown.is_none() && names.table(table) != 0 {
            self.unknown = names.unknown(table, cells.0.iter().map(|cell| cell.0));
        }
    }

    /// Reads the rows that it names and did not get, and prepares it, to be committed later: the
    /// commit is refused as [`Error::Conflict`] if any of them, or of those that it got, has changed
    /// by then.
    ///
    /// Refusals: [`Error::Closed`]; of the first faulty operation [`Error::NoTable`],
    /// [`Error::NotPublic`] or [`Error::WrongType`], but a text that is too long is
    /// [`Error::WrongType`] before all but [`Error::Closed`]; [`Error::TooManyOps`];
    /// [`Error::OutOfMemory`].
    ///
    /// ```
    /// # use cagzhomul::{Db, Error, RowKey, Table, Type};
    /// # let db = Db::open([Table::new("t").key("id", Type::Int).column("a", Type::Int)])?;
    /// # let lease = db.lease(0)?;
    /// # lease.txn().insert("t", 1, ()).commit(0)?;
    /// let earlier = lease.txn().update("t", 1, [("a", 5)]).prepare()?;
    /// lease.txn().update("t", 1, [("a", 6)]).commit(0)?;
    /// let row = Some(RowKey::new("t", 1));
    /// assert_eq!(earlier.commit(0), Err(Error::Conflict { row }));
    /// # Ok::<(), Error>(())
    /// ```
    pub fn prepare(self) -> Result<Prepared<'a>, Error> {
        let (lease, unknown) = (self.lease, self.unknown);
        let reads = self.reads.map_or_else(Reads::new, |reads| *reads);
        let (mut reads, code) = reads.finish(lease, self.operations)?;
        let mut txn = TxnHandle::closed();
        let prepared = reads.prepare(&mut txn);
        accepted(lease, unknown, prepared.status, prepared.column, &code)?;
        Ok(Prepared { lease, reads, txn })
    }

    /// Reads, prepares and commits it in one call, under the store's lock: the faster way for few
    /// operations, and no row that it names changes meanwhile. One that has got rows is committed
    /// as by [`Txn::commit`].
    ///
    /// Refusals: [`Error::Closed`]; [`Error::TooFar`]; of the first faulty operation
    /// [`Error::NoTable`], [`Error::NotPublic`] or [`Error::WrongType`], but a text that is too long
    /// is [`Error::WrongType`] before all but the first two; [`Error::TooManyOps`];
    /// [`Error::MomentTooLarge`], [`Error::BadLease`], [`Error::LeaseEnded`],
    /// [`Error::WrongSchema`], [`Error::OutOfMemory`], [`Error::Duplicate`] and [`Error::NoRow`].
    ///
    /// ```
    /// # use cagzhomul::{Db, Error, Table, Type};
    /// # let db = Db::open([Table::new("t").key("id", Type::Int).column("a", Type::Int)])?;
    /// # let lease = db.lease(0)?;
    /// let insert = || lease.txn().insert("t", 1, [("a", 5)]);
    /// assert_eq!(insert().write(0)?.place, 2);
    /// assert_eq!(insert().write(0), Err(Error::Duplicate { operation: 0 }));
    /// # Ok::<(), Error>(())
    /// ```
    pub fn write(self, now: u64) -> Result<Receipt, Error> {
        if self.reads.is_some() {
            return self.commit(now);
        }
        let (lease, unknown) = (self.lease, self.unknown);
        let code = self.operations.finish();
        let written = {
            // The world before the lease, as for a query.
            let mut world = lease.db().session().world()?;
            let written = world.write(now, &mut lease.lock(), code.as_bytes());
            if written.status == ffi::OK {
                lease.db().session().grown(&mut world, written.place, now);
            }
            written
        };
        match written.status {
            ffi::BAD_CODE | ffi::WRONG_TYPE | ffi::NOT_PUBLIC => {
                accepted(lease, unknown, written.status, written.column, &code)?;
            }
            _ => {}
        }
        received(lease, &written, &[])
    }

    /// Prepares it and commits it: [`Txn::prepare`], and then [`Prepared::commit`].
    ///
    /// Refusals: those of both.
    pub fn commit(self, now: u64) -> Result<Receipt, Error> {
        self.prepare()?.commit(now)
    }
}

/// Whether the preparation of operations, by their code, was accepted; `unknown` is the first name of
/// no column.
fn accepted(
    lease: &Lease<'_>,
    unknown: Option<Unknown>,
    status: i32,
    column: u32,
    code: &Code,
) -> Result<(), Error> {
    match status {
        ffi::NOT_PUBLIC => Err(lease.names().not_public(column, unknown)),
        // Only a text over 1,024 bytes makes a bad code of what this crate writes.
        ffi::BAD_CODE | ffi::WRONG_TYPE => Err(wrong_operation(lease.names(), code.as_bytes())),
        status => done(status),
    }
}

impl fmt::Debug for Txn<'_> {
    fn fmt(&self, f: &mut fmt::Formatter<'_>) -> fmt::Result {
        let Txn {
            lease, operations, ..
        } = self;
        f.debug_struct("Txn")
            .field("lease", lease)
            .field("operations", operations)
            .finish_non_exhaustive()
    }
}
