//! Transactions over a store.

use crate::error::Error;
use crate::faults::wrong_operation;
use crate::ffi::{BAD_CODE, DUPLICATE, NOT_PUBLIC, NO_ROW, WRONG_TYPE};
use crate::layer::chance::{self, Mark};
use crate::layer::codes::{keys_of, mark_key, pairs_code, points_code, Compared, VERSIONS};
use crate::layer::draft::Draft;
use crate::layer::ffi::{self, Fault, Refusal};
use crate::layer::ops::{self, Got, Op};
use crate::layer::server::{unknown, Server, Version, PAUSE};
use crate::layer::store::{read, Store, StoreError, Values};
use crate::names::Names;
use crate::operations::{self, Kind, Operations};
use crate::query::Query;
use crate::rows::{rows_of, Row};
use crate::value::{Cells, Key};
use std::fmt;
use std::sync::Arc;
use std::time::Instant;

/// Operations of which all are committed or none, at most 64, by [`Layer::txn`].
///
/// Tables and columns are given by name, and rows by their primary keys. [`Value::Null`] is no value,
/// and in a column with a default the default.
///
/// It is serializable in all rows that it gets or writes. A mark is its name in the store, under which
/// it is applied at most once.
///
/// ```
/// # use cagzhomul::layer::{Layer, MemoryStore};
/// # use cagzhomul::{Error, Table, Type};
/// # let db = Layer::open(MemoryStore::new(), [Table::new("t").key("id", Type::Int).column("a", Type::Int)])?;
/// let mut txn = db.txn();
/// txn.insert("t", 1, [("a", 5)]).insert("t", 2, ());
/// assert_eq!(txn.commit()?, txn.mark());
/// assert_eq!(txn.commit(), Err(Error::WrongStage));
/// let refused = db.txn().update("t", 1, [("a", 6)]).delete("t", 3).commit();
/// assert_eq!(refused, Err(Error::NoRow { operation: 1 }));
/// # Ok::<(), Error>(())
/// ```
///
/// [`Value::Null`]: crate::Value::Null
/// [`Layer::txn`]: crate::layer::Layer::txn
#[must_use = "a transaction does nothing until it is committed"]
pub struct Txn<'a, S> {
    server: &'a Server<S>,
    ops: Vec<Op>,
    /// The version under which rows were got, if any were.
    version: Option<Arc<Version>>,
    got: Vec<Got>,
    /// What was read for the rows that were got.
    view: Values,
    /// Whether a draft of it may be applied yet, or is.
    is_unsure: bool,
    has_ended: bool,
    mark: Mark,
}

impl<'a, S: Store> Txn<'a, S> {
    pub(super) fn new(server: &'a Server<S>) -> Txn<'a, S> {
        Txn {
            server,
            ops: Vec::new(),
            version: None,
            got: Vec::new(),
            view: Values::new(),
            is_unsure: false,
            has_ended: false,
            mark: chance::mark(),
        }
    }

    /// Its name in the store.
    pub fn mark(&self) -> Mark {
        self.mark
    }

    /// A row as the store holds it, with all public columns, or `None` if it is not there; what this
    /// transaction writes is not in it. From then on the row is pinned: the commit is refused as
    /// [`Error::Conflict`] if it has changed. A second call for a row gives the same answer. A row
    /// that is got and not written counts as an operation, or as two if it is not there.
    ///
    /// Refusals: [`Error::WrongStage`] if it has ended; [`Error::NoTable`] or [`Error::WrongType`];
    /// [`Error::Conflict`] if the version under which it got rows is closed; [`Error::OutOfMemory`];
    /// [`Error::Store`], as reads of the store have it.
    pub fn get(&mut self, table: &str, key: impl Into<Key>) -> Result<Option<Row>, Error> {
        let key = key.into();
        if self.has_ended {
            return Err(Error::WrongStage);
        }
        let mut known = self.got.iter();
        if let Some(got) = known.find(|it| it.table == table && it.key == key) {
            return Ok(got.row.clone());
        }
        let query = Query::of(table).key(key.clone());
        loop {
            let version = self.under();
            let found = self.read_row(&version, table, &key, &query);
            match found.map_err(|fault| error_of(fault, |it| row_error(it, &query, &version)))? {
                Some((row, values)) => {
                    self.version = Some(version);
                    self.view.extend(values);
                    let (table, key) = (table.to_string(), key);
                    self.got.push(Got {
                        table,
                        key,
                        row: row.clone(),
                    });
                    return Ok(row);
                }
                None if self.version.is_some() => return Err(Error::Conflict { row: None }),
                None => self.server.refresh(&version)?,
            };
        }
    }

    /// The version that it runs under.
    fn under(&self) -> Arc<Version> {
        self.version
            .clone()
            .unwrap_or_else(|| self.server.version())
    }

    /// A row with what was read for it; `None` if the version is closed.
    fn read_row(
        &self,
        version: &Version,
        table: &str,
        key: &Key,
        query: &Query,
    ) -> Result<Option<(Option<Row>, Values)>, Fault> {
        let names = &version.names;
        let mut points = match names.table(table) {
            0 => Vec::new(),
            number => {
                let mut named = Operations::new();
                named.push_row(Kind::Update, &operations::row(number, key));
                keys_of(&ffi::reads(&version.record, named.finish().as_bytes())?.code())?
            }
        };
        points.push(version.key());
        let mut values = read(&self.server.store, &points, &[])?.values;
        if values.remove(&version.key()).flatten().as_ref() != Some(&version.record) {
            return Ok(None);
        }
        let pairs = values
            .iter()
            .filter_map(|(key, value)| Some((key, value.as_ref()?)));
        let pairs: Vec<_> = pairs.collect();
        let (query, selected) = (query.code(names), query.selected(names));
        let given = ffi::rows(
            &version.record,
            query.as_bytes(),
            pairs_code(pairs).as_bytes(),
        )?;
        let row = rows_of(given.code(), &selected, names)?.pop();
        Ok(Some((row, values)))
    }

    /// Adds the insertion of a row: its key, and values by column. `()` is no values.
    pub fn insert<'c>(
        &mut self,
        table: &str,
        key: impl Into<Key>,
        cells: impl Into<Cells<'c>>,
    ) -> &mut Self {
        self.add(Kind::Insert, table, key.into(), cells.into())
    }

    /// Adds new values for columns of a row that is there.
    pub fn update<'c>(
        &mut self,
        table: &str,
        key: impl Into<Key>,
        cells: impl Into<Cells<'c>>,
    ) -> &mut Self {
        self.add(Kind::Update, table, key.into(), cells.into())
    }

    /// Adds the deletion of a row that is there.
    pub fn delete(&mut self, table: &str, key: impl Into<Key>) -> &mut Self {
        self.add(Kind::Delete, table, key.into(), Cells::default())
    }

    fn add(&mut self, kind: Kind, table: &str, key: Key, cells: Cells<'_>) -> &mut Self {
        let cells = cells.0.into_iter();
        self.ops.push(Op {
            kind,
            table: table.to_string(),
            key,
            cells: cells
                .map(|(column, value)| (column.to_string(), value))
                .collect(),
        });
        self
    }

    /// The code of its operations in a version.
    fn operations(&self, names: &Names) -> Vec<u8> {
        ops::code_of(&self.ops, &self.got, names)
    }

    /// Commits it, and gives its mark. If rows have changed meanwhile it is made again, by itself if it
    /// has got none; one that has got rows has ended then. If an answer is lost, its draft is handed in
    /// again until it is known to be applied, or not.
    ///
    /// Refusals: [`Error::WrongStage`] if it has ended; of the first faulty operation
    /// [`Error::NoTable`], [`Error::NotPublic`] or [`Error::WrongType`], but a text that is too long is
    /// [`Error::WrongType`] before all; [`Error::TooManyOps`]; [`Error::Duplicate`] or
    /// [`Error::NoRow`]; [`Error::Conflict`] if it has got rows and one of them has changed;
    /// [`Error::OutOfMemory`]; [`Error::Store`] with [`StoreError::TooLarge`],
    /// [`StoreError::Unreachable`] or [`StoreError::BadAnswer`], by which nothing is committed, and with
    /// [`StoreError::Unknown`], at which nobody knows.
    pub fn commit(&mut self) -> Result<Mark, Error> {
        if self.has_ended {
            return Err(Error::WrongStage);
        }
        self.has_ended = true;
        if self.ops.is_empty() && self.got.len() < 2 {
            return Ok(self.mark); // what it read is of one moment
        }
        match self.settle() {
            Ok(()) => Ok(self.mark),
            Err(error @ Error::Store(StoreError::Unknown(_))) => Err(error),
            Err(Error::Store(_)) if self.is_unsure => Err(unknown().into()),
            Err(error) => Err(error),
        }
    }

    /// Makes drafts of it until one is applied, or it is refused for good.
    fn settle(&mut self) -> Result<(), Error> {
        let refused = loop {
            match self.try_once() {
                Ok(true) => return Ok(()),
                Ok(false) => chance::pause(PAUSE),
                Err(error) => break error,
            }
        };
        let is_of_store = matches!(refused, Error::Store(_));
        match self.is_unsure && !is_of_store && self.server.is_settled(&self.mark)? {
            true => Ok(()),
            false => Err(refused),
        }
    }

    /// Makes its draft and hands it in; false if it is to be made again.
    fn try_once(&mut self) -> Result<bool, Error> {
        let version = self.under();
        let draft = match self.draft(&version) {
            Ok(draft) => draft,
            Err(Fault::Error(error)) => return Err(error),
            Err(Fault::Refused(refusal)) => {
                // a column may have come, or gone, in a newer version
                let is_of_rows = matches!(refusal.status, DUPLICATE | NO_ROW);
                if !is_of_rows && self.version.is_none() && self.server.refresh(&version)? {
                    return Ok(false);
                }
                return Err(self.refusal(refusal, &version.names));
            }
        };
        let is_applied = match draft {
            None => true,
            Some(draft) => self.is_applied(&draft, &version)?,
        };
        match is_applied || self.got.is_empty() {
            true => Ok(is_applied),
            false => Err(Error::Conflict { row: None }),
        }
    }

    /// Why its operations were refused.
    fn refusal(&self, refusal: Refusal, names: &Names) -> Error {
        let unknown = self.ops.iter().find_map(|op| {
            names.unknown(
                &op.table,
                op.cells.iter().map(|(column, _)| column.as_str()),
            )
        });
        let operation = refusal.number as usize; // operations are at most 64
        match refusal.status {
            NOT_PUBLIC => names.not_public(refusal.column, unknown),
            DUPLICATE => Error::Duplicate { operation },
            NO_ROW => Error::NoRow { operation },
            // only a text over 1,024 bytes makes a bad code of what this crate writes
            BAD_CODE | WRONG_TYPE => wrong_operation(names, &self.operations(names)),
            status => Error::of(status),
        }
    }

    /// Its draft, from what it got and what it reads for the rest; `None` if a draft of it is applied.
    fn draft(&self, version: &Version) -> Result<Option<Draft>, Fault> {
        let (code, mark) = (self.operations(&version.names), mark_key(&self.mark));
        let mut read = match self.read_rest(&version.names, &mark) {
            Ok(values) => values,
            Err(error) => {
                ffi::reads(&version.record, &code)?; // a text that is too long is refused before all
                return Err(error.into());
            }
        };
        if read.remove(&mark).flatten().is_some() {
            return Ok(None);
        }
        read.extend(self.view.clone());
        let (record, view) = (&version.record, points_code(&read));
        let given = ffi::txn(version.number(), record, &code, view.as_bytes(), &self.mark)?;
        let compared = Compared {
            version: (version.key(), record),
            mark,
            read,
            view,
        };
        Ok(Some(compared.draft_of(given.code())?))
    }

    /// What the store has at the keys that it has not read yet, and at its mark if a draft of it may be
    /// applied.
    fn read_rest(&self, names: &Names, mark: &[u8]) -> Result<Values, StoreError> {
        let mut points = ops::keys_of(&self.ops, &self.got, names);
        points.retain(|key| !self.view.contains_key(key));
        points.extend(self.is_unsure.then(|| mark.to_vec()));
        match points.is_empty() {
            true => Ok(Values::new()),
            false => Ok(read(&self.server.store, &points, &[])?.values),
        }
    }

    /// Hands a draft in, the same again while answers are lost; false if it is refused, and the version
    /// is read if that is why.
    fn is_applied(&mut self, draft: &Draft, version: &Version) -> Result<bool, Error> {
        let end = Instant::now() + self.server.patience;
        loop {
            match self.server.store.apply(draft) {
                Ok(()) => return Ok(true),
                Err(StoreError::Refused(key)) => {
                    let key = key.unwrap_or_default();
                    if self.is_unsure && key == mark_key(&self.mark) {
                        return Ok(true);
                    }
                    if key.starts_with(VERSIONS) {
                        self.server.refresh(version)?;
                    }
                    return Ok(false);
                }
                Err(error @ StoreError::Unreachable(_)) if !self.is_unsure => {
                    return Err(error.into())
                }
                Err(error @ StoreError::TooLarge(_)) => return Err(error.into()),
                Err(_) => self.is_unsure = true,
            }
            if Instant::now() >= end {
                return Err(unknown().into());
            }
            chance::pause(PAUSE);
        }
    }
}

/// The error of a fault, by that of a refusal.
pub(super) fn error_of(fault: Fault, refused: impl FnOnce(Refusal) -> Error) -> Error {
    match fault {
        Fault::Refused(refusal) => refused(refusal),
        Fault::Error(error) => error,
    }
}

/// Why the query of a row was refused.
fn row_error(refusal: Refusal, query: &Query, version: &Version) -> Error {
    query.refusal(&version.names, refusal.status, refusal.column)
}

impl<S> fmt::Debug for Txn<'_, S> {
    fn fmt(&self, f: &mut fmt::Formatter<'_>) -> fmt::Result {
        f.debug_struct("Txn")
            .field("ops", &self.ops)
            .field("has_ended", &self.has_ended)
            .finish_non_exhaustive()
    }
}
