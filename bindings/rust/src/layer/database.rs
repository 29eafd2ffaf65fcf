//! A database over a store.

use crate::code;
use crate::declarations::bad_table;
use crate::error::Error;
use crate::ffi::BAD_TABLE;
use crate::layer::acts::{Act, Acts};
use crate::layer::chance::{self, Mark};
use crate::layer::codes::{draft_of, END};
use crate::layer::draft::{ComparedRange, Draft};
use crate::layer::ffi;
use crate::layer::server::{refused, versions_of, Server, PAUSE};
use crate::layer::store::{bad_answer, Store, StoreError};
use crate::layer::txn::Txn;
use crate::library::check_library;
use crate::plan::SchemaChange;
use crate::rows::Row;
use crate::schema::Schema;
use crate::table::Table;
use crate::value::{Cells, Key};
use std::fmt;
use std::time::{Duration, Instant};

/// How many pairs a query may read of one range, if nothing else is said.
pub const DEFAULT_LIMIT: usize = 10_000;
/// How long a transaction whose answer was lost is handed in again, if nothing else is said.
pub const DEFAULT_PATIENCE: Duration = Duration::from_secs(30);

/// A database over a store that someone else runs. It keeps nothing but the newest version that it
/// met, so any number of processes may do this at once; and threads may share one.
///
/// ```
/// use cagzhomul::layer::{Layer, MemoryStore};
/// use cagzhomul::Type::{Int, Text};
/// use cagzhomul::{Query, SchemaChange, Table};
///
/// # fn main() -> Result<(), cagzhomul::Error> {
/// let people = Table::new("people").key("id", Int).column("town", Text);
/// let db = Layer::open(MemoryStore::new(), [people])?;
/// db.insert("people", 1, [("town", "Ulm")])?;
/// db.complete(&[SchemaChange::add_index("people", "by_town", ["town"])])?;
/// assert_eq!(db.query(&Query::of("people").equal("town", "Ulm"))?.len(), 1);
/// # Ok(())
/// # }
/// ```
pub struct Layer<S> {
    pub(super) server: Server<S>,
    pub(super) limit: usize,
}

impl<S: Store> Layer<S> {
    /// A database with these tables over a store, which makes it there if there is nothing in the store.
    /// Of a database that is there, the names and the keys of tables are to be these.
    ///
    /// Refusals: [`Error::LibraryVersion`]; [`Error::BadTable`], also for a database of other tables;
    /// [`Error::OutOfMemory`]; [`Error::Store`], with [`StoreError::BadAnswer`] if the store holds
    /// something else, with [`StoreError::Unknown`] if nobody knows whether it was opened, and as reads
    /// of the store have it.
    pub fn open(store: S, tables: impl IntoIterator<Item = Table>) -> Result<Layer<S>, Error> {
        check_library()?;
        let tables: Vec<Table> = tables.into_iter().collect();
        let end = Instant::now() + DEFAULT_PATIENCE;
        while versions_of(&store)?.is_empty() && !is_opened(&store, &tables)? {
            if Instant::now() >= end {
                return Err(
                    StoreError::Unknown("whether the database was opened".to_string()).into(),
                );
            }
            chance::pause(PAUSE);
        }
        let layer = Layer::new(store).map_err(|error| match error {
            Error::NotOpened => bad_answer("the store holds something else").into(),
            other => other,
        })?;
        let schema = layer.schema();
        let opened = schema.tables.iter().map(|it| (&it.name, &it.key));
        match opened.eq(tables.iter().map(|it| (&it.name, &it.key))) {
            true => Ok(layer),
            false => Err(Error::BadTable(None)),
        }
    }

    /// The database that is in a store.
    ///
    /// Refusals: [`Error::LibraryVersion`]; [`Error::NotOpened`] if there is none; [`Error::Store`], as
    /// reads of the store have it.
    pub fn new(store: S) -> Result<Layer<S>, Error> {
        check_library()?;
        let server = Server::new(store, DEFAULT_PATIENCE)?;
        Ok(Layer {
            server,
            limit: DEFAULT_LIMIT,
        })
    }

    /// How many pairs a query may read of one range: [`DEFAULT_LIMIT`] without this call.
    #[must_use]
    pub fn limit(mut self, pairs: usize) -> Layer<S> {
        self.limit = pairs;
        self
    }

    /// How long a transaction whose answer was lost is handed in again, before it ends in
    /// [`StoreError::Unknown`]: [`DEFAULT_PATIENCE`] without this call.
    #[must_use]
    pub fn patience(mut self, patience: Duration) -> Layer<S> {
        self.server.patience = patience;
        self
    }

    /// The store.
    pub fn store(&self) -> &S {
        &self.server.store
    }

    /// The schema of the newest version that this object knows of: of the last one that it met.
    pub fn schema(&self) -> Schema {
        self.server.version().names.schema().clone()
    }

    /// A transaction without operations yet.
    pub fn txn(&self) -> Txn<'_, S> {
        Txn::new(&self.server)
    }

    /// Inserts a row by a transaction of its own.
    ///
    /// Refusals: those of [`Txn::commit`].
    pub fn insert<'c>(
        &self,
        table: &str,
        key: impl Into<Key>,
        cells: impl Into<Cells<'c>>,
    ) -> Result<Mark, Error> {
        self.txn().insert(table, key, cells).commit()
    }

    /// Updates a row by a transaction of its own.
    ///
    /// Refusals: those of [`Txn::commit`].
    pub fn update<'c>(
        &self,
        table: &str,
        key: impl Into<Key>,
        cells: impl Into<Cells<'c>>,
    ) -> Result<Mark, Error> {
        self.txn().update(table, key, cells).commit()
    }

    /// Deletes a row by a transaction of its own.
    ///
    /// Refusals: those of [`Txn::commit`].
    pub fn delete(&self, table: &str, key: impl Into<Key>) -> Result<Mark, Error> {
        self.txn().delete(table, key).commit()
    }

    /// Calls the function with a transaction, and then commits that; both again for as long as rows that
    /// it got change meanwhile. No update is lost if it computes from nothing but what [`Txn::get`]
    /// gives. The answer is the function's last.
    ///
    /// Refusals: those of the function and of [`Txn::commit`], but [`Error::Conflict`].
    ///
    /// ```
    /// # use cagzhomul::layer::{Layer, MemoryStore};
    /// # use cagzhomul::{Table, Type, Value};
    /// # let counters = Table::new("counters").key("id", Type::Int).column("n", Type::Int);
    /// # let db = Layer::open(MemoryStore::new(), [counters])?;
    /// db.insert("counters", 1, [("n", 5)])?;
    /// let before = db.run(|txn| {
    ///     let row = txn.get("counters", 1)?;
    ///     let Some(Value::Int(n)) = row.as_ref().and_then(|row| row.get("n")) else {
    ///         return Ok(None);
    ///     };
    ///     txn.update("counters", 1, [("n", n + 1)]);
    ///     Ok(Some(*n))
    /// })?;
    /// assert_eq!(before, Some(5));
    /// # Ok::<(), cagzhomul::Error>(())
    /// ```
    pub fn run<T>(
        &self,
        mut function: impl FnMut(&mut Txn<'_, S>) -> Result<T, Error>,
    ) -> Result<T, Error> {
        loop {
            let mut txn = self.txn();
            let answer = function(&mut txn);
            match answer.and_then(|answer| txn.commit().map(|_| answer)) {
                Err(Error::Conflict { .. }) => chance::pause(PAUSE),
                ended => return ended,
            }
        }
    }

    /// Changes a row by what it holds: the function is given the row, or `None` if it is not there, and
    /// gives cells, by which the row is updated, or inserted; or `None`, which leaves it. It may be
    /// called several times.
    ///
    /// Refusals: those of [`Layer::run`].
    pub fn modify<'c, C: Into<Cells<'c>>>(
        &self,
        table: &str,
        key: impl Into<Key>,
        mut function: impl FnMut(Option<&Row>) -> Option<C>,
    ) -> Result<(), Error> {
        let key = key.into();
        self.run(|txn| {
            let row = txn.get(table, key.clone())?;
            match (function(row.as_ref()), row) {
                (None, _) => {}
                (Some(cells), None) => {
                    txn.insert(table, key.clone(), cells);
                }
                (Some(cells), Some(_)) => {
                    txn.update(table, key.clone(), cells);
                }
            }
            Ok(())
        })
    }

    /// Begins schema changes, and gives the acts that complete them, one after the other, each a short
    /// transaction of the store. When the call returns the first is done.
    ///
    /// All servers go on meanwhile; one that knows an older version finds out when it is refused, and
    /// reads the newest. Other programs may do schema changes at the same time: the acts end when
    /// nothing is under way any more, whoever began it, or after an error. If this program ends before,
    /// any may call [`Layer::resume`]; changes of the list that had not begun by then are forgotten.
    ///
    /// Refusals: of the first change that cannot be planned the first of [`Error::Unknown`],
    /// [`Error::NameTaken`], [`Error::StillIndexed`], [`Error::InChange`] and [`Error::Limit`];
    /// [`Error::VersionsSpent`]; [`Error::BadCount`]; [`Error::OutOfMemory`]; [`Error::Store`], as calls
    /// of the store have it.
    ///
    /// ```
    /// # use cagzhomul::layer::{Act, Layer, MemoryStore};
    /// # use cagzhomul::{SchemaChange, Table, Type};
    /// # let people = Table::new("people").key("id", Type::Int).column("town", Type::Text);
    /// # let db = Layer::open(MemoryStore::new(), [people])?;
    /// db.insert("people", 1, [("town", "Ulm")])?;
    /// let change = [SchemaChange::add_index("people", "by_town", ["town"])];
    /// let acts: Vec<Act> = db.change(&change)?.pieces(1).collect::<Result<_, _>>()?;
    /// let due = [
    ///     Act::Publish { version: 2 },
    ///     Act::Publish { version: 3 },
    ///     Act::Close { version: 3 },
    ///     Act::Begin { version: 3, element: 2 },
    ///     Act::Work { version: 3, element: 2, piece: 0 },
    ///     Act::Publish { version: 4 },
    /// ];
    /// assert_eq!(acts, due);
    /// # Ok::<(), cagzhomul::Error>(())
    /// ```
    pub fn change(&self, changes: &[SchemaChange]) -> Result<Acts<'_, S>, Error> {
        Acts::begin(&self.server.store, changes)
    }

    /// Begins schema changes as [`Layer::change`] does, and does all their acts.
    ///
    /// Refusals: those of [`Layer::change`].
    pub fn complete(&self, changes: &[SchemaChange]) -> Result<(), Error> {
        let done = |act: Result<Act, Error>| act.map(drop);
        self.change(changes)?.try_for_each(done)?;
        self.server.refresh(&self.server.version()).map(drop)
    }

    /// The acts that complete the schema changes under way, whoever began them, as [`Layer::change`]
    /// gives them. They are known from the store alone.
    pub fn resume(&self) -> Acts<'_, S> {
        Acts::resume(&self.server.store)
    }
}

/// Opens a database with these tables in an empty store; false if nobody knows whether that was done.
fn is_opened<S: Store>(store: &S, tables: &[Table]) -> Result<bool, Error> {
    let opening = code::opening(1, tables);
    let given = ffi::open(opening.as_bytes()).map_err(|refusal| match refusal.status {
        BAD_TABLE => bad_table(opening.as_bytes(), tables),
        _ => refused(refusal),
    });
    let mut draft: Draft = draft_of(given?.code())?;
    draft.ranges = vec![ComparedRange {
        low: Vec::new(),
        high: END.to_vec(),
        pairs: Vec::new(),
    }];
    match store.apply(&draft) {
        Ok(()) => Ok(true),
        // another has opened it, or the store holds something else
        Err(StoreError::Refused(key)) => Ok(key.is_some()),
        Err(StoreError::Unknown(_) | StoreError::BadAnswer(_)) => Ok(false),
        Err(other) => Err(other.into()),
    }
}

impl<S> fmt::Debug for Layer<S> {
    fn fmt(&self, f: &mut fmt::Formatter<'_>) -> fmt::Result {
        f.debug_struct("Layer")
            .field("limit", &self.limit)
            .field("patience", &self.server.patience)
            .finish_non_exhaustive()
    }
}
