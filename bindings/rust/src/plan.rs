//! Batches of schema changes, and the plans that bring them about.

use crate::code;
use crate::db::Db;
use crate::error::Error;
use crate::fetch::{fetch, status_of};
use crate::ffi::{self, Changed};
use crate::steps::steps_of;
use crate::table::Type;
use crate::value::Value;
use std::fmt;

/// A change of a schema, for [`Db::plan`]. Tables, columns and indexes are given by name.
#[derive(Debug, Clone, PartialEq, Eq)]
pub enum SchemaChange {
    /// Adds an index.
    AddIndex {
        /// Its table.
        table: String,
        /// Its name.
        name: String,
        /// The columns that it is on, in their order: 1 to 4.
        columns: Vec<String>,
    },
    /// Drops an index.
    DropIndex {
        /// Its table.
        table: String,
        /// Its name.
        name: String,
    },
    /// Adds a column.
    AddColumn {
        /// Its table.
        table: String,
        /// Its name.
        name: String,
        /// The type of its values.
        kind: Type,
        /// What a row has that is given no value; no value if it is `None`.
        default: Option<Value>,
    },
    /// Drops a column.
    DropColumn {
        /// Its table.
        table: String,
        /// Its name.
        name: String,
    },
    /// Turns back what is being added, and is not public yet.
    Abandon {
        /// Its table.
        table: String,
        /// Its name.
        name: String,
    },
}

impl SchemaChange {
    /// [`SchemaChange::AddIndex`].
    pub fn add_index<C: Into<String>>(
        table: impl Into<String>,
        name: impl Into<String>,
        columns: impl IntoIterator<Item = C>,
    ) -> SchemaChange {
        SchemaChange::AddIndex {
            table: table.into(),
            name: name.into(),
            columns: columns.into_iter().map(Into::into).collect(),
        }
    }

    /// [`SchemaChange::DropIndex`].
    pub fn drop_index(table: impl Into<String>, name: impl Into<String>) -> SchemaChange {
        let (table, name) = (table.into(), name.into());
        SchemaChange::DropIndex { table, name }
    }

    /// [`SchemaChange::AddColumn`] without a default.
    pub fn add_column(
        table: impl Into<String>,
        name: impl Into<String>,
        kind: Type,
    ) -> SchemaChange {
        SchemaChange::AddColumn {
            table: table.into(),
            name: name.into(),
            kind,
            default: None,
        }
    }

    /// [`SchemaChange::AddColumn`] with a default, which is a value of the column's type.
    pub fn add_column_with_default(
        table: impl Into<String>,
        name: impl Into<String>,
        kind: Type,
        default: impl Into<Value>,
    ) -> SchemaChange {
        SchemaChange::AddColumn {
            table: table.into(),
            name: name.into(),
            kind,
            default: Some(default.into()),
        }
    }

    /// [`SchemaChange::DropColumn`].
    pub fn drop_column(table: impl Into<String>, name: impl Into<String>) -> SchemaChange {
        let (table, name) = (table.into(), name.into());
        SchemaChange::DropColumn { table, name }
    }

    /// [`SchemaChange::Abandon`].
    pub fn abandon(table: impl Into<String>, name: impl Into<String>) -> SchemaChange {
        let (table, name) = (table.into(), name.into());
        SchemaChange::Abandon { table, name }
    }

    /// What every change has in its code: its variant, its table and its name.
    pub(crate) fn parts(&self) -> (u8, &str, &str) {
        match self {
            SchemaChange::AddIndex { table, name, .. } => (0, table, name),
            SchemaChange::DropIndex { table, name } => (1, table, name),
            SchemaChange::AddColumn { table, name, .. } => (2, table, name),
            SchemaChange::DropColumn { table, name } => (3, table, name),
            SchemaChange::Abandon { table, name } => (4, table, name),
        }
    }
}

/// Its words, which are read as the same change.
impl fmt::Display for SchemaChange {
    fn fmt(&self, f: &mut fmt::Formatter<'_>) -> fmt::Result {
        match self {
            SchemaChange::AddIndex {
                table,
                name,
                columns,
            } => write!(f, "add index {name} on {table} ({})", columns.join(", ")),
            SchemaChange::DropIndex { table, name } => write!(f, "drop index {name} on {table}"),
            SchemaChange::AddColumn {
                table,
                name,
                kind,
                default,
            } => {
                write!(f, "add column {name} {}", kind.word())?;
                if let Some(value) = default {
                    write!(f, " default {value}")?;
                }
                write!(f, " on {table}")
            }
            SchemaChange::DropColumn { table, name } => write!(f, "drop column {name} on {table}"),
            SchemaChange::Abandon { table, name } => write!(f, "abandon {table}.{name}"),
        }
    }
}

/// How far an index or a column is: what transactions do with its pairs.
#[derive(Debug, Clone, Copy, PartialEq, Eq, Hash)]
pub enum State {
    /// It is not there.
    Absent,
    /// Its pairs are only deleted.
    DeleteOnly,
    /// Its pairs are written, and not read.
    WriteOnly,
    /// Its pairs are written and read.
    Public,
}

/// What enters a schema.
#[derive(Debug, Clone, PartialEq, Eq)]
pub enum Entering {
    /// An index.
    Index {
        /// The numbers of its columns.
        columns: Vec<u32>,
    },
    /// A column.
    Column {
        /// The type of its values.
        kind: Type,
        /// What a row has that is given no value; no value if it is `None`.
        default: Option<Value>,
    },
}

/// A move of a step. An element is an index or a column, and has a number.
#[derive(Debug, Clone, PartialEq, Eq)]
pub enum Move {
    /// An element enters: it gets the next number.
    Enter {
        /// Its table.
        table: String,
        /// Its name.
        name: String,
        /// What it is.
        what: Entering,
        /// The state that it begins in.
        state: State,
    },
    /// An element goes on.
    Go {
        /// Its number.
        element: u32,
        /// The state that it goes to.
        state: State,
    },
    /// An element that is being added is dropped from then on.
    Turn {
        /// Its number.
        element: u32,
    },
}

/// What is done to the pairs of an element before it can go on.
#[derive(Debug, Clone, Copy, PartialEq, Eq, Hash)]
pub enum Reorganisation {
    /// The pairs of the index, or of the column with a default, are written for all rows.
    Fill {
        /// Its number.
        element: u32,
    },
    /// All pairs of the element are deleted.
    Clear {
        /// Its number.
        element: u32,
    },
}

/// A step of a plan: [`Db::publish`] makes it the newest version.
#[derive(Debug, Clone, PartialEq, Eq)]
pub struct PlannedStep {
    /// The reorganisations that must end before it, in their order.
    pub before: Vec<Reorganisation>,
    /// Its moves, in the order of the changes.
    pub moves: Vec<Move>,
    /// The moves by their code.
    pub(crate) code: Vec<u8>,
}

impl Db {
    /// The least plan of a batch of changes, from the newest version: the fewest steps that bring
    /// it about. Nothing changes. Each step is for [`Db::publish`], once the reorganisations before
    /// it were begun ([`Db::begin_reorg`]) and have ended ([`Db::read_piece`]).
    /// [`Db::change`] does all of this.
    ///
    /// Refusals: [`Error::Closed`]; of the first change that cannot be planned the first of
    /// [`Error::Unknown`], [`Error::NameTaken`], [`Error::StillIndexed`], [`Error::InChange`] and
    /// [`Error::Limit`], but a text of more than 1,024 bytes as a default is [`Error::Limit`]
    /// before all but [`Error::Closed`]; [`Error::OutOfMemory`], which may come in place of those
    /// after [`Error::Closed`].
    ///
    /// ```
    /// # use cagzhomul::{Db, Error, Move, Reorganisation, SchemaChange, State, Table, Type};
    /// # let db = Db::open([Table::new("people").key("id", Type::Int).column("town", Type::Text)])?;
    /// let steps = db.plan(&[SchemaChange::add_index("people", "by_town", ["town"])])?;
    /// assert_eq!(steps.len(), 3);
    /// // town is element 1, and by_town will be 2
    /// assert_eq!(steps[2].before, [Reorganisation::Fill { element: 2 }]);
    /// assert_eq!(steps[2].moves, [Move::Go { element: 2, state: State::Public }]);
    /// let dropped = db.plan(&[SchemaChange::drop_index("people", "by_town")]);
    /// assert_eq!(dropped, Err(Error::Unknown));
    /// # Ok::<(), Error>(())
    /// ```
    pub fn plan(&self, changes: &[SchemaChange]) -> Result<Vec<PlannedStep>, Error> {
        let names = self.names();
        let code = code::changes(changes, |table| names.table(table));
        let mut world = self.session().world()?;
        let plan = fetch(|_, out| world.plan(code.as_bytes(), out)).map_err(plan_refusal)?;
        steps_of(&plan, &names)
    }

    /// Publishes a step of a plan: the answer is the number of the version, which is the newest
    /// from then on.
    ///
    /// Refusals: [`Error::Closed`], [`Error::TooFar`], [`Error::MomentTooLarge`],
    /// [`Error::TooEarly`]; of the first move that is not allowed [`Error::Unknown`],
    /// [`Error::NotAdjacent`], [`Error::WrongWay`], [`Error::Dependent`], [`Error::NameTaken`] or
    /// [`Error::Limit`]; [`Error::Unfinished`]; [`Error::VersionsSpent`]; [`Error::OutOfMemory`],
    /// which may come in place of those after [`Error::TooFar`].
    ///
    /// ```
    /// # use cagzhomul::{Db, Error, SchemaChange, Table, Type};
    /// # let db = Db::open([Table::new("t").key("id", Type::Int)])?;
    /// let steps = db.plan(&[SchemaChange::add_column("t", "a", Type::Int)])?;
    /// assert_eq!(db.publish(5, &steps[0]), Err(Error::TooEarly { until: 10 }));
    /// assert_eq!(db.publish(10, &steps[0])?, 2);
    /// assert_eq!(db.publish(20, &steps[1])?, 3);
    /// # Ok::<(), Error>(())
    /// ```
    pub fn publish(&self, now: u64, step: &PlannedStep) -> Result<u64, Error> {
        let mut world = self.session().world()?;
        let version = number_of(world.publish(now, &step.code))?;
        self.session().published();
        self.session().reached(now);
        Ok(version)
    }

    /// Begins the fill or the clear that an element wants, in 1 to 64 pieces, each of about as many
    /// rows; the answer is the place of its entry in the log.
    ///
    /// Refusals: [`Error::Closed`], [`Error::TooFar`], [`Error::MomentTooLarge`],
    /// [`Error::NotWanted`], [`Error::StillUsed`], [`Error::Begun`], [`Error::BadCount`],
    /// [`Error::OutOfMemory`].
    pub fn begin_reorg(&self, now: u64, element: u32, pieces: u32) -> Result<u64, Error> {
        let mut world = self.session().world()?;
        let place = number_of(world.begin_reorg(now, element, pieces))?;
        self.session().reached(now);
        Ok(place)
    }

    /// The number of an index or a column of the newest version.
    ///
    /// Refusals: [`Error::Closed`], [`Error::Unknown`], [`Error::OutOfMemory`], which may come in
    /// place of the one before it.
    ///
    /// ```
    /// # use cagzhomul::{Db, Error, Table, Type};
    /// # let db = Db::open([Table::new("people").key("id", Type::Int).column("town", Type::Text)])?;
    /// assert_eq!(db.element("people", "town"), Ok(1));
    /// assert_eq!(db.element("people", "by_town"), Err(Error::Unknown));
    /// # Ok::<(), Error>(())
    /// ```
    pub fn element(&self, table: &str, name: &str) -> Result<u32, Error> {
        let schema = self.session().schema()?;
        let mut elements = schema.elements.iter();
        match elements.find(|it| it.table == table && it.name == name) {
            None => Err(Error::Unknown),
            Some(element) => Ok(element.number),
        }
    }

    /// How the store stands, as one line of JSON: `elements`, `log`, `moment`, `usable` and
    /// `version`, as the line `status` of the script language has them.
    ///
    /// Refusals: [`Error::Closed`], [`Error::OutOfMemory`].
    ///
    /// ```
    /// # use cagzhomul::{Db, Table, Type};
    /// # let db = Db::open([Table::new("t").key("id", Type::Int)])?;
    /// let wanted = r#"{"elements":[],"log":0,"moment":0,"usable":[1],"version":1}"#;
    /// assert_eq!(db.status()?, wanted);
    /// # Ok::<(), cagzhomul::Error>(())
    /// ```
    pub fn status(&self) -> Result<String, Error> {
        status_of(&mut *self.session().world()?)
    }
}

/// Why a batch is not planned. Only a default over 1,024 bytes makes a bad code of what this crate
/// writes, and no other element than an index stands against a change.
pub(crate) fn plan_refusal(error: Error) -> Error {
    match error {
        Error::Status(ffi::BAD_CODE) => Error::Limit,
        Error::Status(ffi::DEPENDENT) => Error::StillIndexed,
        other => other,
    }
}

/// The number of what a schema change came to.
pub(crate) fn number_of(changed: Changed) -> Result<u64, Error> {
    match changed.status {
        ffi::OK => Ok(changed.number),
        status => Err(Error::of_change(status, changed.number)),
    }
}
