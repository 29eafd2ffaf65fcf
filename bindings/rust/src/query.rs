//! Typed queries.

use crate::code::{self, Code};
use crate::error::Error;
use crate::faults::wrong_condition;
use crate::fetch::bytes_of;
use crate::ffi::{self, BytesHandle, Queried};
use crate::names::{Names, Unknown};
use crate::pages::KeyRange;
use crate::rows::{rows_of, Row};
use crate::value::{Key, Value};

/// What a row meets.
#[derive(Debug, Clone, PartialEq, Eq)]
pub(crate) enum Condition {
    Key(Key),
    Equal(String, Value),
    Between(String, Option<Value>, Option<Value>),
}

impl Condition {
    /// The column that it is on, if it is not on the key.
    fn column(&self) -> Option<&String> {
        match self {
            Condition::Key(_) => None,
            Condition::Equal(column, _) | Condition::Between(column, ..) => Some(column),
        }
    }
}

/// A query of one table: the rows that meet all of its conditions, and some of their columns.
///
/// [`Lease::find`](crate::Lease::find) and [`Snapshot::query`](crate::Snapshot::query) answer it. A
/// condition on the key finds its row at once; one on the first column of an index goes over a part
/// of the index, and any other over the table.
///
/// ```
/// # use cagzhomul::{Db, Query, Table, Type, Value};
/// # let people = Table::new("people").key("id", Type::Int).column("age", Type::Int);
/// # let db = Db::open([people.column("town", Type::Text)])?;
/// # let lease = db.lease(0)?;
/// # for (id, age) in [(1, 17), (2, 18), (3, 19)] {
/// #     let cells = [("age", Value::from(age)), ("town", "Ulm".into())];
/// #     lease.txn().insert("people", id, cells).commit(0)?;
/// # }
/// let adults = Query::of("people")
///     .columns(["age"])
///     .equal("town", "Ulm")
///     .between("age", Some(18), None);
/// let rows = lease.find(0, &adults)?;
/// assert_eq!((rows.len(), rows[0].key(), rows[0].get("age")), (2, &[2.into()][..], Some(&18.into())));
/// assert_eq!(lease.find(0, &adults.key(3))?, rows[1..]);
/// # Ok::<(), cagzhomul::Error>(())
/// ```
#[derive(Debug, Clone, PartialEq, Eq)]
#[must_use]
pub struct Query {
    table: String,
    columns: Option<Vec<String>>,
    conditions: Vec<Condition>,
}

impl Query {
    /// Whether it names a key, which one row has at most.
    pub(crate) fn is_by_key(&self) -> bool {
        let mut conditions = self.conditions.iter();
        conditions.any(|it| matches!(it, Condition::Key(_)))
    }

    /// All rows of this table, with all of its public columns.
    pub fn of(table: impl Into<String>) -> Query {
        Query {
            table: table.into(),
            columns: None,
            conditions: Vec::new(),
        }
    }

    /// Selects these columns, beside those that it selected before.
    pub fn columns<C: Into<String>>(mut self, columns: impl IntoIterator<Item = C>) -> Query {
        let columns = columns.into_iter().map(Into::into);
        self.columns.get_or_insert_with(Vec::new).extend(columns);
        self
    }

    /// The row meets this condition.
    pub(crate) fn meeting(mut self, condition: Condition) -> Query {
        self.conditions.push(condition);
        self
    }

    /// The row has this primary key.
    pub fn key(self, key: impl Into<Key>) -> Query {
        self.meeting(Condition::Key(key.into()))
    }

    /// The row has this value in a column; with [`Value::Null`] it has none there.
    pub fn equal(self, column: impl Into<String>, value: impl Into<Value>) -> Query {
        self.meeting(Condition::Equal(column.into(), value.into()))
    }

    /// The row has a value in a column, and it lies between these two, both included; `None` is no
    /// bound.
    pub fn between<V: Into<Value>>(
        self,
        column: impl Into<String>,
        low: Option<V>,
        high: Option<V>,
    ) -> Query {
        let (low, high) = (low.map(Into::into), high.map(Into::into));
        self.meeting(Condition::Between(column.into(), low, high))
    }

    /// The numbers of the columns that it selects, in a version.
    pub(crate) fn selected(&self, names: &Names) -> Vec<u32> {
        let number = |column: &String| names.element(&self.table, column);
        match &self.columns {
            None => names.public(&self.table).collect(),
            Some(columns) => columns.iter().map(number).collect(),
        }
    }

    /// Its code in a version.
    pub(crate) fn code(&self, names: &Names) -> Code {
        let number = |column: &str| names.element(&self.table, column);
        let (table, columns) = (names.table(&self.table), self.selected(names));
        code::query(table, &columns, &self.conditions, number)
    }

    /// The code of a request for a page of it in a version.
    pub(crate) fn request(&self, range: &KeyRange, limit: u32, names: &Names) -> Code {
        let number = |column: &str| names.element(&self.table, column);
        let (table, columns) = (names.table(&self.table), self.selected(names));
        code::page(range, limit, table, &columns, &self.conditions, number)
    }

    /// Why it was refused, by the status and the number of a column beside it.
    pub(crate) fn refusal(&self, names: &Names, status: i32, column: u32) -> Error {
        self.refusal_in(&KeyRange::all(), names, status, column)
    }

    /// The same of a page of it.
    pub(crate) fn refusal_in(
        &self,
        range: &KeyRange,
        names: &Names,
        status: i32,
        column: u32,
    ) -> Error {
        match status {
            ffi::NOT_PUBLIC => names.not_public(column, self.unknown(names)),
            // Only a text over 1,024 bytes makes a bad code of what this crate writes.
            ffi::BAD_CODE | ffi::WRONG_TYPE => {
                let code = self.code(names);
                wrong_condition(names, code.as_bytes(), &self.table, &self.conditions, range)
            }
            status => Error::of(status),
        }
    }

    /// The first name that its table does not have.
    fn unknown(&self, names: &Names) -> Option<Unknown> {
        let columns = self.columns.iter().flatten();
        let conditions = self.conditions.iter().filter_map(Condition::column);
        names.unknown(&self.table, columns.chain(conditions).map(String::as_str))
    }
}

/// The rows of a query, by a call that answers its code into a closed handle, or is refused.
pub(crate) fn find(
    query: &Query,
    names: &Names,
    ask: impl FnOnce(&[u8], &mut BytesHandle) -> Result<Queried, Error>,
) -> Result<Vec<Row>, Error> {
    let mut rows = BytesHandle::closed();
    let queried = ask(query.code(names).as_bytes(), &mut rows)?;
    match queried.status {
        ffi::OK => {
            let code = bytes_of(&mut rows)?;
            rows_of(&code, &query.selected(names), names)
        }
        status => Err(query.refusal(names, status, queried.column)),
    }
}
