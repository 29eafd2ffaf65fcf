//! Which value a refusal is for. It is looked for after the refusal alone.

use crate::error::Error;
use crate::ffi::{self, ValueFault};
use crate::names::Names;
use crate::operations::Kind;
use crate::pages::KeyRange;
use crate::query::Condition;
use crate::rows::Reader;
use crate::table::Type;
use crate::value::{Key, Value};
use std::fmt;

/// How many bytes a text has at most.
const MOST_BYTES: usize = 1024;

/// A value that does not fit: what an [`Error::WrongType`] is for. Its text says it:
///
/// ```
/// # use cagzhomul::{Db, Error, Table, Type, Value, ValueCause};
/// # let db = Db::open([Table::new("people").key("id", Type::Int).column("town", Type::Text)])?;
/// # let lease = db.lease(0)?;
/// let Err(Error::WrongType(Some(wrong))) = lease.txn().insert("people", 1, [("town", 7)]).write(0)
/// else {
///     panic!("7 is no text");
/// };
/// let (value, wanted) = (Value::Int(7), Type::Text);
/// assert_eq!((wrong.operation, &wrong.cause), (Some(0), &ValueCause::Value { value, wanted }));
/// let text = "people.town: 7 is an int, and the column is a text: operation 0";
/// assert_eq!(wrong.to_string(), text);
/// # Ok::<(), Error>(())
/// ```
#[derive(Debug, Clone, PartialEq, Eq)]
#[non_exhaustive]
pub struct WrongValue {
    /// The operation of the transaction, counted from 0; `None` of a query, and of a row that is got.
    pub operation: Option<usize>,
    /// The table; `None` if there is none of its name.
    pub table: Option<String>,
    /// The column; `None` if the whole key is meant, or the table has no such column.
    pub column: Option<String>,
    /// What is wrong with it.
    pub cause: ValueCause,
}

/// What is wrong with a value.
#[derive(Debug, Clone, PartialEq, Eq)]
#[non_exhaustive]
pub enum ValueCause {
    /// It is of another type than its column, or null in a key or as a bound.
    Value {
        /// The value.
        value: Value,
        /// The type of the column.
        wanted: Type,
    },
    /// A key has another number of values than that of the table.
    KeyLength {
        /// The key.
        key: Key,
    },
    /// The column is named twice.
    NamedTwice,
    /// A text has more than 1,024 bytes. It is refused before all else.
    TextTooLong {
        /// The text.
        text: String,
    },
}

/// A type with its article.
fn a(kind: Type) -> &'static str {
    match kind {
        Type::Int => "an int",
        Type::Text => "a text",
        Type::Bool => "a bool",
    }
}

/// The type of a value; null has none.
fn type_of(value: &Value) -> Option<Type> {
    match value {
        Value::Null => None,
        Value::Int(_) => Some(Type::Int),
        Value::Text(_) => Some(Type::Text),
        Value::Bool(_) => Some(Type::Bool),
    }
}

/// What is wrong with something, after its name.
pub(crate) fn name_what(f: &mut fmt::Formatter<'_>, what: [Option<&String>; 2]) -> fmt::Result {
    match what {
        [None, None] => Ok(()),
        [Some(name), None] | [None, Some(name)] => write!(f, "{name}: "),
        [Some(table), Some(name)] => write!(f, "{table}.{name}: "),
    }
}

impl fmt::Display for WrongValue {
    fn fmt(&self, f: &mut fmt::Formatter<'_>) -> fmt::Result {
        name_what(f, [self.table.as_ref(), self.column.as_ref()])?;
        match &self.cause {
            ValueCause::Value { value, wanted } => match type_of(value) {
                Some(kind) => write!(
                    f,
                    "{value} is {}, and the column is {}",
                    a(kind),
                    a(*wanted)
                ),
                None => write!(f, "null is no {}", wanted.word()),
            },
            ValueCause::KeyLength { key } => {
                let values: Vec<String> = key.0.iter().map(Value::to_string).collect();
                let (many, plural) = (values.len(), if values.len() == 1 { "" } else { "s" });
                let values = values.join(", ");
                write!(
                    f,
                    "the key ({values}) has {many} value{plural}, and the table's key has another number of columns"
                )
            }
            ValueCause::NamedTwice => f.write_str("the column is named twice"),
            ValueCause::TextTooLong { text } => {
                write!(
                    f,
                    "a text of {} bytes, and {MOST_BYTES} are the most",
                    text.len()
                )
            }
        }?;
        match self.operation {
            Some(operation) => write!(f, ": operation {operation}"),
            None => Ok(()),
        }
    }
}

/// A value that an operation or a condition gives, for this column, whose values are of this type.
struct Given {
    column: Option<String>,
    wanted: Option<Type>,
    value: Value,
}

/// What an operation or a condition gives: the values of a key first, and then those for columns.
struct Item {
    table: Option<String>,
    /// How many values the key has; `None` without one.
    key_length: Option<usize>,
    given: Vec<Given>,
}

impl Item {
    fn new(table: Option<&str>) -> Item {
        Item {
            table: table.map(str::to_string),
            key_length: None,
            given: Vec::new(),
        }
    }

    /// Adds the values of a key.
    fn with_key(mut self, names: &Names, key: impl IntoIterator<Item = Value>) -> Item {
        let columns = self.table.as_deref().map_or(&[][..], |it| names.key(it));
        let mut columns = columns.iter().cloned();
        self.given.extend(key.into_iter().map(|value| {
            let (column, wanted) = columns.next().unzip();
            Given {
                column,
                wanted,
                value,
            }
        }));
        self.key_length = Some(self.given.len());
        self
    }

    /// Adds a value for a column.
    fn with(mut self, names: &Names, column: Option<&str>, value: Value) -> Item {
        let table = self.table.as_deref();
        let wanted = table.zip(column).and_then(|it| names.type_of(it.0, it.1));
        self.given.push(Given {
            column: column.map(str::to_string),
            wanted,
            value,
        });
        self
    }

    fn condition(names: &Names, table: Option<&str>, condition: &Condition) -> Item {
        let item = Item::new(table);
        match condition {
            Condition::Key(key) => item.with_key(names, key.0.clone()),
            Condition::Equal(column, value) => item.with(names, Some(column), value.clone()),
            Condition::Between(column, low, high) => {
                let bounds = [low, high].into_iter().flatten();
                bounds.fold(item, |item, it| item.with(names, Some(column), it.clone()))
            }
        }
    }

    /// That its key has another number of values than that of the table.
    fn key_cause(&self) -> ValueCause {
        let key = self.given[..self.key_length.unwrap_or(0)].iter();
        let key = Key(key.map(|it| it.value.clone()).collect());
        ValueCause::KeyLength { key }
    }

    fn wrong(&self, column: Option<String>, cause: ValueCause) -> WrongValue {
        WrongValue {
            operation: None,
            table: self.table.clone(),
            column,
            cause,
        }
    }

    /// What the library has found in it.
    fn found(&self, names: &Names, fault: &ValueFault) -> Option<WrongValue> {
        let column = names.name_of(fault.column);
        let wrong =
            match fault.cause {
                ffi::FAULT_KEY_LENGTH => self.wrong(None, self.key_cause()),
                ffi::FAULT_NAMED_TWICE => {
                    self.wrong(column.map(str::to_string), ValueCause::NamedTwice)
                }
                ffi::FAULT_KEY_VALUE => self.value(self.given.get(fault.place)?)?,
                // of the values for the column the first of the type that is wrong
                _ => self.value(self.given[self.key_length.unwrap_or(0)..].iter().find(
                    |it| {
                        let number = type_of(&it.value).map_or(ffi::NO_TYPE, |kind| kind as u32);
                        it.column.as_deref() == column && number == fault.given
                    },
                )?)?,
            };
        Some(wrong)
    }

    /// That this value is of another type than its column.
    fn value(&self, given: &Given) -> Option<WrongValue> {
        let (value, wanted) = (given.value.clone(), given.wanted?);
        Some(self.wrong(given.column.clone(), ValueCause::Value { value, wanted }))
    }

    /// The first text in it that is too long.
    fn too_long(&self) -> Option<WrongValue> {
        self.given.iter().find_map(|it| match &it.value {
            Value::Text(text) if text.len() > MOST_BYTES => {
                let text = text.clone();
                Some(self.wrong(it.column.clone(), ValueCause::TextTooLong { text }))
            }
            _ => None,
        })
    }

    /// What is wrong with it as a key of a range.
    fn wrong_key(&self, names: &Names) -> Option<WrongValue> {
        let columns = names.key(self.table.as_deref()?);
        if self.key_length != Some(columns.len()) {
            return Some(self.wrong(None, self.key_cause()));
        }
        let wrong = |it: &&Given| type_of(&it.value) != it.wanted;
        self.value(self.given.iter().find(wrong)?)
    }
}

/// The operations of a code that this crate wrote.
fn operations(code: &[u8], names: &Names) -> Option<Vec<Item>> {
    let mut reader = Reader(code.get(1..)?);
    reader.list(|it| {
        let kind = it.byte()?;
        let table = names.table_of(it.small_number()?);
        let item = Item::new(table).with_key(names, it.list(Reader::value)?);
        let cells = match kind == Kind::Delete as u8 {
            true => Vec::new(),
            false => it.list(|it| Some((it.small_number()?, it.value()?)))?,
        };
        let with = |item: Item, (column, value)| item.with(names, names.name_of(column), value);
        Some(cells.into_iter().fold(item, with))
    })
}

/// Why these operations, by their code, were refused as of a value.
pub(crate) fn wrong_operation(names: &Names, code: &[u8]) -> Error {
    let items = operations(code, names).unwrap_or_default();
    let of = |operation: usize, wrong: WrongValue| WrongValue {
        operation: Some(operation),
        ..wrong
    };
    let mut each = items.iter().enumerate();
    let too_long = each.find_map(|(at, it)| Some(of(at, it.too_long()?)));
    let found = too_long.or_else(|| {
        let fault = ffi::txn_fault(names.code(), code);
        let item = items.get(fault.item).filter(|_| fault.is_one())?;
        Some(of(fault.item, item.found(names, &fault)?))
    });
    Error::WrongType(found.map(Box::new))
}

/// Why a query of these conditions, by its code, was refused as of a value, or a range of it, whose
/// types count after those of the query.
pub(crate) fn wrong_condition(
    names: &Names,
    code: &[u8],
    table: &str,
    conditions: &[Condition],
    range: &KeyRange,
) -> Error {
    let table = (names.table(table) != 0).then_some(table);
    let items = conditions
        .iter()
        .map(|it| Item::condition(names, table, it));
    let items: Vec<Item> = items.collect();
    let keys = [&range.after, &range.before].into_iter().flatten();
    let keys: Vec<Item> = keys
        .map(|key| Item::new(table).with_key(names, key.0.clone()))
        .collect();
    let too_long = keys.iter().chain(&items).find_map(Item::too_long);
    let found = too_long.or_else(|| {
        let fault = ffi::query_fault(names.code(), code);
        match fault.status == ffi::OK && fault.cause == ffi::FAULT_NONE {
            true => keys.iter().find_map(|key| key.wrong_key(names)),
            false => {
                let item = items.get(fault.item).filter(|_| fault.is_one())?;
                item.found(names, &fault)
            }
        }
    });
    Error::WrongType(found.map(Box::new))
}
