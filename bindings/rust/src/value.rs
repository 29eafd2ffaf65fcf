//! Values of columns, keys and cells.

use std::fmt;

/// A value of a column.
///
/// Its text is that of the script language, so it may be part of a query:
///
/// ```
/// use cagzhomul::Value;
///
/// let town = Value::from("L'Aquila");
/// let selection = format!("select * from people where town = {town}");
/// assert_eq!(selection, "select * from people where town = 'L''Aquila'");
/// assert_eq!(Value::from(None::<i64>).to_string(), "null");
/// ```
#[derive(Debug, Clone, PartialEq, Eq, PartialOrd, Ord, Hash)]
pub enum Value {
    /// No value.
    Null,
    /// An integer of 64 bits.
    Int(i64),
    /// A text; in a row it has at most 1,024 bytes.
    Text(String),
    /// A truth value.
    Bool(bool),
}

impl fmt::Display for Value {
    fn fmt(&self, f: &mut fmt::Formatter<'_>) -> fmt::Result {
        match self {
            Value::Null => f.write_str("null"),
            Value::Int(number) => write!(f, "{number}"),
            Value::Text(text) => write!(f, "'{}'", text.replace('\'', "''")),
            Value::Bool(is_so) => write!(f, "{is_so}"),
        }
    }
}

macro_rules! value_from {
    ($($from:ty => $variant:ident),* $(,)?) => {
        $(impl From<$from> for Value {
            fn from(value: $from) -> Value {
                Value::$variant(value.into())
            }
        })*
    };
}

value_from! {
    i64 => Int, i32 => Int, i16 => Int, i8 => Int, u32 => Int, u16 => Int, u8 => Int,
    String => Text, &str => Text, &String => Text, bool => Bool,
}

/// `None` is [`Value::Null`].
impl<T: Into<Value>> From<Option<T>> for Value {
    fn from(value: Option<T>) -> Value {
        value.map_or(Value::Null, Into::into)
    }
}

/// A row's primary key: one value, or a tuple, an array or a vector of 1 to 4.
///
/// ```
/// use cagzhomul::{Key, Value};
///
/// assert_eq!(Key::from(1), Key::from(vec![Value::Int(1)]));
/// assert_eq!(Key::from(("Ulm", 1)), Key::from([Value::from("Ulm"), Value::from(1)]));
/// ```
#[derive(Debug, Clone, PartialEq, Eq, PartialOrd, Ord, Hash)]
pub struct Key(pub(crate) Vec<Value>);

macro_rules! key_from {
    ($($from:ty),*) => {
        $(impl From<$from> for Key {
            fn from(value: $from) -> Key {
                Key(vec![value.into()])
            }
        })*
    };
    ($($($part:ident)+;)*) => {
        $(impl<$($part: Into<Value>),+> From<($($part,)+)> for Key {
            #[allow(non_snake_case)]
            fn from(($($part,)+): ($($part,)+)) -> Key {
                Key(vec![$($part.into()),+])
            }
        })*
    };
}

key_from!(i64, i32, i16, i8, u32, u16, u8, String, &str, &String, bool, Value);
key_from!(A; A B; A B C; A B C D;);

impl<V: Into<Value>, const N: usize> From<[V; N]> for Key {
    fn from(values: [V; N]) -> Key {
        Key(values.into_iter().map(Into::into).collect())
    }
}

impl From<Vec<Value>> for Key {
    fn from(values: Vec<Value>) -> Key {
        Key(values)
    }
}

impl From<&[Value]> for Key {
    fn from(values: &[Value]) -> Key {
        Key(values.to_vec())
    }
}

/// A row by its table and its primary key. Its text is as the script language names it: `people (1)`.
///
/// ```
/// use cagzhomul::RowKey;
///
/// let row = RowKey::new("people", (1, "L'Aquila"));
/// assert_eq!(row.to_string(), "people (1, 'L''Aquila')");
/// ```
#[derive(Debug, Clone, PartialEq, Eq, PartialOrd, Ord, Hash)]
pub struct RowKey {
    /// The name of its table.
    pub table: String,
    /// Its primary key.
    pub key: Key,
}

impl RowKey {
    /// The row of this key in a table.
    pub fn new(table: impl Into<String>, key: impl Into<Key>) -> RowKey {
        let (table, key) = (table.into(), key.into());
        RowKey { table, key }
    }
}

impl fmt::Display for RowKey {
    fn fmt(&self, f: &mut fmt::Formatter<'_>) -> fmt::Result {
        let values: Vec<String> = self.key.0.iter().map(Value::to_string).collect();
        write!(f, "{} ({})", self.table, values.join(", "))
    }
}

/// The cells of an operation: columns by name with their values, as an array or a vector of pairs;
/// `()` is none.
///
/// ```
/// use cagzhomul::{Cells, Value};
///
/// let same = Cells::from([("town", "Ulm")]);
/// assert_eq!(same, Cells::from(vec![("town", Value::from("Ulm"))]));
/// let mixed = Cells::from([("town", Value::from("Ulm")), ("age", Value::from(33))]);
/// assert_ne!(mixed, Cells::from(()));
/// ```
#[derive(Debug, Clone, PartialEq, Eq, Default)]
pub struct Cells<'a>(pub(crate) Vec<(&'a str, Value)>);

impl From<()> for Cells<'_> {
    fn from((): ()) -> Self {
        Cells::default()
    }
}

impl<'a, V: Into<Value>, const N: usize> From<[(&'a str, V); N]> for Cells<'a> {
    fn from(cells: [(&'a str, V); N]) -> Self {
        cells.into_iter().collect()
    }
}

impl<'a, V: Into<Value>> From<Vec<(&'a str, V)>> for Cells<'a> {
    fn from(cells: Vec<(&'a str, V)>) -> Self {
        cells.into_iter().collect()
    }
}

impl<'a, V: Into<Value>> FromIterator<(&'a str, V)> for Cells<'a> {
    fn from_iter<I: IntoIterator<Item = (&'a str, V)>>(cells: I) -> Self {
        Cells(
            cells
                .into_iter()
                .map(|(column, value)| (column, value.into()))
                .collect(),
        )
    }
}
