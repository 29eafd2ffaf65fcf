//! Versions of the schema, and their code as `crates/entry_code` describes it.

use crate::error::Error;
use crate::fetch::bytes_given;
use crate::ffi::BytesHandle;
use crate::plan::{Entering, State};
use crate::rows::Reader;
use crate::steps::{entering, kind, name, state};
use crate::table::Type;
use crate::value::Value;

/// The first byte of a code.
const VERSION: u8 = 1;

/// A version of the schema: [`Session::schema`](crate::Session::schema) gives the newest one, and
/// [`Lease::schema`](crate::Lease::schema) that of the lease.
#[derive(Debug, Clone, PartialEq, Eq)]
pub struct Schema {
    /// Its tables by rising number.
    pub tables: Vec<SchemaTable>,
    /// Its indexes and columns by rising number.
    pub elements: Vec<SchemaElement>,
    /// The number of the element that enters next.
    pub next: u32,
}

/// A table of a schema. Tables never change.
#[derive(Debug, Clone, PartialEq, Eq)]
pub struct SchemaTable {
    /// The number that codes name it by, from 1 on.
    pub number: u32,
    /// Its name.
    pub name: String,
    /// Its key columns in their order, by name with their types.
    pub key: Vec<(String, Type)>,
}

/// An index or a column of a schema. One that is absent is in no schema.
#[derive(Debug, Clone, PartialEq, Eq)]
pub struct SchemaElement {
    /// Its number, which never comes back.
    pub number: u32,
    /// The name of its table.
    pub table: String,
    /// Its name.
    pub name: String,
    /// What it is.
    pub what: SchemaKind,
    /// How far it is: transactions read what is public alone.
    pub state: State,
    /// Whether it is on its way out.
    pub is_dropped: bool,
}

impl SchemaElement {
    /// Whether transactions under the version read this column, and write it.
    pub(crate) fn is_public_column(&self) -> bool {
        self.state == State::Public && matches!(self.what, SchemaKind::Column { .. })
    }
}

/// What an element of a schema is.
#[derive(Debug, Clone, PartialEq, Eq)]
pub enum SchemaKind {
    /// An index.
    Index {
        /// The columns of its table that it is on, by name and in this order.
        columns: Vec<String>,
    },
    /// A column outside the key.
    Column {
        /// The type of its values.
        kind: Type,
        /// What a row has that has no value in it; no value if it is `None`.
        default: Option<Value>,
    },
}

/// The version whose code this call gives, of a world or of a lease, into a closed handle.
pub(crate) fn schema_of(call: impl FnOnce(&mut BytesHandle) -> i32) -> Result<Schema, Error> {
    read(&bytes_given(call)?)
}

/// The schema of a version's code.
pub(crate) fn read(code: &[u8]) -> Result<Schema, Error> {
    let unknown = || Error::Reply("a schema in another code".to_string());
    schema(&mut Reader(code)).ok_or_else(unknown)
}

fn schema(reader: &mut Reader<'_>) -> Option<Schema> {
    (reader.byte()? == VERSION).then_some(())?;
    let tables = (1..).zip(reader.list(table)?);
    let tables: Vec<SchemaTable> = tables
        .map(|(number, (name, key))| SchemaTable { number, name, key })
        .collect();
    let parts = reader.list(part)?;
    let next = reader.small_number()?;
    let elements = parts.iter().map(|it| element(it, &tables, &parts));
    let elements = elements.collect::<Option<_>>()?;
    let schema = Schema {
        tables,
        elements,
        next,
    };
    reader.0.is_empty().then_some(schema)
}

/// A table's name and its key columns.
fn table(reader: &mut Reader<'_>) -> Option<(String, Vec<(String, Type)>)> {
    let key = |it: &mut Reader<'_>| Some((name(it)?, kind(it)?));
    Some((name(reader)?, reader.list(key)?))
}

/// An element as its code has it: other elements and its table by their numbers.
pub(crate) struct Part {
    number: u32,
    table: u32,
    name: String,
    what: Entering,
    state: State,
    is_dropped: bool,
}

pub(crate) fn part(reader: &mut Reader<'_>) -> Option<Part> {
    Some(Part {
        number: reader.small_number()?,
        table: reader.small_number()?,
        name: name(reader)?,
        what: entering(reader)?,
        state: state(reader)?,
        is_dropped: match reader.byte()? {
            0 => false,
            1 => true,
            _ => return None,
        },
    })
}

/// The element, with the names of what its part has by number.
fn element(part: &Part, tables: &[SchemaTable], parts: &[Part]) -> Option<SchemaElement> {
    let column = |number: &u32| {
        let found = parts.iter().find(|it| it.number == *number)?;
        Some(found.name.clone())
    };
    let what = match &part.what {
        Entering::Index { columns } => SchemaKind::Index {
            columns: columns.iter().map(column).collect::<Option<_>>()?,
        },
        Entering::Column { kind, default } => SchemaKind::Column {
            kind: *kind,
            default: default.clone(),
        },
    };
    let table = tables.iter().find(|it| it.number == part.table)?;
    Some(SchemaElement {
        number: part.number,
        table: table.name.clone(),
        name: part.name.clone(),
        what,
        state: part.state,
        is_dropped: part.is_dropped,
    })
}

#[cfg(test)]
impl Schema {
    /// Tables of these names, with the key id int, and in the first one public columns of text, with the
    /// numbers from 1 on.
    pub(crate) fn of(tables: &[&str], columns: &[&str]) -> Schema {
        let table = |(number, name): (u32, &&str)| SchemaTable {
            number,
            name: name.to_string(),
            key: vec![("id".to_string(), Type::Int)],
        };
        let column = |(number, name): (u32, &&str)| SchemaElement {
            number,
            table: tables[0].to_string(),
            name: name.to_string(),
            what: SchemaKind::Column {
                kind: Type::Text,
                default: None,
            },
            state: State::Public,
            is_dropped: false,
        };
        Schema {
            tables: (1..).zip(tables).map(table).collect(),
            elements: (1..).zip(columns).map(column).collect(),
            next: 1 + columns.len() as u32,
        }
    }
}

#[cfg(test)]
mod tests {
    use super::*;

    /// t (id int, n text) and u (b bool) by hand: of t column 1 is text, 3 an int with the default 7
    /// that is on its way out, and 4 an index over both, only written; 6 would be the next.
    const CODE: &[u8] = b"\x01\0\0\0\0\0\0\0\x02\
        \0\0\0\0\0\0\0\x01t\0\0\0\0\0\0\0\x02\0\0\0\0\0\0\0\x02id\0\0\0\0\0\0\0\0\x01n\x01\
        \0\0\0\0\0\0\0\x01u\0\0\0\0\0\0\0\x01\0\0\0\0\0\0\0\x01b\x02\
        \0\0\0\0\0\0\0\x03\
        \0\0\0\x01\0\0\0\x01\0\0\0\0\0\0\0\x01a\x01\x01\x03\0\
        \0\0\0\x03\0\0\0\x01\0\0\0\0\0\0\0\x01c\x02\0\x02\x80\0\0\0\0\0\0\x07\x01\x01\
        \0\0\0\x04\0\0\0\x01\0\0\0\0\0\0\0\x01i\0\0\0\0\0\0\0\0\x02\0\0\0\x03\0\0\0\x01\x02\0\
        \0\0\0\x06";

    fn element(number: u32, name: &str, what: SchemaKind, state: State) -> SchemaElement {
        SchemaElement {
            number,
            table: "t".to_string(),
            name: name.to_string(),
            what,
            state,
            is_dropped: state == State::DeleteOnly,
        }
    }

    #[test]
    fn a_schema_is_read_with_every_kind_of_element() {
        let schema = read(CODE).unwrap();
        let key = |number, name: &str, key: &[(&str, Type)]| SchemaTable {
            number,
            name: name.to_string(),
            key: key.iter().map(|it| (it.0.to_string(), it.1)).collect(),
        };
        let tables = [
            key(1, "t", &[("id", Type::Int), ("n", Type::Text)]),
            key(2, "u", &[("b", Type::Bool)]),
        ];
        let column = |kind, default| SchemaKind::Column { kind, default };
        let columns = vec!["c".to_string(), "a".to_string()];
        let elements = [
            element(1, "a", column(Type::Text, None), State::Public),
            element(3, "c", column(Type::Int, Some(7.into())), State::DeleteOnly),
            element(4, "i", SchemaKind::Index { columns }, State::WriteOnly),
        ];
        assert_eq!(
            (&schema.tables[..], &schema.elements[..], schema.next),
            (&tables[..], &elements[..], 6)
        );
        let public = schema.elements.iter().map(SchemaElement::is_public_column);
        assert_eq!(public.collect::<Vec<_>>(), [true, false, false]);
        let empty = b"\x01\0\0\0\0\0\0\0\0\0\0\0\0\0\0\0\0\0\0\0\x01";
        assert_eq!(read(empty), Ok(Schema::of(&[], &[])));
    }

    #[test]
    fn other_bytes_are_no_schema() {
        for end in 0..CODE.len() {
            assert!(read(&CODE[..end]).is_err(), "{end}");
        }
        assert!(read(&[CODE, b"\0"].concat()).is_err());
        // another version; no table 3, no column 9, no way 2
        let last = CODE.len() - 1;
        for (at, byte) in [(0, 2), (89, 3), (last - 6, 9), (last - 4, 2)] {
            let mut code = CODE.to_vec();
            code[at] = byte;
            assert!(read(&code).is_err(), "{at}");
        }
    }
}
