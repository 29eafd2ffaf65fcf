//! The names of tables, columns and indexes, with their numbers in one version.

use crate::error::Error;
use crate::rows::Reader;
use crate::schema::{self, Schema, SchemaKind};
use crate::table::Type;
use crate::value::{RowKey, Value};

/// A name in a call that its table does not have.
#[derive(Debug, Clone, PartialEq, Eq)]
pub(crate) struct Unknown {
    column: String,
    /// Whether it is that of a key column.
    is_key: bool,
}

/// The names of one version, by its schema, so they are right whoever published it.
#[derive(Debug)]
pub(crate) struct Names {
    version: u64,
    schema: Schema,
    /// The schema's code.
    code: Vec<u8>,
}

impl Names {
    /// The names of this version, by the code of its schema. Its number is 0 if no lease is on it yet.
    pub(crate) fn read(version: u64, code: Vec<u8>) -> Result<Names, Error> {
        let schema = schema::read(&code)?;
        Ok(Names {
            version,
            schema,
            code,
        })
    }

    /// The names of a schema that has no code.
    #[cfg(test)]
    pub(crate) fn new(version: u64, schema: Schema) -> Names {
        Names {
            version,
            schema,
            code: Vec::new(),
        }
    }

    /// The code of its schema.
    pub(crate) fn code(&self) -> &[u8] {
        &self.code
    }

    /// The version whose names these are.
    pub(crate) fn version(&self) -> u64 {
        self.version
    }

    /// Its schema.
    pub(crate) fn schema(&self) -> &Schema {
        &self.schema
    }

    /// The number of a table, or 0, which is none.
    pub(crate) fn table(&self, name: &str) -> u32 {
        let found = self.schema.tables.iter().find(|table| table.name == name);
        found.map_or(0, |table| table.number)
    }

    /// The name of the table of this number.
    pub(crate) fn table_of(&self, number: u32) -> Option<&str> {
        let mut tables = self.schema.tables.iter();
        Some(&tables.find(|table| table.number == number)?.name)
    }

    /// The key columns of a table, with their types.
    pub(crate) fn key(&self, table: &str) -> &[(String, Type)] {
        let found = self.schema.tables.iter().find(|it| it.name == table);
        found.map_or(&[], |it| &it.key)
    }

    /// The type of a column of a table that is not of its key.
    pub(crate) fn type_of(&self, table: &str, column: &str) -> Option<Type> {
        let mut elements = self.schema.elements.iter();
        match elements
            .find(|it| it.name == column && it.table == table)?
            .what
        {
            SchemaKind::Column { kind, .. } => Some(kind),
            SchemaKind::Index { .. } => None,
        }
    }

    /// The number of a column or an index of a table, or 0, which is none.
    pub(crate) fn element(&self, table: &str, name: &str) -> u32 {
        let mut elements = self.schema.elements.iter();
        let found = elements.find(|element| element.name == name && element.table == table);
        found.map_or(0, |element| element.number)
    }

    /// The numbers of a table's public columns.
    pub(crate) fn public<'a>(&'a self, table: &'a str) -> impl Iterator<Item = u32> + 'a {
        let elements = self.schema.elements.iter();
        elements
            .filter(move |element| element.table == table && element.is_public_column())
            .map(|element| element.number)
    }

    /// The name of the column or the index of this number.
    pub(crate) fn name_of(&self, number: u32) -> Option<&str> {
        let mut elements = self.schema.elements.iter();
        Some(&elements.find(|element| element.number == number)?.name)
    }

    /// The first of these names that the table does not have.
    pub(crate) fn unknown<'c>(
        &self,
        table: &str,
        mut columns: impl Iterator<Item = &'c str>,
    ) -> Option<Unknown> {
        let column = columns.find(|column| self.element(table, column) == 0)?;
        let mut tables = self.schema.tables.iter();
        let keys = tables.find(|it| it.name == table).map(|it| &it.key);
        Some(Unknown {
            column: column.to_string(),
            is_key: keys.is_some_and(|keys| keys.iter().any(|key| key.0 == column)),
        })
    }

    /// Why a call was refused that names the column or the index of this number, which is not a public
    /// column; with 0 it is `unknown`, the first name in the call that its table does not have.
    pub(crate) fn not_public(&self, number: u32, unknown: Option<Unknown>) -> Error {
        match (number, unknown) {
            (0, Some(Unknown { column, is_key })) => Error::NotPublic {
                column: Some(column),
                is_key,
            },
            _ => Error::NotPublic {
                column: self.name_of(number).map(str::to_string),
                is_key: false,
            },
        }
    }

    /// The row of whose pairs one has this key, as it is stored: `R`, the row's table, the values of its
    /// key, and the pair's column or 0. `None` if it is the key of no such pair.
    pub(crate) fn row_of(&self, pair: &[u8]) -> Option<RowKey> {
        let mut rest = Reader(pair);
        (rest.byte()? == b'R').then_some(())?;
        let number = rest.small_number()?;
        let table = self.schema.tables.iter().find(|it| it.number == number)?;
        let key: Option<Vec<Value>> = table.key.iter().map(|_| rest.value()).collect();
        let row = RowKey::new(&table.name, key?);
        rest.small_number()?;
        rest.0.is_empty().then_some(row)
    }
}

#[cfg(test)]
mod tests {
    use super::*;
    use crate::plan::State;
    use crate::schema::SchemaElement;

    /// t with the public columns 1 and 2 and the column 3, which is only deleted, and u with the index 4.
    fn names() -> Names {
        let mut schema = Schema::of(&["t", "u"], &["a", "b", "c"]);
        schema.elements[2].state = State::DeleteOnly;
        schema.elements.push(SchemaElement {
            number: 4,
            table: "u".to_string(),
            name: "i".to_string(),
            what: SchemaKind::Index {
                columns: Vec::new(),
            },
            state: State::Public,
            is_dropped: false,
        });
        Names::new(2, schema)
    }

    #[test]
    fn names_have_their_numbers() {
        let names = names();
        assert_eq!((names.version(), names.schema().tables.len()), (2, 2));
        assert_eq!(["t", "u", "v"].map(|name| names.table(name)), [1, 2, 0]);
        assert_eq!(
            [1, 2, 0, 3].map(|number| names.table_of(number)),
            [Some("t"), Some("u"), None, None]
        );
        assert_eq!((names.element("t", "c"), names.element("u", "a")), (3, 0));
        assert_eq!((names.element("u", "i"), names.element("v", "i")), (4, 0));
        assert_eq!((names.name_of(4), names.name_of(0)), (Some("i"), None));
    }

    #[test]
    fn a_name_that_is_a_key_column_is_said_to_be_one() {
        let names = names();
        let refused = |columns: &[&'static str]| {
            names.not_public(0, names.unknown("t", columns.iter().copied()))
        };
        let not_public = |column: Option<&str>, is_key| Error::NotPublic {
            column: column.map(str::to_string),
            is_key,
        };
        assert_eq!(refused(&["a", "id", "x"]), not_public(Some("id"), true));
        assert_eq!(refused(&["a", "x", "id"]), not_public(Some("x"), false));
        assert_eq!(refused(&["a"]), not_public(None, false));
        let hidden = names.unknown("t", ["c"].into_iter());
        assert_eq!(names.not_public(3, hidden), not_public(Some("c"), false));
    }

    #[test]
    fn rows_are_found_by_the_keys_of_their_pairs() {
        let names = names();
        let pair = |table, column| {
            [
                b"R\0\0\0",
                &[table][..],
                b"\x02\x80\0\0\0\0\0\0\x07\0\0\0",
                &[column],
            ]
            .concat()
        };
        assert_eq!(names.row_of(&pair(1, 0)), Some(RowKey::new("t", 7)));
        assert_eq!(names.row_of(&pair(2, 9)), Some(RowKey::new("u", 7)));
        assert_eq!(names.row_of(&pair(3, 0)), None);
        let whole = pair(1, 1);
        let others = (0..whole.len()).map(|end| whole[..end].to_vec());
        for other in others.chain([[&whole[..], b"\0"].concat(), [b"X", &whole[1..]].concat()]) {
            assert_eq!(names.row_of(&other), None, "{other:?}");
        }
    }

    #[test]
    fn only_columns_that_are_public_are() {
        let names = names();
        assert_eq!(
            ["t", "u", "v"].map(|table| names.public(table).collect::<Vec<_>>()),
            [vec![1, 2], vec![], vec![]]
        );
    }
}
