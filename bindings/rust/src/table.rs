//! Tables as they are declared.

/// The type of a column.
#[derive(Debug, Clone, Copy, PartialEq, Eq, Hash)]
pub enum Type {
    /// Integers of 64 bits.
    Int,
    /// Texts.
    Text,
    /// Truth values.
    Bool,
}

impl Type {
    pub(crate) const ALL: [Type; 3] = [Type::Int, Type::Text, Type::Bool];

    /// Its word in the script language.
    pub(crate) fn word(self) -> &'static str {
        match self {
            Type::Int => "int",
            Type::Text => "text",
            Type::Bool => "bool",
        }
    }
}

/// A table to open a [`Db`](crate::Db) with. Its columns and indexes are public at once.
///
/// It has 1 to 4 key columns, and at most 32 others and 16 indexes of 1 to 4 of these columns.
/// A name is an ASCII letter and then letters, digits and `_`, at most 32 bytes; a table's columns
/// and indexes have different names. [`Db::open`](crate::Db::open) refuses all else.
///
/// ```
/// use cagzhomul::Table;
/// use cagzhomul::Type::{Int, Text};
///
/// let people = Table::new("people")
///     .key("id", Int)
///     .column("town", Text)
///     .index("by_town", ["town"]);
/// ```
#[derive(Debug, Clone, PartialEq, Eq)]
#[must_use]
pub struct Table {
    pub(crate) name: String,
    pub(crate) key: Vec<(String, Type)>,
    pub(crate) columns: Vec<(String, Type)>,
    pub(crate) indexes: Vec<(String, Vec<String>)>,
}

impl Table {
    /// A table of this name, without columns yet.
    pub fn new(name: impl Into<String>) -> Table {
        Table {
            name: name.into(),
            key: Vec::new(),
            columns: Vec::new(),
            indexes: Vec::new(),
        }
    }

    /// Adds a column to the primary key, after those that it has.
    pub fn key(mut self, name: impl Into<String>, kind: Type) -> Table {
        self.key.push((name.into(), kind));
        self
    }

    /// Adds a column outside the key. Its values may be null.
    pub fn column(mut self, name: impl Into<String>, kind: Type) -> Table {
        self.columns.push((name.into(), kind));
        self
    }

    /// Adds an index on columns outside the key, by name and in this order.
    pub fn index<C: Into<String>>(
        mut self,
        name: impl Into<String>,
        columns: impl IntoIterator<Item = C>,
    ) -> Table {
        let columns = columns.into_iter().map(Into::into).collect();
        self.indexes.push((name.into(), columns));
        self
    }
}
