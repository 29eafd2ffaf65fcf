//! Why tables may not be declared. It is looked for after the refusal alone.

use crate::error::Error;
use crate::faults::name_what;
use crate::ffi;
use crate::table::Table;
use std::fmt;

/// A declaration that breaks a limit, or uses a name twice: what an [`Error::BadTable`] is for.
///
/// ```
/// # use cagzhomul::{Db, Error, Table, TableCause, Type};
/// let people = Table::new("people").key("id", Type::Int).index("by_town", ["town"]);
/// let Err(Error::BadTable(Some(bad))) = Db::open([people]) else {
///     panic!("there is no town");
/// };
/// let listed = "town".to_string();
/// assert_eq!((bad.name.as_deref(), &bad.cause), (Some("by_town"), &TableCause::NotAColumn { listed }));
/// let text = "people.by_town: the index has town, which is no column of the table outside its key";
/// assert_eq!(bad.to_string(), text);
/// ```
#[derive(Debug, Clone, PartialEq, Eq)]
#[non_exhaustive]
pub struct BadDeclaration {
    /// The table; `None` if there is none.
    pub table: Option<String>,
    /// The column or the index, if the cause means one.
    pub name: Option<String>,
    /// What is wrong with it.
    pub cause: TableCause,
}

/// Why a table may not be declared.
#[derive(Debug, Clone, PartialEq, Eq)]
#[non_exhaustive]
pub enum TableCause {
    /// No table is declared.
    NoTable,
    /// It is the 17th table, and there are at most 16.
    TooManyTables,
    /// Its name is none: 1 to 32 bytes, an ASCII letter and then letters, digits and underscores.
    TableName,
    /// A later table has the same name.
    TableTwice,
    /// Its key has no column, or more than 4.
    KeyLength,
    /// It has more than 32 columns besides its key.
    TooManyColumns,
    /// It has more than 16 indexes.
    TooManyIndexes,
    /// The name of a column or an index is none.
    Name,
    /// A later column or index of the table has the same name.
    NameTwice,
    /// An index is over no column, or more than 4.
    ListLength,
    /// An index has a column twice.
    ListedTwice {
        /// The column.
        listed: String,
    },
    /// An index has what is no column of the table outside its key.
    NotAColumn {
        /// Its name.
        listed: String,
    },
}

impl fmt::Display for BadDeclaration {
    fn fmt(&self, f: &mut fmt::Formatter<'_>) -> fmt::Result {
        name_what(f, [self.table.as_ref(), self.name.as_ref()])?;
        f.write_str(match &self.cause {
            TableCause::NoTable => "no table is declared",
            TableCause::TooManyTables => "more than 16 tables are declared",
            TableCause::TableName | TableCause::Name => {
                "it is no name: 1 to 32 bytes, an ASCII letter and then letters, digits and \
                 underscores"
            }
            TableCause::TableTwice => "two tables have this name",
            TableCause::KeyLength => "the key has no column, or more than 4",
            TableCause::TooManyColumns => "more than 32 columns besides the key",
            TableCause::TooManyIndexes => "more than 16 indexes",
            TableCause::NameTwice => "two columns or indexes of the table have this name",
            TableCause::ListLength => "the index is over no column, or more than 4",
            TableCause::ListedTwice { listed } => {
                return write!(f, "the index has the column {listed} twice");
            }
            TableCause::NotAColumn { listed } => {
                return write!(
                    f,
                    "the index has {listed}, which is no column of the table outside its key"
                );
            }
        })
    }
}

/// Why these tables may not be declared, whose opening has this code.
pub(crate) fn bad_table(opening: &[u8], tables: &[Table]) -> Error {
    Error::BadTable(bad_declaration(opening, tables).map(Box::new))
}

fn bad_declaration(opening: &[u8], tables: &[Table]) -> Option<BadDeclaration> {
    let fault = ffi::opening_fault(opening);
    if fault.status != ffi::OK || fault.cause == ffi::FAULT_NONE {
        return None;
    }
    let table = tables.get(fault.table);
    let index = || table?.indexes.get(fault.index);
    let listed = || index()?.1.get(fault.place).cloned();
    let cause = match fault.cause {
        1 => TableCause::NoTable,
        2 => TableCause::TooManyTables,
        3 => TableCause::TableName,
        4 => TableCause::TableTwice,
        5 => TableCause::KeyLength,
        6 => TableCause::TooManyColumns,
        7 => TableCause::TooManyIndexes,
        8 => TableCause::Name,
        9 => TableCause::NameTwice,
        10 => TableCause::ListLength,
        11 => TableCause::ListedTwice { listed: listed()? },
        12 => TableCause::NotAColumn { listed: listed()? },
        _ => return None,
    };
    let name = match fault.cause {
        8 | 9 => table.and_then(|it| {
            let columns = it.key.iter().chain(&it.columns).map(|it| &it.0);
            let mut names = columns.chain(it.indexes.iter().map(|it| &it.0));
            names.nth(fault.place).cloned()
        }),
        10.. => index().map(|it| it.0.clone()),
        _ => None,
    };
    Some(BadDeclaration {
        table: table.map(|it| it.name.clone()),
        name,
        cause,
    })
}
