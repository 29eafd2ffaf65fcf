//! What the tests share.

use cagzhomul::Type::{Int, Text};
use cagzhomul::{Db, Error, Step, Table};
use std::cell::Cell;

/// The table of people, with their towns.
pub fn table() -> Table {
    Table::new("people").key("id", Int).column("town", Text)
}

/// A store of people.
pub fn people() -> Db {
    Db::open([table()]).unwrap()
}

/// Takes the steps of a change, and sets the clock forward at each wait.
#[allow(dead_code)] // not all tests make changes
pub fn drive(db: &Db, change: &str, now: &Cell<u64>) -> Result<Vec<Step>, Error> {
    db.change(change, || now.get())?
        .inspect(|step| {
            if let Ok(Step::Waiting { until }) = step {
                now.set(*until);
            }
        })
        .collect()
}

/// The error without the value, or the declaration, that it is for.
#[allow(dead_code)] // not all tests look at refusals
pub fn plain(error: Error) -> Error {
    match error {
        Error::WrongType(_) => Error::WrongType(None),
        Error::BadTable(_) => Error::BadTable(None),
        other => other,
    }
}
