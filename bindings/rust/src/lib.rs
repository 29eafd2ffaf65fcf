//! Cagzhomul: a store in memory whose indexes and columns come and go while transactions run.
//!
//! Transactions run under a [`Lease`] on a schema version, which a store takes and renews by itself for
//! [`Db::run`], [`Db::write`] and [`Db::query`]. While a [`Change`] goes from version to version, threads
//! with older leases go on writing, and no index loses a row:
//!
//! ```
//! use cagzhomul::Type::{Int, Text};
//! use cagzhomul::{Db, Query, Table};
//!
//! # fn main() -> Result<(), cagzhomul::Error> {
//! let people = Table::new("people").key("id", Int).column("town", Text);
//! let db = Db::with_lease_length(20, [people])?; // of 20 milliseconds
//! let clock = db.clock()?;
//! let mut id = 0;
//! for step in db.change("add index by_town on people (town)", || clock.now())? {
//!     step?;
//!     id += 1;
//!     db.write(|txn| txn.insert("people", id, [("town", "Ulm")]))?;
//! }
//! let rows = db.query(clock.now(), Query::of("people").equal("town", "Ulm"))?;
//! assert_eq!(rows.len(), id as usize);
//! assert!(db.check()?.is_clean());
//! # Ok(())
//! # }
//! ```
//!
//! A [`Db`] has its rows in memory; over a store of your own, as an SQLite file, there is [`layer`].
//!
//! The engine is proved; this crate, which calls it through `include/cagzhomul.h`, is tested.
//! `CAGZHOMUL_LIBRARY_DIR` names the folder with the library when the crate is built.

#![deny(missing_docs)]
#![deny(unsafe_code)]

mod advance;
mod answers;
mod change;
mod clock;
mod code;
mod course;
mod db;
mod declarations;
mod error;
mod exports;
mod faults;
mod fetch;
mod ffi;
mod kept;
pub mod layer;
mod lease;
mod library;
mod log;
mod names;
mod open;
mod operations;
mod pages;
mod piece;
mod plan;
mod prepared;
mod query;
mod reads;
mod records;
mod rows;
mod runs;
mod schema;
mod session;
mod snapshot;
mod steps;
mod table;
mod tokens;
mod txn;
mod value;
mod wanted;
mod words;

pub use advance::{Due, Step};
pub use change::Change;
pub use clock::Clock;
pub use course::{NotCompleted, Report, Work};
pub use db::{Db, DEFAULT_KEEP, DEFAULT_LEASE_LENGTH};
pub use declarations::{BadDeclaration, TableCause};
pub use error::Error;
pub use faults::{ValueCause, WrongValue};
pub use lease::Lease;
pub use log::{has_digest, recover, LogError, LogFile};
pub use open::OpenOptions;
pub use pages::{KeyRange, Page, Pages};
pub use piece::{Piece, PreparedPiece, Progress, Worked};
pub use plan::{Entering, Move, PlannedStep, Reorganisation, SchemaChange, State};
pub use prepared::{Prepared, Receipt};
pub use query::Query;
pub use rows::Row;
pub use runs::{retry, Attempt, Runs};
pub use schema::{Schema, SchemaElement, SchemaKind, SchemaTable};
pub use session::Session;
pub use snapshot::{Check, Snapshot};
pub use table::{Table, Type};
pub use txn::Txn;
pub use value::{Cells, Key, RowKey, Value};
pub use wanted::Wanted;
pub use words::BadWords;
