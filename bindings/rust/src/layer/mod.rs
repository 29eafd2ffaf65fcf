//! The engine over a store of your own: etcd, PostgreSQL, an SQLite file, or whatever compares and
//! writes in one atomic transaction.
//!
//! Servers keep nothing but the newest version's record, so any number of processes may write over one
//! store while its schema changes. `docs/LAYER.md` has the whole.
//!
//! A program implements [`Store`] for what it has, a page of code, and opens a [`Layer`] over it:
//!
//! ```
//! use cagzhomul::layer::{Layer, MemoryStore};
//! use cagzhomul::Type::{Int, Text};
//! use cagzhomul::{Query, SchemaChange, Table};
//!
//! # fn main() -> Result<(), cagzhomul::Error> {
//! let store = MemoryStore::new();
//! let people = || Table::new("people").key("id", Int).column("town", Text);
//! let (db, other) = (Layer::open(&store, [people()])?, Layer::open(&store, [people()])?);
//! let mut id = 0;
//! for act in db.change(&[SchemaChange::add_index("people", "by_town", ["town"])])? {
//!     act?;
//!     id += 1;
//!     other.insert("people", id, [("town", "Ulm")])?; // servers go on between any two acts
//! }
//! let of_ulm = Query::of("people").equal("town", "Ulm");
//! assert_eq!(other.query(&of_ulm)?.len(), id as usize);
//! # Ok(())
//! # }
//! ```

mod acts;
mod chance;
mod checks;
mod codes;
mod database;
mod divisions;
mod draft;
mod ffi;
mod memory;
mod operator;
mod ops;
mod queries;
mod records;
mod server;
#[cfg(feature = "sqlite")]
mod sqlite;
mod store;
mod txn;

pub use acts::{Act, Acts};
pub use chance::Mark;
pub use database::{Layer, DEFAULT_LIMIT, DEFAULT_PATIENCE};
pub use draft::{ComparedRange, Draft};
pub use memory::MemoryStore;
#[cfg(feature = "sqlite")]
pub use sqlite::SqliteStore;
pub use store::{Answer, Page, Pair, Range, Store, StoreError, Values};
pub use txn::Txn;
