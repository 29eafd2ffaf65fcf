//! Queries of a database over a store.

use crate::error::Error;
use crate::layer::codes::{pairs_code, pairs_of};
use crate::layer::database::Layer;
use crate::layer::ffi::{self, Fault};
use crate::layer::server::Version;
use crate::layer::store::{read, Pair, Range, Store};
use crate::query::Query;
use crate::rows::{rows_of, Row};
use std::collections::BTreeMap;

/// What stands at the beginning of the key of an index's pair.
const INDEX: &[u8] = b"X";
/// What `ffi::ranges` answers of a query that goes over a part of an index.
const PART_OF_INDEX: u64 = 1;

type Pairs = BTreeMap<Vec<u8>, Vec<u8>>;

impl<S: Store> Layer<S> {
    /// The rows of a query, at one moment, by rising primary key.
    ///
    /// Refusals: [`Error::NoTable`]; of the first faulty column or condition [`Error::NotPublic`] or
    /// [`Error::WrongType`], but a text that is too long is [`Error::WrongType`] before all;
    /// [`Error::TooManyPairs`]; [`Error::OutOfMemory`]; [`Error::Store`], as reads of the store have it.
    ///
    /// ```
    /// # use cagzhomul::layer::{Layer, MemoryStore};
    /// # use cagzhomul::{Error, Query, Table, Type};
    /// # let people = Table::new("people").key("id", Type::Int).column("age", Type::Int);
    /// # let db = Layer::open(MemoryStore::new(), [people])?;
    /// for (id, age) in [(1, 17), (2, 18), (3, 19)] {
    ///     db.insert("people", id, [("age", age)])?;
    /// }
    /// let adults = Query::of("people").between("age", Some(18), None);
    /// assert_eq!(db.query(&adults)?.len(), 2);
    /// assert_eq!(db.limit(5).query(&adults), Err(Error::TooManyPairs { limit: 5 }));
    /// # Ok::<(), Error>(())
    /// ```
    pub fn query(&self, query: &Query) -> Result<Vec<Row>, Error> {
        loop {
            let version = self.server.version();
            match self.rows(&version, query) {
                Ok(Some(rows)) => return Ok(rows),
                Ok(None) => drop(self.server.refresh(&version)?),
                // a column may have come, or gone, in a newer version
                Err(Fault::Refused(refusal)) => {
                    if !self.server.refresh(&version)? {
                        let (status, column) = (refusal.status, refusal.column);
                        return Err(query.refusal(&version.names, status, column));
                    }
                }
                Err(Fault::Error(error)) => return Err(error),
            }
        }
    }

    /// The rows of a query under a version; `None` if that is closed, or the index changed between two
    /// reads.
    fn rows(&self, version: &Version, query: &Query) -> Result<Option<Vec<Row>>, Fault> {
        let (record, code) = (&version.record, query.code(&version.names));
        let first = ffi::ranges(record, code.as_bytes())?;
        let mut ranges = pairs_of(first.code())?;
        let Some(mut pairs) = self.pairs(version, &ranges)? else {
            return Ok(None);
        };
        if first.number == PART_OF_INDEX {
            // the index's part is read again with its rows, so that all are of one moment
            let part = pairs_code(&pairs);
            let rows = ffi::row_ranges(record, code.as_bytes(), part.as_bytes())?;
            ranges.extend(pairs_of(rows.code())?);
            let Some(all) = self.pairs(version, &ranges)? else {
                return Ok(None);
            };
            if !of_index(&pairs).eq(of_index(&all)) {
                return Ok(None);
            }
            pairs = all;
        }
        let rows = ffi::rows(record, code.as_bytes(), pairs_code(&pairs).as_bytes())?;
        let selected = query.selected(&version.names);
        Ok(Some(rows_of(rows.code(), &selected, &version.names)?))
    }

    /// All pairs of these ranges, of one moment; `None` if the version was closed by then.
    fn pairs(&self, version: &Version, ranges: &[Pair]) -> Result<Option<Pairs>, Error> {
        let limit = self.limit;
        if ranges.len() > limit.saturating_add(1) {
            return Err(Error::TooManyPairs { limit });
        }
        let range = |(low, high): &Pair| Range::new(low, high, limit.saturating_add(1));
        let wanted: Vec<Range> = ranges.iter().map(range).collect();
        let found = read(&self.server.store, &[version.key()], &wanted)?;
        if found.values.values().next() != Some(&Some(version.record.clone())) {
            return Ok(None);
        }
        let mut ends = found.pages.iter().zip(&wanted);
        if ends.any(|(page, range)| page.end != range.high) {
            return Err(Error::TooManyPairs { limit });
        }
        Ok(Some(
            found
                .pages
                .into_iter()
                .flat_map(|page| page.pairs)
                .collect(),
        ))
    }
}

/// The pairs of an index.
fn of_index(pairs: &Pairs) -> impl Iterator<Item = (&Vec<u8>, &Vec<u8>)> {
    pairs.iter().filter(|(key, _)| key.starts_with(INDEX))
}
