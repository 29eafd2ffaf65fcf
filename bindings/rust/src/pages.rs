//! Queries that are read page by page.

use crate::error::Error;
use crate::fetch::bytes_of;
use crate::ffi::{self, BytesHandle, Paged};
use crate::names::Names;
use crate::query::Query;
use crate::rows::{rows_of, Row};
use crate::snapshot::Snapshot;
use crate::value::Key;

/// The rows after a key and before another. A key is a whole primary key; no row has to have it.
///
/// ```
/// use cagzhomul::KeyRange;
///
/// let range = KeyRange::all().after((1, "Ulm")).before((7, "Bonn"));
/// assert_ne!(range, KeyRange::default());
/// ```
#[derive(Debug, Clone, Default, PartialEq, Eq)]
#[must_use]
pub struct KeyRange {
    pub(crate) after: Option<Key>,
    pub(crate) before: Option<Key>,
}

impl KeyRange {
    /// All rows.
    pub fn all() -> KeyRange {
        KeyRange::default()
    }

    /// Only the rows whose key is above this one.
    pub fn after(mut self, key: impl Into<Key>) -> KeyRange {
        self.after = Some(key.into());
        self
    }

    /// Only the rows whose key is below this one.
    pub fn before(mut self, key: impl Into<Key>) -> KeyRange {
        self.before = Some(key.into());
        self
    }
}

/// A page of the rows of a query.
#[derive(Debug, Clone, PartialEq, Eq)]
pub struct Page {
    /// The rows, by rising primary key. The next page comes after the key of the last.
    pub rows: Vec<Row>,
    /// Whether the range has further rows that the query asks for.
    pub more: bool,
}

/// Pages of a snapshot, by [`Snapshot::pages`].
#[must_use]
pub struct Pages<'a> {
    snapshot: &'a Snapshot,
    query: &'a Query,
    /// What is left to ask for; `None` after the last page or a refusal.
    range: Option<KeyRange>,
    size: u32,
}

impl<'a> Pages<'a> {
    pub(crate) fn of(
        snapshot: &'a Snapshot,
        query: &'a Query,
        range: KeyRange,
        size: u32,
    ) -> Pages<'a> {
        let range = Some(range);
        Pages {
            snapshot,
            query,
            range,
            size,
        }
    }
}

impl Iterator for Pages<'_> {
    type Item = Result<Vec<Row>, Error>;

    fn next(&mut self) -> Option<Self::Item> {
        let range = self.range.take()?;
        let page = match self.snapshot.page(self.query, &range, self.size) {
            Ok(page) => page,
            Err(error) => return Some(Err(error)),
        };
        self.range = match page.rows.last() {
            Some(row) if page.more => Some(range.after(row.key())),
            _ => None,
        };
        Some(Ok(page.rows))
    }
}

/// A page of a query, by a call that answers the code of its request into a closed handle, or is
/// refused.
pub(crate) fn find_page(
    query: &Query,
    range: &KeyRange,
    limit: u32,
    names: &Names,
    ask: impl FnOnce(&[u8], &mut BytesHandle) -> Result<Paged, Error>,
) -> Result<Page, Error> {
    let mut rows = BytesHandle::closed();
    let paged = ask(query.request(range, limit, names).as_bytes(), &mut rows)?;
    match paged.status {
        ffi::OK => {
            let code = bytes_of(&mut rows)?;
            let rows = rows_of(&code, &query.selected(names), names)?;
            let more = paged.more == 1;
            Ok(Page { rows, more })
        }
        status => Err(query.refusal_in(range, names, status, paged.column)),
    }
}
