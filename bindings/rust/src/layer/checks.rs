//! Checks of a database over a store, page by page.

use crate::error::Error;
use crate::layer::codes::{pairs_code, pairs_of, version_key, END, PAIRS};
use crate::layer::database::Layer;
use crate::layer::ffi;
use crate::layer::server::{refused, versions_of};
use crate::layer::store::{read, Pair, Range, Store};
use crate::snapshot::Check;
use std::collections::{BTreeMap, BTreeSet};

/// How many pairs a page has at most, if nothing else is said.
const PAGE: usize = 1000;

type Pairs = BTreeMap<Vec<u8>, Vec<u8>>;
type Versions = BTreeMap<u64, Vec<u8>>;

/// A page that was read at one moment with all that it is judged by.
struct Checked {
    /// The key below which it ends.
    end: Vec<u8>,
    /// What it counts for, by each version.
    counts: Vec<Check>,
}

impl<S: Store> Layer<S> {
    /// Audits all pairs by each open version, in pages of up to 1,000 pairs, as
    /// [`Layer::check_by`] does.
    ///
    /// Refusals: those of [`Layer::check_by`].
    ///
    /// ```
    /// # use cagzhomul::layer::{Layer, MemoryStore};
    /// # use cagzhomul::{Check, Table, Type};
    /// # let db = Layer::open(MemoryStore::new(), [Table::new("t").key("id", Type::Int)])?;
    /// db.insert("t", 1, ())?;
    /// assert_eq!(db.check()?, [(1, Check { rows: 1, missing: 0, extra: 0 })].into());
    /// # Ok::<(), cagzhomul::Error>(())
    /// ```
    pub fn check(&self) -> Result<BTreeMap<u64, Check>, Error> {
        self.check_by(PAGE)
    }

    /// Audits all pairs by each open version, in pages of up to so many pairs, at least 1. Each page is
    /// read at one moment with the rows and the pairs that it is judged by, and no more is held.
    ///
    /// Each page is of another moment: over a store at rest the counts are exact. Beside writers nothing
    /// is missing or extra in a sound store, and a row counts if it was there when its page was read.
    /// The check begins again if a version opens or closes meanwhile.
    ///
    /// Refusals: [`Error::TooManyPairs`] for a row of more pairs than a query may read of one range;
    /// [`Error::OutOfMemory`]; [`Error::Store`], as reads of the store have it.
    pub fn check_by(&self, pairs: usize) -> Result<BTreeMap<u64, Check>, Error> {
        loop {
            let versions = versions_of(&self.server.store)?;
            let Some(counts) = self.check_pages(&versions, pairs.max(1))? else {
                continue;
            };
            if versions == versions_of(&self.server.store)? {
                return Ok(versions.into_keys().zip(counts).collect());
            }
        }
    }

    /// What the pages count for together, by each of these versions; `None` if one of them was closed
    /// meanwhile.
    fn check_pages(&self, versions: &Versions, limit: usize) -> Result<Option<Vec<Check>>, Error> {
        let nothing = Check {
            rows: 0,
            missing: 0,
            extra: 0,
        };
        let mut sums = vec![nothing; versions.len()];
        let mut low = PAIRS.to_vec();
        while low[..] < *END {
            let Some(page) = self.check_page(versions, &low, limit)? else {
                return Ok(None);
            };
            for (sum, more) in sums.iter_mut().zip(page.counts) {
                sum.rows += more.rows;
                sum.missing += more.missing;
                sum.extra += more.extra;
            }
            low = page.end;
        }
        Ok(Some(sums))
    }

    /// Reads a page until all that it needs was read with it, and counts it; `None` if a version was
    /// closed by then.
    fn check_page(
        &self,
        versions: &Versions,
        low: &[u8],
        limit: usize,
    ) -> Result<Option<Checked>, Error> {
        let (mut wanted, mut end) = (BTreeSet::new(), END.to_vec());
        loop {
            let range = Range::new(low, &end, limit);
            let Some((pairs, to)) = self.read_page_with(versions, range, &wanted)? else {
                return Ok(None);
            };
            end = to;
            let code = pairs_code(&pairs);
            let (from, to) = bounds(low, &end);
            let needs = needs(versions, code.as_bytes(), from, to)?;
            if needs.is_subset(&wanted) {
                let counted = |record: &Vec<u8>| {
                    Check::found(ffi::check_page(record, code.as_bytes(), from, to))
                };
                let counts = versions.values().map(counted).collect::<Result<_, _>>()?;
                return Ok(Some(Checked { end, counts }));
            }
            wanted.extend(needs);
        }
    }

    /// The pairs of a page and of all that is wanted with it, of one moment, and where the page ends;
    /// `None` if a version was closed by then.
    fn read_page_with(
        &self,
        versions: &Versions,
        page: Range,
        wanted: &BTreeSet<Pair>,
    ) -> Result<Option<(Pairs, Vec<u8>)>, Error> {
        let limit = self.limit;
        let (points, rows): (Vec<&Pair>, Vec<&Pair>) = wanted.iter().partition(|it| is_point(it));
        let keys = versions.keys().map(|number| version_key(*number));
        let points: Vec<Vec<u8>> = keys
            .chain(points.into_iter().map(|it| it.0.clone()))
            .collect();
        let row = |(low, high): &Pair| Range::new(low, high, limit.saturating_add(1));
        let ranges: Vec<Range> = [page]
            .into_iter()
            .chain(rows.into_iter().map(row))
            .collect();
        let mut found = read(&self.server.store, &points, &ranges)?;
        for (number, record) in versions {
            if found.values.remove(&version_key(*number)) != Some(Some(record.clone())) {
                return Ok(None);
            }
        }
        let mut ends = found.pages.iter().zip(&ranges);
        let end = ends.next().map(|(page, _)| page.end.clone());
        if ends.any(|(page, range)| page.end != range.high) {
            return Err(Error::TooManyPairs { limit });
        }
        let given = found.values.into_iter();
        let given = given.filter_map(|(key, value)| Some((key, value?)));
        let pairs = found.pages.into_iter().flat_map(|page| page.pairs);
        Ok(end.map(|end| (pairs.chain(given).collect(), end)))
    }
}

/// Whether a range is that of one key.
fn is_point((low, high): &Pair) -> bool {
    high.strip_prefix(&low[..]) == Some(b"\0")
}

/// The bounds of a page as the library has them: no bytes for the first key, and for the end.
fn bounds<'a>(low: &'a [u8], end: &'a [u8]) -> (&'a [u8], &'a [u8]) {
    let from = if low == PAIRS { b"" } else { low };
    let to = if end == END { b"" } else { end };
    (from, to)
}

/// What a page needs besides, by these versions, and by what was read so far.
fn needs(
    versions: &Versions,
    pairs: &[u8],
    low: &[u8],
    to: &[u8],
) -> Result<BTreeSet<Pair>, Error> {
    let mut needs = BTreeSet::new();
    for record in versions.values() {
        let rows = ffi::check_rows(record, pairs, low, to).map_err(refused)?;
        needs.extend(pairs_of(rows.code())?);
        let given = ffi::check_given(record, pairs, low, to).map_err(refused)?;
        needs.extend(pairs_of(given.code())?);
    }
    Ok(needs)
}
