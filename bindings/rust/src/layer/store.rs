//! What the layer asks of a store that someone else runs.

use crate::layer::draft::Draft;
use std::collections::BTreeMap;
use std::fmt;
use std::sync::Arc;

/// A key and its value, both any bytes; an empty value is not a missing one.
pub type Pair = (Vec<u8>, Vec<u8>);

/// Keys, each with its value or none.
pub type Values = BTreeMap<Vec<u8>, Option<Vec<u8>>>;

/// Why a store did not carry out a call, or may not have.
#[derive(Debug, Clone, PartialEq, Eq)]
pub enum StoreError {
    /// The draft was not applied, since the store does not hold what it compares. It has a key that
    /// differs, or `None` if the store does not say which, or met another transaction's.
    Refused(Option<Vec<u8>>),
    /// The draft was not applied: it is over a limit of the store.
    TooLarge(String),
    /// The call was not carried out, and will not be: no server answered, or it refused for now.
    Unreachable(String),
    /// Nobody knows whether the draft was applied: the answer was lost, or it may be applied yet.
    Unknown(String),
    /// The store answered what no store may; of a draft this leaves open whether it was applied.
    BadAnswer(String),
}

impl fmt::Display for StoreError {
    fn fmt(&self, f: &mut fmt::Formatter<'_>) -> fmt::Result {
        match self {
            StoreError::Refused(None) => f.write_str("the store refused the draft"),
            StoreError::Refused(Some(key)) => write!(
                f,
                "the store refused the draft: another value of {}",
                key.escape_ascii()
            ),
            StoreError::TooLarge(what) => write!(f, "over a limit of the store: {what}"),
            StoreError::Unreachable(what) => write!(f, "the store is not reached: {what}"),
            StoreError::Unknown(what) => write!(f, "nobody knows: {what}"),
            StoreError::BadAnswer(what) => write!(f, "the store's answer is none: {what}"),
        }
    }
}

impl std::error::Error for StoreError {}

pub(super) fn bad_answer(what: &str) -> StoreError {
    StoreError::BadAnswer(what.to_string())
}

/// The keys from `low` on and below `high`, to be read up to `limit` pairs, at least 1.
#[derive(Debug, Clone, PartialEq, Eq)]
pub struct Range {
    /// The first key that may be in it.
    pub low: Vec<u8>,
    /// The key before which it ends.
    pub high: Vec<u8>,
    /// How many pairs are read at most.
    pub limit: usize,
}

impl Range {
    pub(super) fn new(low: &[u8], high: &[u8], limit: usize) -> Range {
        Range {
            low: low.to_vec(),
            high: high.to_vec(),
            limit,
        }
    }
}

/// Pairs of a range in the order of their keys: all of it below `end`, which is its `high` if all
/// of it was read.
#[derive(Debug, Clone, PartialEq, Eq)]
pub struct Page {
    /// The pairs, by rising key.
    pub pairs: Vec<Pair>,
    /// The key before which the page ends.
    pub end: Vec<u8>,
}

impl Page {
    /// The page that a store's first pairs of a range are: as many as the limit, or all.
    pub fn of(pairs: Vec<Pair>, range: &Range) -> Page {
        let after_last = |(key, _): &Pair| [key, &b"\0"[..]].concat();
        let end = match pairs.last() {
            Some(last) if pairs.len() >= range.limit => after_last(last).min(range.high.clone()),
            _ => range.high.clone(),
        };
        Page { pairs, end }
    }

    /// Refuses a page that no store may give for this range: [`StoreError::BadAnswer`] if a key is
    /// not above the one before it, or outside the range, or not below the page's end; if there are
    /// more pairs than the limit; if the page ends above the range, or neither at its end nor above
    /// its beginning.
    fn check(&self, range: &Range) -> Result<(), StoreError> {
        let keys = || self.pairs.iter().map(|(key, _)| key);
        let outside = |key| key < &range.low || key >= &self.end || key >= &range.high;
        let is_inside = self.end == range.high || (range.low < self.end && self.end < range.high);
        if keys().zip(keys().skip(1)).any(|(one, next)| one >= next) {
            return Err(bad_answer("keys that are not in order"));
        }
        if keys().any(outside) {
            return Err(bad_answer("a key outside the range"));
        }
        if self.pairs.len() > range.limit {
            return Err(bad_answer("more pairs than were asked for"));
        }
        match is_inside {
            true => Ok(()),
            false => Err(bad_answer("a page that ends outside the range")),
        }
    }
}

/// What a store holds at one moment.
#[derive(Debug, Clone, Default, PartialEq, Eq)]
pub struct Answer {
    /// The pairs of the points that are there, in any order.
    pub pairs: Vec<Pair>,
    /// A page for each range, in their order.
    pub pages: Vec<Page>,
}

impl Answer {
    /// What the answer to a read of these points and ranges says: each point with its value or none,
    /// and the pages. [`StoreError::BadAnswer`] if it has a key that was not asked for, or one twice;
    /// if it has not a page for each range; or a page that no store may give for it.
    pub fn found(
        self,
        points: &[Vec<u8>],
        ranges: &[Range],
    ) -> Result<(Values, Vec<Page>), StoreError> {
        let values = values_of(points, self.pairs)?;
        if self.pages.len() != ranges.len() {
            return Err(bad_answer("another number of pages"));
        }
        let mut pages = self.pages.iter().zip(ranges);
        pages.try_for_each(|(page, range)| page.check(range))?;
        Ok((values, self.pages))
    }
}

/// Each point with the value that the pairs have for it, or none. Those that come in the order of the
/// points, as most stores answer, are not looked up.
fn values_of(points: &[Vec<u8>], pairs: Vec<Pair>) -> Result<Values, StoreError> {
    let mut pairs = pairs.into_iter().peekable();
    let with_value = |point: &Vec<u8>| match pairs.next_if(|(key, _)| key == point) {
        Some((key, value)) => (key, Some(value)),
        None => (point.clone(), None),
    };
    let mut values: Values = points.iter().map(with_value).collect();
    for (key, value) in pairs {
        match values.get_mut(&key) {
            Some(place @ None) => *place = Some(value),
            _ => return Err(bad_answer("a key that was not asked for, or twice")),
        }
    }
    Ok(values)
}

/// A store, as the layer needs it: pairs whose keys have up to 2,000 bytes, and are ordered byte by
/// byte. Threads that share a [`Layer`](crate::layer::Layer) share its store.
///
/// What `docs/LAYER.md` says of a new adapter holds of an implementation.
pub trait Store {
    /// What the store holds at these points, which are all different, and in these ranges, all of one
    /// moment, which is no earlier than the end of each [`Store::apply`] that anyone had ended before
    /// this call began.
    ///
    /// [`StoreError::Unreachable`] if no server answers in time, [`StoreError::BadAnswer`] if an
    /// answer is none. Whether the keys are those that were asked for, in order, and each once, the
    /// layer looks itself.
    fn read(&self, points: &[Vec<u8>], ranges: &[Range]) -> Result<Answer, StoreError>;

    /// Compares and writes in one atomic transaction, which comes before or after each other one;
    /// [`Draft::check`] compares what was read for it.
    ///
    /// [`StoreError::Refused`], [`StoreError::TooLarge`] and [`StoreError::Unreachable`] leave the
    /// store as it was; after [`StoreError::Unknown`] and [`StoreError::BadAnswer`] it may be either.
    fn apply(&self, draft: &Draft) -> Result<(), StoreError>;
}

macro_rules! store_behind {
    ($($pointer:ty),*) => {
        $(impl<S: Store + ?Sized> Store for $pointer {
            fn read(&self, points: &[Vec<u8>], ranges: &[Range]) -> Result<Answer, StoreError> {
                (**self).read(points, ranges)
            }

            fn apply(&self, draft: &Draft) -> Result<(), StoreError> {
                (**self).apply(draft)
            }
        })*
    };
}

store_behind!(&S, Box<S>, Arc<S>);

/// What a store holds at one moment, as far as it may be believed.
pub(super) struct Found {
    pub(super) values: Values,
    pub(super) pages: Vec<Page>,
}

/// Reads a store, and looks whether it may answer so.
pub(super) fn read<S: Store + ?Sized>(
    store: &S,
    points: &[Vec<u8>],
    ranges: &[Range],
) -> Result<Found, StoreError> {
    let (values, pages) = store.read(points, ranges)?.found(points, ranges)?;
    Ok(Found { values, pages })
}

/// The one page of a read of one range.
pub(super) fn read_page<S: Store + ?Sized>(store: &S, range: Range) -> Result<Page, StoreError> {
    let mut found = read(store, &[], &[range])?;
    found.pages.pop().ok_or(bad_answer("no page"))
}
