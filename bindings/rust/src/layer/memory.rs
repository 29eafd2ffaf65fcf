//! A store in memory.

use crate::layer::draft::Draft;
use crate::layer::store::{Answer, Page, Pair, Range, Store, StoreError};
use std::collections::BTreeMap;
use std::fmt;
use std::sync::{Mutex, MutexGuard, PoisonError};

/// Pairs in an ordered map, for tests and for databases that end with their process. A lock is held
/// over a whole read and a whole draft, so threads may share it, and so may several
/// [`Layer`](crate::layer::Layer)s by a reference.
#[derive(Default)]
pub struct MemoryStore(Mutex<BTreeMap<Vec<u8>, Vec<u8>>>);

impl MemoryStore {
    /// A store without pairs.
    pub fn new() -> MemoryStore {
        MemoryStore::default()
    }

    /// The pairs. A draft is compared before any of it is written, so a thread that panicked under
    /// the lock has left them whole.
    fn lock(&self) -> MutexGuard<'_, BTreeMap<Vec<u8>, Vec<u8>>> {
        self.0.lock().unwrap_or_else(PoisonError::into_inner)
    }
}

fn page(pairs: &BTreeMap<Vec<u8>, Vec<u8>>, range: &Range) -> Page {
    // the map's own range panics if its ends are not in order
    let found = match range.low < range.high {
        true => pairs.range(range.low.clone()..range.high.clone()),
        false => Default::default(),
    };
    let found = found.take(range.limit);
    let found = found.map(|(key, value)| (key.clone(), value.clone()));
    Page::of(found.collect(), range)
}

fn answer(pairs: &BTreeMap<Vec<u8>, Vec<u8>>, points: &[Vec<u8>], ranges: &[Range]) -> Answer {
    let pair = |key: &Vec<u8>| -> Option<Pair> { Some((key.clone(), pairs.get(key)?.clone())) };
    Answer {
        pairs: points.iter().filter_map(pair).collect(),
        pages: ranges.iter().map(|range| page(pairs, range)).collect(),
    }
}

impl Store for MemoryStore {
    fn read(&self, points: &[Vec<u8>], ranges: &[Range]) -> Result<Answer, StoreError> {
        Ok(answer(&self.lock(), points, ranges))
    }

    /// Refusal: [`StoreError::Refused`].
    fn apply(&self, draft: &Draft) -> Result<(), StoreError> {
        let mut pairs = self.lock();
        draft.check(answer(&pairs, &draft.points(), &draft.compared_ranges()))?;
        for (key, value) in &draft.write {
            match value {
                None => pairs.remove(key),
                Some(value) => pairs.insert(key.clone(), value.clone()),
            };
        }
        Ok(())
    }
}

impl fmt::Debug for MemoryStore {
    fn fmt(&self, f: &mut fmt::Formatter<'_>) -> fmt::Result {
        let pairs = self.lock().len();
        f.debug_struct("MemoryStore")
            .field("pairs", &pairs)
            .finish_non_exhaustive()
    }
}
