//! Drafts: what a store compares and then writes, in one transaction.

use crate::layer::store::{Answer, Pair, Range, StoreError, Values};

/// What a store is to compare and then to write, in one transaction.
///
/// ```
/// use cagzhomul::layer::{Answer, Draft, StoreError};
///
/// let key = || b"a".to_vec();
/// let draft = Draft {
///     compare: [(key(), None)].into(),
///     write: [(key(), Some(b"1".to_vec()))].into(),
///     ..Draft::default()
/// };
/// assert_eq!(draft.check(Answer::default()), Ok(()));
/// let there = Answer { pairs: vec![(key(), Vec::new())], pages: Vec::new() };
/// assert_eq!(draft.check(there), Err(StoreError::Refused(Some(key()))));
/// ```
#[derive(Debug, Clone, Default, PartialEq, Eq)]
pub struct Draft {
    /// The value that a key must have, or `None` if it must be missing.
    pub compare: Values,
    /// Ranges of which the store must hold the pairs given, and no other.
    pub ranges: Vec<ComparedRange>,
    /// The value that a key gets, or `None` if it is removed, which may be missing.
    pub write: Values,
}

/// A range that a draft compares.
#[derive(Debug, Clone, PartialEq, Eq)]
pub struct ComparedRange {
    /// The first key that may be in it.
    pub low: Vec<u8>,
    /// The key before which it ends.
    pub high: Vec<u8>,
    /// All pairs that it has, by rising key.
    pub pairs: Vec<Pair>,
}

impl Draft {
    /// The points to read for [`Draft::check`].
    pub fn points(&self) -> Vec<Vec<u8>> {
        self.compare.keys().cloned().collect()
    }

    /// The ranges to read for [`Draft::check`]: one pair more than there may be shows that there are
    /// too many.
    pub fn compared_ranges(&self) -> Vec<Range> {
        let range = |it: &ComparedRange| Range::new(&it.low, &it.high, it.pairs.len() + 1);
        self.ranges.iter().map(range).collect()
    }

    /// Refuses the draft if what was found at its points and in its ranges, which `answer` is of, is
    /// not what it compares with: [`StoreError::Refused`] with the first key that differs.
    /// [`StoreError::BadAnswer`] before that, if no store may answer so.
    pub fn check(&self, answer: Answer) -> Result<(), StoreError> {
        let (values, pages) = answer.found(&self.points(), &self.compared_ranges())?;
        let mut both = self.compare.iter().zip(values.values());
        if let Some(((key, _), _)) = both.find(|((_, due), found)| due != found) {
            return Err(StoreError::Refused(Some(key.clone())));
        }
        for (range, page) in self.ranges.iter().zip(&pages) {
            if let Some(key) = first_difference(&range.pairs, &page.pairs) {
                return Err(StoreError::Refused(Some(key.clone())));
            }
        }
        Ok(())
    }
}

/// The lesser of the first two keys at which two lists of pairs differ.
fn first_difference<'a>(one: &'a [Pair], other: &'a [Pair]) -> Option<&'a Vec<u8>> {
    let same = one.iter().zip(other).take_while(|(a, b)| a == b).count();
    let keys = [one.get(same), other.get(same)];
    keys.into_iter().flatten().map(|(key, _)| key).min()
}
