//! Where a fill or a clear is divided into pieces.

use crate::layer::store::{read, Page, Range, Store, StoreError};
use std::collections::BTreeSet;

/// Of how many parts one is chosen at each turn of a search for the last key.
const PARTS: u128 = 16;
/// How many bytes of keys, after those that the low key of the range has, make a place.
const WIDTH: usize = 12;
/// No place is from there on.
const BEYOND: u128 = 1 << (8 * WIDTH);
/// What stands at the beginning of the key of a row's pair, and how many bytes at its end are the number
/// of its column, which is 0 in its first pair.
const ROW: &[u8] = b"R";
const COLUMN: usize = 4;

/// A key's place among those that begin as the range does.
fn place_of(key: &[u8], low: &[u8]) -> u128 {
    let rest = key.get(low.len()..).unwrap_or_default().iter();
    let digits = rest.copied().chain(std::iter::repeat(0)).take(WIDTH);
    digits.fold(0, |place, digit| place << 8 | u128::from(digit))
}

fn key_at(place: u128, low: &[u8]) -> Vec<u8> {
    [low, &place.to_be_bytes()[16 - WIDTH..]].concat()
}

/// The first key of a range from each of these places on.
fn first_keys<S: Store>(
    store: &S,
    places: &BTreeSet<u128>,
    low: &[u8],
    high: &[u8],
) -> Result<Vec<Option<Vec<u8>>>, StoreError> {
    let ranges = places
        .iter()
        .map(|it| Range::new(&key_at(*it, low), high, 1));
    let found = read(store, &[], &ranges.collect::<Vec<_>>())?;
    let first = |page: Page| page.pairs.into_iter().next().map(|it| it.0);
    Ok(found.pages.into_iter().map(first).collect())
}

/// The place of the last key of a range, whose first key is at `begin`.
fn last_place<S: Store>(
    store: &S,
    begin: u128,
    low: &[u8],
    high: &[u8],
) -> Result<u128, StoreError> {
    let (mut last, mut end) = (begin, BEYOND);
    // others may put a key beyond the end meanwhile
    while end.saturating_sub(last) > 1 {
        let places = (1..PARTS).map(|it| last + (end - last) * it / PARTS);
        let places: BTreeSet<u128> = places.filter(|it| *it > last).collect();
        let found = first_keys(store, &places, low, high)?;
        let mut both = places.iter().zip(&found);
        end = both
            .find(|(_, key)| key.is_none())
            .map_or(end, |(it, _)| *it);
        let found = found.iter().flatten().map(|key| place_of(key, low));
        last = found.fold(last, u128::max);
    }
    Ok(last)
}

/// Keys at which the pieces of a range but the first may begin, in equal distances, which are equal
/// numbers if keys are spread evenly.
pub(super) fn divisions<S: Store>(
    store: &S,
    pieces: usize,
    low: &[u8],
    high: &[u8],
) -> Result<Vec<Vec<u8>>, StoreError> {
    let Some(Some(first)) = first_keys(store, &BTreeSet::from([0]), low, high)?.pop() else {
        return Ok(Vec::new());
    };
    let begin = place_of(&first, low);
    let last = last_place(store, begin, low, high)?;
    let pieces = pieces as u128;
    let ends = (1..pieces).map(|it| begin + (last - begin) * it / pieces);
    let found = first_keys(store, &ends.collect(), low, high)?;
    // of a row the key of its first pair
    let begins = |mut key: Vec<u8>| {
        if low.starts_with(ROW) {
            key.truncate(key.len().saturating_sub(COLUMN));
            key.extend_from_slice(&[0; COLUMN]);
        }
        key
    };
    let keys: BTreeSet<Vec<u8>> = found.into_iter().flatten().map(begins).collect();
    let is_later = |key: &Vec<u8>| *key != first && key != low;
    Ok(keys.into_iter().filter(is_later).collect())
}
