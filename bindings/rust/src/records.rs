//! The records of a log file, as they stand in its bytes.

use crate::ffi;

/// How many bytes a record has before its entry, and behind it.
pub(crate) const BEFORE: usize = 16;
pub(crate) const BEHIND: usize = 32;

/// The length of the whole record of this place with which the bytes begin.
fn size_of(place: u64, bytes: &[u8]) -> Option<usize> {
    let found = ffi::log_entry(place, bytes);
    (found.status == ffi::OK).then_some(BEFORE + found.length + BEHIND)
}

/// The records with which the bytes begin, as long as each is whole and of the next place: its place,
/// and all of it.
pub(crate) fn records(bytes: &[u8]) -> impl Iterator<Item = (u64, &[u8])> {
    let first = bytes
        .iter()
        .take(8)
        .fold(0, |n, &byte| n << 8 | u64::from(byte));
    let mut left = bytes;
    (first..).map_while(move |place| {
        let (record, rest) = left.split_at(size_of(place, left)?);
        left = rest;
        Some((place, record))
    })
}
