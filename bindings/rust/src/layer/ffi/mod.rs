//! The functions of `include/cagzhomul_layer.h` behind safe calls: bytes in, bytes out, and nothing
//! is kept. What `ffi.rs` says of slices holds here.
#![allow(unsafe_code)]

mod exports;

use crate::error::Error;
use crate::ffi::{Checked, OK};
use exports::*;
use std::cell::Cell;
use std::mem;

pub(super) use exports::{DueAct, Refusal};

/// How many bytes there are at first for what a call gives, besides twice as many as it is given: nearly
/// all that a call gives fits, and it is not made again.
const ROOM: usize = 1024;

/// The numbers of acts.
pub(super) const BEGIN: u32 = 1;
pub(super) const CLOSE: u32 = 2;
pub(super) const PUBLISH: u32 = 3;
pub(super) const WORK: u32 = 4;

/// How many bytes a thread keeps at most for its next call.
const KEPT: usize = 1 << 16;

thread_local! {
    /// The bytes that the thread's last call was given for what it gives, since room for a draft is
    /// large for an allocator. None while they are in use.
    static ROOM_OF_LAST: Cell<Vec<u8>> = const { Cell::new(Vec::new()) };
}

/// What a call gave: its bytes, and the number beside them.
pub(super) struct Given {
    room: Vec<u8>,
    length: usize,
    pub(super) number: u64,
}

impl Given {
    /// The bytes.
    pub(super) fn code(&self) -> &[u8] {
        &self.room[..self.length]
    }
}

impl Drop for Given {
    fn drop(&mut self) {
        let room = mem::take(&mut self.room);
        if room.len() <= KEPT {
            // none is kept by a thread that ends
            let _ = ROOM_OF_LAST.try_with(|it| it.set(room));
        }
    }
}

/// Why nothing came of what was asked of the library, or of the store for it.
#[derive(Debug)]
pub(super) enum Fault {
    /// The library refused the call.
    Refused(Refusal),
    /// Anything else.
    Error(Error),
}

impl From<Refusal> for Fault {
    fn from(refusal: Refusal) -> Fault {
        Fault::Refused(refusal)
    }
}

impl<E: Into<Error>> From<E> for Fault {
    fn from(error: E) -> Fault {
        Fault::Error(error.into())
    }
}

/// Makes a call of the library: a function, numbers by their names, bytes in brackets, which go with
/// their length, in the order of the header; the room for what it gives comes last.
macro_rules! asked {
    ($function:ident, $($given:tt),*) => {{
        let mut length = 0;
        $(asked!(@count length $given);)*
        given(length, |out| {
            // SAFETY: all slices, as at the top of `ffi.rs`.
            asked!(@call [$function, out] [] $($given)*)
        })
    }};
    (@count $length:ident [$bytes:ident]) => {
        $length += $bytes.len();
    };
    (@count $length:ident $number:ident) => {};
    (@call [$function:ident, $out:ident] [$($words:expr),*]) => {
        unsafe { $function($($words,)* $out.as_mut_ptr(), $out.len()) }
    };
    (@call $head:tt [$($words:expr),*] [$bytes:ident] $($rest:tt)*) => {
        asked!(@call $head [$($words,)* $bytes.as_ptr(), $bytes.len()] $($rest)*)
    };
    (@call $head:tt [$($words:expr),*] $number:ident $($rest:tt)*) => {
        asked!(@call $head [$($words,)* $number] $($rest)*)
    };
}

/// What a call came to that was given so many bytes, and that writes as much of what it gives as fits. It
/// is made again if that was not all.
fn given(length: usize, mut call: impl FnMut(&mut [u8]) -> Refusal) -> Result<Given, Refusal> {
    let mut room = ROOM_OF_LAST.try_with(Cell::take).unwrap_or_default();
    if room.len() < ROOM + 2 * length {
        room = vec![0; ROOM + 2 * length];
    }
    let mut done = call(&mut room);
    if done.length > room.len() {
        room = vec![0; done.length];
        done = call(&mut room);
    }
    let given = Given {
        room,
        length: done.length,
        number: done.number,
    };
    match done.status {
        OK => Ok(given),
        _ => Err(done),
    }
}

/// The draft that opens a store, by the code of its opening.
pub(super) fn open(opening: &[u8]) -> Result<Given, Refusal> {
    asked!(cagzhomul_layer_open, [opening])
}

/// The keys that a transaction reads under a version.
pub(super) fn reads(version: &[u8], operations: &[u8]) -> Result<Given, Refusal> {
    asked!(cagzhomul_layer_reads, [version], [operations])
}

/// The draft of a transaction under a version, by what was read for it.
pub(super) fn txn(
    number: u64,
    version: &[u8],
    operations: &[u8],
    view: &[u8],
    mark: &[u8],
) -> Result<Given, Refusal> {
    asked!(
        cagzhomul_layer_txn,
        number,
        [version],
        [operations],
        [view],
        [mark]
    )
}

/// The ranges that a query reads first.
pub(super) fn ranges(version: &[u8], query: &[u8]) -> Result<Given, Refusal> {
    asked!(cagzhomul_layer_ranges, [version], [query])
}

/// The ranges that it reads after these pairs of an index.
pub(super) fn row_ranges(version: &[u8], query: &[u8], pairs: &[u8]) -> Result<Given, Refusal> {
    asked!(cagzhomul_layer_row_ranges, [version], [query], [pairs])
}

/// The rows of a query whose ranges have these pairs.
pub(super) fn rows(version: &[u8], query: &[u8], pairs: &[u8]) -> Result<Given, Refusal> {
    asked!(cagzhomul_layer_rows, [version], [query], [pairs])
}

/// The least plan of a batch of changes.
pub(super) fn plan(version: &[u8], changes: &[u8]) -> Result<Given, Refusal> {
    asked!(cagzhomul_layer_plan, [version], [changes])
}

/// The draft of a step, by the reorganisations that were found.
pub(super) fn publish(
    before: u32,
    version: &[u8],
    step: &[u8],
    found: &[u8],
) -> Result<Given, Refusal> {
    asked!(cagzhomul_layer_publish, before, [version], [step], [found])
}

/// The draft that closes the version before this one.
pub(super) fn close(before: u32, version: &[u8]) -> Result<Given, Refusal> {
    asked!(cagzhomul_layer_close, before, [version])
}

/// The draft that begins what an element wants, in pieces from these keys on.
pub(super) fn begin(
    before: u32,
    version: &[u8],
    element: u32,
    keys: &[u8],
) -> Result<Given, Refusal> {
    asked!(cagzhomul_layer_begin, before, [version], element, [keys])
}

/// The draft of a piece, by the pairs from its cursor on up to a key.
pub(super) fn piece(
    reorg: &[u8],
    piece: u32,
    cursor: &[u8],
    to: &[u8],
    pairs: &[u8],
) -> Result<Given, Refusal> {
    asked!(
        cagzhomul_layer_piece,
        [reorg],
        piece,
        [cursor],
        [to],
        [pairs]
    )
}

/// What is due by the control records that were found, and the steps that are left of a plan; `None` if the
/// records do not fit each other.
pub(super) fn due(before: u32, version: &[u8], found: &[u8], plan: &[u8]) -> Option<DueAct> {
    let (at, length) = (version.as_ptr(), version.len());
    let (found, found_length) = (found.as_ptr(), found.len());
    // SAFETY: all slices, as at the top of `ffi.rs`.
    let due = unsafe {
        cagzhomul_layer_due(
            before,
            at,
            length,
            found,
            found_length,
            plan.as_ptr(),
            plan.len(),
            0,
        )
    };
    (due.status == OK).then_some(due)
}

/// The ranges of the rows that the page from `low` to below `to` needs besides its pairs; no bytes are
/// the first key, and the end.
pub(super) fn check_rows(
    version: &[u8],
    pairs: &[u8],
    low: &[u8],
    to: &[u8],
) -> Result<Given, Refusal> {
    asked!(cagzhomul_layer_check_rows, [version], [pairs], [low], [to])
}

/// The ranges of the pairs that its rows give, which it needs after those.
pub(super) fn check_given(
    version: &[u8],
    pairs: &[u8],
    low: &[u8],
    to: &[u8],
) -> Result<Given, Refusal> {
    asked!(cagzhomul_layer_check_given, [version], [pairs], [low], [to])
}

/// What the page counts for by a version, of which all was read that it needs.
pub(super) fn check_page(version: &[u8], pairs: &[u8], low: &[u8], to: &[u8]) -> Checked {
    let (at, length) = (version.as_ptr(), version.len());
    let (low, low_length) = (low.as_ptr(), low.len());
    let (to, to_length) = (to.as_ptr(), to.len());
    let (pairs, pairs_length) = (pairs.as_ptr(), pairs.len());
    // SAFETY: all slices, as at the top of `ffi.rs`.
    unsafe {
        cagzhomul_layer_check_page(
            at,
            length,
            pairs,
            pairs_length,
            low,
            low_length,
            to,
            to_length,
        )
    }
}

#[cfg(test)]
mod tests {
    use super::*;

    #[test]
    fn a_call_is_made_again_if_what_it_gives_did_not_fit() {
        // room for 1,024 bytes and twice 10
        for (length, status, wanted) in [(0, OK, 1), (1044, OK, 1), (1045, OK, 2), (0, 17, 1)] {
            let mut calls = 0;
            let given = given(10, |out| {
                calls += 1;
                out.iter_mut().take(length).for_each(|byte| *byte = 7);
                Refusal {
                    status,
                    column: 0,
                    number: 3,
                    length,
                }
            });
            match given {
                Ok(given) => assert_eq!((given.code(), given.number), (&vec![7; length][..], 3)),
                Err(refusal) => assert_eq!((refusal.status, status), (17, 17)),
            }
            assert_eq!(calls, wanted, "{length}");
        }
    }
}
