//! Transactions that were prepared, and what their commits come to.

use crate::error::Error;
use crate::fetch::{bytes_of, done};
use crate::ffi::{self, BytesHandle, Committed, ReadsHandle, TxnHandle, WorldHandle};
use crate::lease::Lease;
use std::fmt;

/// How many bytes there are at first for the key of a pair that has changed.
const ROOM: usize = 256;

/// What a transaction that was committed has.
#[derive(Debug, Clone, Copy, PartialEq, Eq, PartialOrd, Ord, Hash)]
pub struct Receipt {
    /// The place of its entry in the log, from 1.
    pub place: u64,
}

/// The receipt of what was committed, or why it was refused: a conflict is on the pair of this key.
pub(crate) fn received(
    lease: &Lease<'_>,
    reported: &Committed,
    pair: &[u8],
) -> Result<Receipt, Error> {
    let Committed {
        place,
        operation,
        until,
        now,
        ..
    } = *reported;
    match reported.status {
        ffi::DUPLICATE => Err(Error::Duplicate { operation }),
        ffi::NO_ROW => Err(Error::NoRow { operation }),
        ffi::LEASE_ENDED => Err(Error::LeaseEnded { until, now }),
        ffi::CONFLICT => {
            let row = lease.names().row_of(pair);
            Err(Error::Conflict { row })
        }
        status => done(status).map(|()| Receipt { place }),
    }
}

/// A transaction whose rows were read, and that may be committed.
#[must_use = "a transaction does nothing until it is committed"]
pub struct Prepared<'a> {
    pub(crate) lease: &'a Lease<'a>,
    pub(crate) reads: ReadsHandle,
    /// It is closed after an entry was asked for, until it is prepared again.
    pub(crate) txn: TxnHandle,
}

impl Prepared<'_> {
    /// Commits it: all of its operations, or none.
    ///
    /// Refusals: [`Error::Closed`], [`Error::TooFar`], [`Error::MomentTooLarge`],
    /// [`Error::BadLease`], [`Error::LeaseEnded`], [`Error::WrongSchema`], [`Error::Conflict`],
    /// [`Error::OutOfMemory`], which may come in place of the one before it, [`Error::Duplicate`]
    /// and [`Error::NoRow`].
    pub fn commit(mut self, now: u64) -> Result<Receipt, Error> {
        let session = self.lease.db().session();
        self.attempt(|world, txn, out| {
            let committed = world.commit(now, txn, out);
            if committed.status == ffi::OK {
                session.grown(world, committed.place, now);
            }
            committed
        })
    }

    /// The code of the entry that [`Prepared::commit`] would add now, and nothing changes: a program
    /// can store it elsewhere before it commits. [`Session::repeat`](crate::Session::repeat) of it in
    /// a world that stands here makes the same transaction. It may be asked again, and committed.
    ///
    /// Refusals: those of [`Prepared::commit`].
    ///
    /// ```
    /// # use cagzhomul::{Db, Table, Type};
    /// # let db = Db::open([Table::new("t").key("id", Type::Int)])?;
    /// # let lease = db.lease(0)?;
    /// let mut txn = lease.txn().insert("t", 1, ()).prepare()?;
    /// let entry = txn.entry(0)?;
    /// assert_eq!((db.session().log_length()?, txn.entry(0)?), (1, entry.clone()));
    /// let place = txn.commit(0)?.place;
    /// assert_eq!(db.session().entry(place)?, entry);
    /// # Ok::<(), cagzhomul::Error>(())
    /// ```
    pub fn entry(&mut self, now: u64) -> Result<Vec<u8>, Error> {
        let mut entry = BytesHandle::closed();
        self.attempt(|world, txn, out| world.txn_entry(now, txn, out, &mut entry))?;
        bytes_of(&mut entry)
    }

    /// Makes a call with the prepared transaction that writes as much of the key of a pair that has
    /// changed as fits.
    fn attempt(
        &mut self,
        mut call: impl FnMut(&mut WorldHandle, &mut TxnHandle, &mut [u8]) -> Committed,
    ) -> Result<Receipt, Error> {
        let Prepared { lease, reads, txn } = self;
        if !txn.is_open() {
            done(reads.prepare(txn).status)?;
        }
        let mut room = [0; ROOM];
        let mut longer = Vec::new();
        let mut world = lease.db().session().world()?;
        let mut committed = call(&mut world, txn, &mut room);
        if committed.length > ROOM {
            // a refused call is made again, with room for the key of the pair
            longer.resize(committed.length, 0);
            committed = call(&mut world, txn, &mut longer);
        }
        drop(world);
        let pair = match longer.is_empty() {
            true => &room[..committed.length],
            false => &longer[..committed.length],
        };
        received(lease, &committed, pair)
    }
}

impl fmt::Debug for Prepared<'_> {
    fn fmt(&self, f: &mut fmt::Formatter<'_>) -> fmt::Result {
        f.debug_struct("Prepared")
            .field("lease", self.lease)
            .finish_non_exhaustive()
    }
}
