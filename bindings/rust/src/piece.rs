//! Pieces of reorganisations.

use crate::db::Db;
use crate::error::Error;
use crate::fetch::done;
use crate::ffi::{PieceHandle, PreparedPieceHandle};
use std::fmt;

/// How far a reorganisation is.
#[derive(Debug, Clone, Copy, PartialEq, Eq, Hash)]
pub struct Progress {
    /// Whether all its pieces have ended.
    pub ended: bool,
    /// The number of the first piece that has not; 0 if all have.
    pub next: u32,
    /// How many items are left, of those that are there now.
    pub left: u64,
    /// How many items there are.
    pub all: u64,
}

/// What the commit of a piece came to.
#[derive(Debug, Clone, Copy, PartialEq, Eq, Hash)]
pub struct Worked {
    /// The place of its entry in the log, from 1.
    pub place: u64,
    /// Whether the piece has come to its end.
    pub ended: bool,
}

/// Items of a piece of a reorganisation, as [`Db::read_piece`] has read them.
#[must_use = "a piece goes on only as it is committed"]
pub struct Piece<'db> {
    db: &'db Db,
    handle: PieceHandle,
}

impl<'db> Piece<'db> {
    /// Prepares what is put or removed for the items. It needs no lock of the store, so threads may
    /// prepare pieces while others write.
    ///
    /// Refusal: [`Error::OutOfMemory`].
    pub fn prepare(mut self) -> Result<PreparedPiece<'db>, Error> {
        let mut handle = PreparedPieceHandle::closed();
        done(self.handle.prepare(&mut handle))?;
        let db = self.db;
        Ok(PreparedPiece { db, handle })
    }
}

/// Items of a piece of a reorganisation that may be committed.
#[must_use = "a piece goes on only as it is committed"]
pub struct PreparedPiece<'db> {
    db: &'db Db,
    handle: PreparedPieceHandle,
}

impl PreparedPiece<'_> {
    /// Commits the items: their pairs are written, and the piece goes on behind them. At
    /// [`Error::Moved`] and [`Error::Conflict`] the piece is to be read again.
    ///
    /// Refusals: [`Error::Closed`], [`Error::TooFar`], [`Error::MomentTooLarge`],
    /// [`Error::NotWanted`], [`Error::WrongElement`], [`Error::Moved`], [`Error::Conflict`],
    /// [`Error::OutOfMemory`], which may come in place of the two before it.
    pub fn commit(mut self, now: u64) -> Result<Worked, Error> {
        let mut world = self.db.session().world()?;
        let pieced = world.commit_piece(now, &mut self.handle);
        done(pieced.status)?;
        self.db.session().grown(&mut world, pieced.place, now);
        Ok(Worked {
            place: pieced.place,
            ended: pieced.ended,
        })
    }
}

impl Db {
    /// Reads the next `limit` items, 1 to 1,000, of a piece of the reorganisation that has begun of
    /// an element. Pieces count from 0. Nothing changes until the items are committed.
    ///
    /// Refusals: [`Error::Closed`], [`Error::NotWanted`], [`Error::BadPiece`], [`Error::Spent`],
    /// [`Error::BadCount`], [`Error::OutOfMemory`].
    ///
    /// ```
    /// # use cagzhomul::{Db, Progress, SchemaChange, Table, Type, Worked};
    /// # let db = Db::open([Table::new("people").key("id", Type::Int).column("town", Type::Text)])?;
    /// # let lease = db.lease(0)?;
    /// # lease.txn().insert("people", 1, [("town", "Ulm")]).insert("people", 2, ()).commit(0)?;
    /// let steps = db.plan(&[SchemaChange::add_index("people", "by_town", ["town"])])?;
    /// db.publish(10, &steps[0])?;
    /// db.publish(20, &steps[1])?;
    /// let element = db.element("people", "by_town")?;
    /// db.begin_reorg(30, element, 1)?;
    /// let piece = db.read_piece(element, 0, 1000)?;
    /// let prepared = piece.prepare()?; // without the lock of the store
    /// assert_eq!(prepared.commit(30)?, Worked { place: 6, ended: true });
    /// let progress = Progress { ended: true, next: 0, left: 0, all: 2 };
    /// assert_eq!(db.progress(element)?, progress);
    /// assert_eq!(db.publish(30, &steps[2])?, 4);
    /// # Ok::<(), cagzhomul::Error>(())
    /// ```
    pub fn read_piece(&self, element: u32, piece: u32, limit: u32) -> Result<Piece<'_>, Error> {
        let mut handle = PieceHandle::closed();
        let mut world = self.session().world()?;
        done(world.read_piece(element, piece, limit, &mut handle))?;
        Ok(Piece { db: self, handle })
    }

    /// How far the reorganisation that has begun of an element is. Its items are counted, not
    /// walked over.
    ///
    /// Refusals: [`Error::Closed`]; [`Error::NotWanted`] if none has begun, or it is over.
    pub fn progress(&self, element: u32) -> Result<Progress, Error> {
        let progressed = self.session().world()?.progress(element);
        done(progressed.status)?;
        Ok(Progress {
            ended: progressed.ended,
            next: progressed.next,
            left: progressed.left,
            all: progressed.all,
        })
    }
}

impl fmt::Debug for Piece<'_> {
    fn fmt(&self, f: &mut fmt::Formatter<'_>) -> fmt::Result {
        f.debug_struct("Piece").finish_non_exhaustive()
    }
}

impl fmt::Debug for PreparedPiece<'_> {
    fn fmt(&self, f: &mut fmt::Formatter<'_>) -> fmt::Result {
        f.debug_struct("PreparedPiece").finish_non_exhaustive()
    }
}
