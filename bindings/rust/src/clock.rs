//! The clock of a world: milliseconds that go on from its last moment.

use crate::db::Db;
use crate::error::Error;
use crate::fetch::moment_of;
use crate::ffi::WorldHandle;
use crate::session::Session;
use std::sync::atomic::{AtomicU64, Ordering};
use std::sync::Arc;
use std::time::Instant;

/// The clock of a store, by [`Db::clock`]: the present moment in milliseconds. It begins at the world's
/// last moment, which is 0 of a new one and that of the last entry of one that was saved, and never goes
/// back; so a store that goes on from a checkpoint does not wait for a clock that began anew with the
/// machine. If a call of the store at a moment of another clock has set the world ahead, it follows.
///
/// There is one for each store. Its clones are the same clock, and any thread may ask it.
#[derive(Debug, Clone)]
pub struct Clock(Arc<Since>);

/// Milliseconds since it began, at a moment.
#[derive(Debug)]
struct Since {
    began: Instant,
    moment: AtomicU64,
}

impl Clock {
    /// One that begins at a moment.
    pub(crate) fn at(moment: u64) -> Clock {
        Clock(Arc::new(Since {
            began: Instant::now(),
            moment: AtomicU64::new(moment),
        }))
    }

    /// How many milliseconds have passed since it began.
    fn passed(&self) -> u64 {
        u64::try_from(self.0.began.elapsed().as_millis()).unwrap_or(u64::MAX)
    }

    /// The present moment.
    pub fn now(&self) -> u64 {
        let moment = self.0.moment.load(Ordering::Relaxed);
        moment.saturating_add(self.passed())
    }

    /// Sets it forward to a moment, if it is behind that.
    pub(crate) fn reach(&self, moment: u64) {
        let begin = moment.saturating_sub(self.passed());
        self.0.moment.fetch_max(begin, Ordering::Relaxed);
    }
}

impl Session {
    /// The clock of this world: [`Clock`].
    ///
    /// Refusals: [`Error::Closed`], [`Error::NotOpened`], [`Error::OutOfMemory`].
    pub fn clock(&self) -> Result<Clock, Error> {
        let mut world = self.world()?;
        if let Some(clock) = self.its_clock.get() {
            return Ok(clock.clone());
        }
        // the lock is kept, so no call comes between the look and the clock
        let moment = moment_of(&mut world)?;
        Ok(self.its_clock.get_or_init(|| Clock::at(moment)).clone())
    }

    /// By how many moments this one is behind the world's last: 0 if it is not. A call at a moment that is
    /// behind is made at the last one, so nothing that waits comes closer until the clock has caught up.
    /// [`Session::clock`] is never behind.
    ///
    /// Refusals: [`Error::Closed`], [`Error::NotOpened`], [`Error::OutOfMemory`].
    ///
    /// ```
    /// # use cagzhomul::{Db, Table, Type};
    /// # let db = Db::open([Table::new("t").key("id", Type::Int)])?;
    /// db.lease(1_000)?;
    /// assert_eq!([4, 1_000, 1_001].map(|now| db.session().behind(now)), [Ok(996), Ok(0), Ok(0)]);
    /// # Ok::<(), cagzhomul::Error>(())
    /// ```
    pub fn behind(&self, now: u64) -> Result<u64, Error> {
        Ok(moment_of(&mut *self.world()?)?.saturating_sub(now))
    }

    /// The world may have come to another moment, which its clock follows unless memory runs out.
    pub(crate) fn follow(&self, world: &mut WorldHandle) {
        if let Some(clock) = self.its_clock.get() {
            clock.reach(moment_of(world).unwrap_or(0));
        }
    }

    /// The world has come to a moment, which its clock follows.
    pub(crate) fn reached(&self, moment: u64) {
        if let Some(clock) = self.its_clock.get() {
            clock.reach(moment);
        }
    }
}

impl Db {
    /// The clock of this store: [`Clock`]. A lease length is then in milliseconds.
    ///
    /// Refusals: [`Error::Closed`], [`Error::OutOfMemory`].
    ///
    /// ```
    /// # use cagzhomul::{OpenOptions, Table, Type};
    /// let people = Table::new("people").key("id", Type::Int).column("town", Type::Text);
    /// let db = OpenOptions::new().lease_length(20).open([people])?; // of 20 milliseconds
    /// let clock = db.clock()?;
    /// db.lease(1_000_000)?; // by another clock, which is ahead
    /// assert!(clock.now() >= 1_000_000);
    /// db.complete("add index by_town on people (town)", || clock.now())?;
    /// assert!(clock.now() >= 1_000_040); // two versions were the newest for a lease length
    /// # Ok::<(), cagzhomul::Error>(())
    /// ```
    pub fn clock(&self) -> Result<Clock, Error> {
        self.session().clock()
    }
}
