//! What is due of the schema changes under way, and the calls that do it.

use crate::error::Error;
use crate::fetch::bytes_of;
use crate::ffi::{self, BytesHandle};
use crate::session::Session;

/// How a step of the changes under way went.
#[derive(Debug, Clone, Copy, PartialEq, Eq, Hash)]
pub enum Step {
    /// One act was done: a version was published, a reorganisation begun, or some of its items
    /// worked. The log has one entry more.
    Acted,
    /// Nothing can be done before a moment, and nothing was.
    Waiting {
        /// The moment.
        until: u64,
    },
}

/// What a step of the changes under way would come to: [`Session::due_entry`].
#[derive(Debug, Clone, PartialEq, Eq, Hash)]
pub enum Due {
    /// An act, which would add the entry with this code.
    Entry(Vec<u8>),
    /// Nothing, before a moment.
    Waiting {
        /// The moment.
        until: u64,
    },
}

impl Session {
    /// Does the one act that is due of the changes under way, whoever began them: begins a
    /// reorganisation in `pieces` pieces (1 to 64), publishes a step in which all that is ready
    /// moves on, or works `limit` items of a piece (1 to 1,000). If a change of [`Db::change`]
    /// waits for its first step, that comes before all, as soon as it may be published. `None` if
    /// no change is under way, and none waits.
    ///
    /// Refusals: [`Error::Closed`], [`Error::NotOpened`]; if a change waits, those that
    /// [`Db::change`] has of it, after which it is forgotten, except at [`Error::TooFar`],
    /// [`Error::MomentTooLarge`] and [`Error::OutOfMemory`]; [`Error::TooFar`],
    /// [`Error::BadCount`], [`Error::MomentTooLarge`], [`Error::VersionsSpent`],
    /// [`Error::OutOfMemory`], which may come in place of the one before it.
    ///
    /// [`Db::change`]: crate::Db::change
    ///
    /// ```
    /// # fn main() -> Result<(), cagzhomul::Error> {
    /// # use cagzhomul::{Session, Step};
    /// let session = Session::open()?;
    /// for line in ["table t (id int key)", "open", "publish at 10: add column a int on t"] {
    ///     session.line(line)?;
    /// }
    /// assert_eq!(session.advance(12, 8, 1000)?, Some(Step::Waiting { until: 20 }));
    /// assert_eq!(session.advance(20, 8, 1000)?, Some(Step::Acted));
    /// assert_eq!(session.advance(20, 8, 1000)?, None);
    /// # Ok(())
    /// # }
    /// ```
    pub fn advance(&self, now: u64, pieces: u32, limit: u32) -> Result<Option<Step>, Error> {
        let first = self.begin_waiting(now)?;
        if first == Some(Step::Acted) {
            return Ok(first);
        }
        let mut world = self.world()?;
        let advanced = world.advance(now, pieces, limit);
        if advanced.status == ffi::OK {
            self.published();
            let length = world.log_length().length as u64;
            self.grown(&mut world, length, now);
        }
        match advanced.status {
            ffi::OK => Ok(Some(Step::Acted)),
            ffi::WAITING => {
                let until = match first {
                    Some(Step::Waiting { until }) => until.min(advanced.until),
                    _ => advanced.until,
                };
                Ok(Some(Step::Waiting { until }))
            }
            ffi::FINISHED => Ok(first),
            status => Err(Error::of(status)),
        }
    }

    /// The entry that [`Session::advance`] would add now, and nothing changes: a program can store it
    /// elsewhere before it makes the call. [`Session::repeat`] of it in a world that stands here does
    /// the same act. It may be asked again. `None` if no change is under way, and none waits.
    ///
    /// Refusals: those of [`Session::advance`], and a change that waits is never forgotten.
    ///
    /// ```
    /// # fn main() -> Result<(), cagzhomul::Error> {
    /// # use cagzhomul::{Due, Session};
    /// # let session = Session::open()?;
    /// for line in ["table t (id int key)", "open", "publish at 10: add column a int on t"] {
    ///     session.line(line)?;
    /// }
    /// assert_eq!(session.due_entry(12, 8, 1000)?, Some(Due::Waiting { until: 20 }));
    /// let due = session.due_entry(20, 8, 1000)?;
    /// assert_eq!(session.log_length()?, 1);
    /// session.advance(20, 8, 1000)?;
    /// assert_eq!(due, Some(Due::Entry(session.entry(2)?)));
    /// assert_eq!(session.due_entry(20, 8, 1000)?, None);
    /// # Ok(())
    /// # }
    /// ```
    pub fn due_entry(&self, now: u64, pieces: u32, limit: u32) -> Result<Option<Due>, Error> {
        let first = self.due_of_waiting(now)?;
        if matches!(first, Some(Due::Entry(_))) {
            return Ok(first);
        }
        let mut entry = BytesHandle::closed();
        let due = self.world()?.due_entry(now, pieces, limit, &mut entry);
        match due.status {
            ffi::OK => bytes_of(&mut entry).map(|code| Some(Due::Entry(code))),
            ffi::WAITING => {
                let until = match first {
                    Some(Due::Waiting { until }) => until.min(due.until),
                    _ => due.until,
                };
                Ok(Some(Due::Waiting { until }))
            }
            ffi::FINISHED => Ok(first),
            status => Err(Error::of(status)),
        }
    }
}
