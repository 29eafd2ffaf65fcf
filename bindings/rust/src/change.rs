//! Schema changes, driven step by step.

use crate::advance::{Due, Step};
use crate::code::{self, Code};
use crate::course::Ends;
use crate::db::Db;
use crate::error::Error;
use crate::fetch::fetch;
use crate::names::Names;
use crate::plan::{number_of, plan_refusal, SchemaChange};
use crate::schema::Schema;
use crate::session::Session;
use crate::steps::steps_of;
use crate::wanted::Wanted;
use crate::words::is_list;
use std::fmt;
use std::sync::{Arc, PoisonError};
use std::thread;
use std::time::Duration;

/// How much time passes between two looks at a clock that is waited for.
const PAUSE: Duration = Duration::from_millis(1);

/// How long the store's lock is left to other threads between two steps.
const HANDOVER: Duration = Duration::from_micros(50);

/// The steps that complete a schema change, one at each call of `next`: [`Db::change`].
///
/// The step after a [`Step::Waiting`] comes once the clock has got to its moment: until then the
/// thread sleeps, and asks the clock every millisecond.
#[must_use = "a change goes on only as its steps are taken"]
pub struct Change<'db, C> {
    db: &'db Db,
    clock: C,
    pieces: u32,
    limit: u32,
    first: Option<Step>,
    /// The moment for which the last step waits.
    until: u64,
    /// By how many moments the clock was behind the world's last one at that step.
    behind: u64,
    is_ended: bool,
    /// What ends it before.
    pub(crate) ends: Ends<'db>,
    /// The schema before its first step, if it is known.
    pub(crate) before: Option<Schema>,
}

impl<'db, C: FnMut() -> u64> Change<'db, C> {
    /// The steps of what is under way, after this first one.
    pub(crate) fn new(db: &'db Db, clock: C, first: Option<Step>) -> Change<'db, C> {
        Change {
            db,
            clock,
            pieces: 8,
            limit: 1000,
            first,
            until: 0,
            behind: 0,
            is_ended: false,
            ends: Ends::default(),
            before: None,
        }
    }

    /// A change whose first step was published, or waits.
    pub(crate) fn begin(
        db: &'db Db,
        change: &Wanted<'_, SchemaChange>,
        mut clock: C,
    ) -> Result<Change<'db, C>, Error> {
        if matches!(change, Wanted::Words(words) if is_list(words)) {
            return Err(Error::BadLine);
        }
        let (now, before) = (clock(), db.session().schema().ok());
        let first = db.begin_change(change, now)?;
        let mut steps = Change::new(db, clock, Some(first));
        (steps.before, steps.behind) = (before, steps.behind_at(first, now));
        Ok(steps)
    }

    pub(crate) fn db(&self) -> &'db Db {
        self.db
    }

    /// By how many moments the clock was behind the world's last one, if the last step is a
    /// [`Step::Waiting`], or else 0: so one that began anew with the machine is noticed, and
    /// [`Db::clock`] is never behind.
    ///
    /// ```
    /// # use cagzhomul::{Db, Step, Table, Type};
    /// # let db = Db::open([Table::new("t").key("id", Type::Int)])?;
    /// db.lease(1_000)?;
    /// let mut steps = db.change("add column a int on t", || 4)?; // at the moment 1,000
    /// assert_eq!((steps.next(), steps.behind()), (Some(Ok(Step::Acted)), 0));
    /// let mut steps = db.resume(|| 4);
    /// assert_eq!((steps.next(), steps.behind()), (Some(Ok(Step::Waiting { until: 1_010 })), 996));
    /// # Ok::<(), cagzhomul::Error>(())
    /// ```
    pub fn behind(&self) -> u64 {
        self.behind
    }

    /// What [`Change::behind`] is after a step at this moment; 0 if memory runs out.
    fn behind_at(&self, step: Step, now: u64) -> u64 {
        match step {
            Step::Acted => 0,
            Step::Waiting { .. } => self.db.session().behind(now).unwrap_or(0),
        }
    }

    /// In how many pieces a reorganisation is begun: 1 to 64, and 8 if nothing else is said. Each
    /// is of about as many rows.
    pub fn pieces(mut self, pieces: u32) -> Change<'db, C> {
        self.pieces = pieces;
        self
    }

    /// How many items of a piece are worked in one step: 1 to 1,000, and 1,000 if nothing else is
    /// said. Fewer make more and shorter steps.
    ///
    /// ```
    /// # use cagzhomul::{Db, Step, Table, Type};
    /// # use std::cell::Cell;
    /// # let db = Db::open([Table::new("t").key("id", Type::Int).column("a", Type::Int)])?;
    /// # let now = Cell::new(0);
    /// let lease = db.lease(0)?;
    /// lease.txn().insert("t", 1, ()).insert("t", 2, ()).insert("t", 3, ()).commit(0)?;
    /// let mut acts = 0;
    /// for step in db.change("add index i on t (a)", || now.get())?.pieces(1).limit(1) {
    ///     match step? {
    ///         Step::Acted => acts += 1,
    ///         Step::Waiting { until } => now.set(until),
    ///     }
    /// }
    /// assert_eq!(acts, 7); // three versions, the begin, and a step for each row
    /// # Ok::<(), cagzhomul::Error>(())
    /// ```
    pub fn limit(mut self, limit: u32) -> Change<'db, C> {
        self.limit = limit;
        self
    }

    /// The moment, once it is that for which the last step waits, unless the steps are to end before.
    fn arrived(&mut self) -> Result<u64, Error> {
        loop {
            self.ends.check(self.db, &mut self.clock)?;
            let now = (self.clock)();
            if now >= self.until {
                return Ok(now);
            }
            thread::sleep(PAUSE);
        }
    }

    /// Does what is due at the present moment; `None` if no change is under way.
    fn step(&mut self) -> Result<Option<Step>, Error> {
        if let Some(first) = self.first.take() {
            return Ok(Some(first));
        }
        // a lock that is taken again at once is not handed to a thread that sleeps for it
        thread::sleep(HANDOVER);
        let now = self.arrived()?;
        let session = self.db.session();
        let step = session.advance(now, self.pieces, self.limit)?;
        self.behind = self.behind_at(step.unwrap_or(Step::Acted), now);
        Ok(step)
    }
}

impl<C: FnMut() -> u64> Iterator for Change<'_, C> {
    type Item = Result<Step, Error>;

    fn next(&mut self) -> Option<Self::Item> {
        if self.is_ended {
            return None;
        }
        let step = self.step().transpose();
        self.until = match &step {
            Some(Ok(Step::Waiting { until })) => *until,
            _ => 0,
        };
        self.is_ended = !matches!(step, Some(Ok(_)));
        step
    }
}

impl<C: FnMut() -> u64> std::iter::FusedIterator for Change<'_, C> {}

/// A change that waits for its first step.
pub(crate) struct WaitingChange {
    /// Its words.
    words: String,
    /// Its code, in which its table has its number: tables never change.
    code: Code,
    /// The names of the tables.
    names: Arc<Names>,
}

impl Db {
    /// Begins a change, or keeps it if its first step has to wait.
    fn begin_change(&self, change: &Wanted<'_, SchemaChange>, now: u64) -> Result<Step, Error> {
        let (session, names) = (self.session(), self.names());
        let mut waiting = session
            .waiting
            .lock()
            .unwrap_or_else(PoisonError::into_inner);
        if let Some(other) = &*waiting {
            let change = other.words.clone();
            return Err(Error::StillWaiting { change });
        }
        let wanted = session.read(change)?;
        let code = code::changes(&[wanted.into_owned()], |table| names.table(table));
        let words = change.to_string();
        let change = WaitingChange { words, code, names };
        let first = session.publish_first(&change, now)?;
        if first != Step::Acted {
            *waiting = Some(change);
        }
        Ok(first)
    }
}

impl Session {
    /// The words of the change that waits for its first step.
    pub(crate) fn waiting_words(&self) -> Option<String> {
        let waiting = self.waiting.lock().unwrap_or_else(PoisonError::into_inner);
        waiting.as_ref().map(|change| change.words.clone())
    }

    /// Publishes the first step of the change that waits; `None` if none does.
    pub(crate) fn begin_waiting(&self, now: u64) -> Result<Option<Step>, Error> {
        let mut waiting = self.waiting.lock().unwrap_or_else(PoisonError::into_inner);
        let Some(change) = &*waiting else {
            return Ok(None);
        };
        let first = self.publish_first(change, now);
        let waits = matches!(
            first,
            Ok(Step::Waiting { .. })
                | Err(Error::TooFar | Error::MomentTooLarge | Error::OutOfMemory)
        );
        if !waits {
            *waiting = None;
        }
        first.map(Some)
    }

    /// What [`Session::begin_waiting`] would come to; `None` if no change waits. It is tried in a fork
    /// of the world.
    pub(crate) fn due_of_waiting(&self, now: u64) -> Result<Option<Due>, Error> {
        let waiting = self.waiting.lock().unwrap_or_else(PoisonError::into_inner);
        let Some(change) = &*waiting else {
            return Ok(None);
        };
        let trial = self.fork()?;
        Ok(Some(match trial.publish_first(change, now)? {
            Step::Acted => Due::Entry(trial.entry(trial.log_length()?)?),
            Step::Waiting { until } => Due::Waiting { until },
        }))
    }

    /// Publishes the first step of a change's plan, unless it is too early. Both calls are under one
    /// lock, so that the plan is of the newest version.
    fn publish_first(&self, change: &WaitingChange, now: u64) -> Result<Step, Error> {
        let mut world = self.world()?;
        let plan = fetch(|_, out| world.plan(change.code.as_bytes(), out)).map_err(plan_refusal)?;
        let steps = steps_of(&plan, &change.names)?;
        let Some(first) = steps.first() else {
            return Err(Error::Reply("a plan without steps".to_string()));
        };
        match number_of(world.publish(now, &first.code)) {
            Ok(_) => {
                self.published();
                self.reached(now);
                Ok(Step::Acted)
            }
            Err(Error::TooEarly { until }) => Ok(Step::Waiting { until }),
            Err(refused) => Err(refused),
        }
    }
}

impl<C> fmt::Debug for Change<'_, C> {
    fn fmt(&self, f: &mut fmt::Formatter<'_>) -> fmt::Result {
        f.debug_struct("Change")
            .field("pieces", &self.pieces)
            .field("limit", &self.limit)
            .field("until", &self.until)
            .field("is_ended", &self.is_ended)
            .finish_non_exhaustive()
    }
}
