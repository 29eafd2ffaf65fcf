//! What ends the steps of a change before it is complete, and what tells of them.

use crate::change::Change;
use crate::db::Db;
use crate::error::Error;
use crate::plan::State;
use crate::schema::{Schema, SchemaElement};
use std::collections::BTreeMap;
use std::fmt;
use std::time::{Duration, Instant};

/// What was left of the changes under way when the steps of a [`Change`] ended before they were
/// complete: [`Error::NotCompleted`]. [`Db::resume`] goes on.
#[derive(Debug, Clone, PartialEq, Eq)]
pub struct NotCompleted {
    /// The time that had passed; `None` if the steps were cancelled.
    pub within: Option<Duration>,
    /// The indexes and columns that are on their way, as they were then.
    pub elements: Vec<SchemaElement>,
    /// The change, in words, that waits for its first step.
    pub waiting: Option<String>,
    /// By how many moments the clock was behind the world's last one.
    pub behind: u64,
}

impl fmt::Display for NotCompleted {
    fn fmt(&self, f: &mut fmt::Formatter<'_>) -> fmt::Result {
        match self.within {
            Some(within) => write!(f, "not completed after {within:?}: ")?,
            None => f.write_str("cancelled: ")?,
        }
        let element = |it: &SchemaElement| {
            let way = if it.is_dropped { " and dropped" } else { "" };
            format!("{}.{} is {}{way}", it.table, it.name, it.state.word())
        };
        let mut left: Vec<String> = self.elements.iter().map(element).collect();
        let waiting = self.waiting.iter();
        left.extend(waiting.map(|it| format!("`{it}` waits for its first step")));
        if let behind @ 1.. = self.behind {
            left.push(format!(
                "the clock is {behind} moments behind the world's last one"
            ));
        }
        write!(f, "{}; `resume` goes on", left.join(", "))
    }
}

impl State {
    /// Its name in the script language.
    fn word(self) -> &'static str {
        match self {
            State::Absent => "absent",
            State::DeleteOnly => "delete_only",
            State::WriteOnly => "write_only",
            State::Public => "public",
        }
    }
}

/// What a [`Report`] tells of.
#[derive(Debug, Clone, Copy, PartialEq, Eq, Hash)]
pub enum Work {
    /// A version came in which the element has another state.
    Publish,
    /// The pairs of the element are written for all rows.
    Fill,
    /// All pairs of the element are deleted.
    Clear,
}

/// What was done of a change, as [`Change::complete`] tells it.
#[derive(Debug, Clone, PartialEq, Eq)]
pub struct Report {
    /// The index or the column, as it is in the newest version, or [`State::Absent`].
    pub element: SchemaElement,
    /// What was done.
    pub work: Work,
    /// How many items were done: none when a fill or a clear begins, and 1 of [`Work::Publish`].
    pub done: u64,
    /// Of how many that are there now.
    pub of: u64,
}

/// What ends the steps before they are complete.
#[derive(Default)]
pub(crate) struct Ends<'db> {
    within: Option<(Duration, Option<Instant>)>,
    cancel: Option<Box<dyn FnMut() -> bool + Send + 'db>>,
}

impl Ends<'_> {
    /// Whether the steps are to end, and if so the time that has passed, or `None` if they are cancelled.
    fn ended(&mut self) -> Option<Option<Duration>> {
        let now = Instant::now();
        let is_late = |end: &Option<Instant>| end.is_some_and(|end| now >= end);
        if let Some((within, _)) = self.within.filter(|it| is_late(&it.1)) {
            return Some(Some(within));
        }
        self.cancel.as_mut().is_some_and(|it| it()).then_some(None)
    }

    /// Refuses to go on with a store if the steps are to end and something of it is under way; `now` is
    /// asked only then.
    pub(crate) fn check(&mut self, db: &Db, now: impl FnOnce() -> u64) -> Result<(), Error> {
        let Some(within) = self.ended() else {
            return Ok(());
        };
        let mut elements = db.session().schema()?.elements;
        elements.retain(is_changing);
        let waiting = db.session().waiting_words();
        if elements.is_empty() && waiting.is_none() {
            return Ok(());
        }
        let behind = db.session().behind(now())?;
        Err(Error::NotCompleted(Box::new(NotCompleted {
            within,
            elements,
            waiting,
            behind,
        })))
    }
}

fn is_changing(element: &SchemaElement) -> bool {
    element.state != State::Public || element.is_dropped
}

impl<'db, C: FnMut() -> u64> Change<'db, C> {
    /// From now on the steps end in [`Error::NotCompleted`] once so much time has passed and something is
    /// still under way.
    ///
    /// ```
    /// # use cagzhomul::{Db, Error, Table, Type};
    /// # use std::time::Duration;
    /// # let db = Db::open([Table::new("t").key("id", Type::Int)])?;
    /// let change = db.change("add column a int on t", || 10)?; // a clock that stands still
    /// let ended = change.within(Duration::from_millis(20)).complete(|_| {});
    /// let Err(Error::NotCompleted(left)) = ended else { panic!() };
    /// assert_eq!((left.elements[0].name.as_str(), left.waiting), ("a", None));
    /// db.resume(|| 20).complete(|_| {})?;
    /// # Ok::<(), Error>(())
    /// ```
    pub fn within(mut self, limit: Duration) -> Change<'db, C> {
        self.ends.within = Some((limit, Instant::now().checked_add(limit)));
        self
    }

    /// The steps end in [`Error::NotCompleted`] once the function is true and something is still under way.
    /// It is asked before each step but the first, and every millisecond of a wait.
    ///
    /// ```
    /// # use cagzhomul::{Db, Error, Table, Type};
    /// # use std::sync::atomic::{AtomicBool, Ordering};
    /// # let db = Db::open([Table::new("t").key("id", Type::Int)])?;
    /// let is_ending = AtomicBool::new(true); // another thread sets it
    /// let change = db.change("add column a int on t", || 10)?;
    /// let ended = change.cancel(|| is_ending.load(Ordering::Relaxed)).complete(|_| {});
    /// assert!(matches!(ended, Err(Error::NotCompleted(left)) if left.within.is_none()));
    /// # Ok::<(), Error>(())
    /// ```
    pub fn cancel(mut self, cancel: impl FnMut() -> bool + Send + 'db) -> Change<'db, C> {
        self.ends.cancel = Some(Box::new(cancel));
        self
    }

    /// Takes the steps to their end: when the call returns, no change is under way. The function is called
    /// with what each step did.
    ///
    /// Refusals: those of the steps; after an error [`Db::resume`] goes on.
    ///
    /// ```
    /// # use cagzhomul::{OpenOptions, Table, Type};
    /// # let people = Table::new("people").key("id", Type::Int).column("town", Type::Text);
    /// let db = OpenOptions::new().lease_length(20).open([people])?;
    /// let clock = db.clock()?;
    /// let mut told = Vec::new();
    /// let change = db.change("add index by_town on people (town)", || clock.now())?;
    /// change.complete(|it| told.push(format!("{:?} {:?}", it.element.state, it.work)))?;
    /// let due = ["DeleteOnly Publish", "WriteOnly Publish", "WriteOnly Fill", "Public Publish"];
    /// assert_eq!(told, due);
    /// # Ok::<(), cagzhomul::Error>(())
    /// ```
    pub fn complete(mut self, progress: impl FnMut(&Report)) -> Result<(), Error> {
        let before = match self.before.take() {
            Some(before) => before,
            None => self.db().session().schema()?,
        };
        let mut watch = Watch::new(self.db(), before, progress);
        for step in self {
            step?;
            watch.look()?;
        }
        Ok(())
    }
}

/// What has been done since it last looked, for a function that is told of it.
struct Watch<'db, P> {
    db: &'db Db,
    progress: P,
    elements: BTreeMap<u32, SchemaElement>,
    /// How many items of a reorganisation were done, by its element.
    done: BTreeMap<u32, u64>,
}

impl<'db, P: FnMut(&Report)> Watch<'db, P> {
    fn new(db: &'db Db, before: Schema, progress: P) -> Watch<'db, P> {
        Watch {
            db,
            progress,
            elements: by_number(before),
            done: BTreeMap::new(),
        }
    }

    /// Tells what is new: versions, and then what fills and clears have done.
    fn look(&mut self) -> Result<(), Error> {
        let newest = by_number(self.db.session().schema()?);
        let before = std::mem::replace(&mut self.elements, newest);
        let mut changed = self.elements.clone();
        for (number, mut element) in before.clone() {
            element.state = State::Absent;
            changed.entry(number).or_insert(element);
        }
        changed.retain(|number, element| before.get(number) != Some(element));
        for (number, element) in changed {
            self.done.remove(&number);
            self.tell(element, Work::Publish, 1, 1);
        }
        let under_way = self.elements.values().filter(|it| is_changing(it));
        for element in under_way.cloned().collect::<Vec<_>>() {
            self.look_at(element)?;
        }
        Ok(())
    }

    /// Tells what the reorganisation of an element has done, if one has begun.
    fn look_at(&mut self, element: SchemaElement) -> Result<(), Error> {
        let found = match self.db.progress(element.number) {
            Err(Error::NotWanted) => return Ok(()),
            found => found?,
        };
        let done = found.all - found.left;
        if self.done.insert(element.number, done) == Some(done) {
            return Ok(());
        }
        let work = if element.is_dropped {
            Work::Clear
        } else {
            Work::Fill
        };
        self.tell(element, work, done, found.all);
        Ok(())
    }

    fn tell(&mut self, element: SchemaElement, work: Work, done: u64, of: u64) {
        let report = Report {
            element,
            work,
            done,
            of,
        };
        (self.progress)(&report);
    }
}

fn by_number(schema: Schema) -> BTreeMap<u32, SchemaElement> {
    let elements = schema.elements.into_iter();
    elements.map(|it| (it.number, it)).collect()
}
