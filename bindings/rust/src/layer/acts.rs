//! Schema changes over a store, one act at each call of `next`.

use crate::code;
use crate::error::Error;
use crate::layer::codes::version_key;
use crate::layer::ffi;
use crate::layer::operator::{Handed, Operator};
use crate::layer::records::{Due, Records};
use crate::layer::store::{Store, StoreError};
use crate::plan::{plan_refusal, Move, PlannedStep, SchemaChange};
use crate::steps::steps_of;
use std::collections::VecDeque;
use std::fmt;

/// In how many pieces a reorganisation is begun, and how many pairs of a piece are read in one act, if
/// nothing else is said.
const PIECES: usize = 8;
const LIMIT: usize = 1000;

/// What an operator did.
#[derive(Debug, Clone, Copy, PartialEq, Eq, Hash)]
pub enum Act {
    /// The version before this one, the newest, was closed.
    Close {
        /// The newest version.
        version: u64,
    },
    /// The fill or the clear of an element was begun.
    Begin {
        /// The newest version.
        version: u64,
        /// The number of the element.
        element: u32,
    },
    /// Pairs of a piece were filled or cleared.
    Work {
        /// The newest version.
        version: u64,
        /// The number of the element.
        element: u32,
        /// The piece, from 0.
        piece: u32,
    },
    /// This version was published.
    Publish {
        /// The newest version.
        version: u64,
    },
}

/// What the acts follow at the moment.
enum Stage {
    /// A plan of the changes that have not begun is to be made.
    Plan,
    /// The steps of a plan are taken.
    Steps(Steps),
    /// What is under way is completed.
    Rest,
    /// Nothing is left, or an act had an error.
    Ended,
}

/// The steps of a plan that are left.
struct Steps {
    left: VecDeque<PlannedStep>,
    /// Whether the next one is the plan's first.
    is_first: bool,
    /// Whether a draft of the next one may be applied yet, or is.
    is_unsure: bool,
}

/// The acts that complete schema changes, one at each call of `next`: [`Layer::change`].
///
/// They are those of a least plan, unless another program publishes a version meanwhile, or a step is
/// too large for the store; then what is under way is completed, and changes that had not begun are
/// planned anew.
///
/// [`Layer::change`]: crate::layer::Layer::change
#[must_use = "a change goes on only as its acts are taken"]
pub struct Acts<'a, S> {
    operator: Operator<'a, S>,
    /// The changes that have not begun.
    left: Vec<SchemaChange>,
    stage: Stage,
    /// How many elements move at once.
    most: usize,
    first: Option<Act>,
}

impl<'a, S: Store> Acts<'a, S> {
    /// The acts of these changes, of which the first is done.
    pub(super) fn begin(store: &'a S, changes: &[SchemaChange]) -> Result<Acts<'a, S>, Error> {
        let mut acts = Acts::new(store, changes.to_vec(), Stage::Plan);
        acts.first = acts.next().transpose()?;
        Ok(acts)
    }

    /// The acts of what is under way.
    pub(super) fn resume(store: &'a S) -> Acts<'a, S> {
        Acts::new(store, Vec::new(), Stage::Rest)
    }

    fn new(store: &'a S, left: Vec<SchemaChange>, stage: Stage) -> Acts<'a, S> {
        Acts {
            operator: Operator::new(store, PIECES, LIMIT),
            left,
            stage,
            most: usize::MAX,
            first: None,
        }
    }

    /// In up to how many pieces a reorganisation is begun: 1 to 64, and 8 if nothing else is said; 0 is
    /// as 1, and more than 64 end in [`Error::BadCount`].
    pub fn pieces(mut self, pieces: usize) -> Acts<'a, S> {
        self.operator.pieces = pieces;
        self
    }

    /// How many pairs of a piece are read in one act, or fewer where the store or other transactions want
    /// that: 1,000 if nothing else is said, and 0 is as 1.
    pub fn limit(mut self, limit: usize) -> Acts<'a, S> {
        self.operator.limit(limit.max(1));
        self
    }

    /// One turn: an act that was done, if one was.
    fn turn(&mut self) -> Result<Option<Act>, Error> {
        match std::mem::replace(&mut self.stage, Stage::Ended) {
            Stage::Plan => {
                if !self.left.is_empty() {
                    self.operator.forget();
                    self.stage = Stage::Steps(Steps {
                        left: self.plan()?.into(),
                        is_first: true,
                        is_unsure: false,
                    });
                }
                Ok(None)
            }
            Stage::Steps(steps) => self.take_step(steps),
            Stage::Rest => self.take_rest(),
            Stage::Ended => Ok(None),
        }
    }

    /// The least plan of the changes that are left, from the newest version.
    fn plan(&mut self) -> Result<Vec<PlannedStep>, Error> {
        let records = self.operator.present()?;
        let names = &records.version.names;
        let changes = code::changes(&self.left, |table| names.table(table));
        let given = ffi::plan(&records.version.record, changes.as_bytes());
        let refused = |refusal: ffi::Refusal| plan_refusal(Error::of(refusal.status));
        steps_of(given.map_err(refused)?.code(), names)
    }

    /// Does what a plan's next step wants.
    fn take_step(&mut self, mut steps: Steps) -> Result<Option<Act>, Error> {
        let Some(next) = steps.left.front() else {
            self.stage = Stage::Rest;
            return Ok(None);
        };
        let records = self.operator.present()?;
        let due = records.due(Some(next), 0)?;
        let is_publish = matches!(due, Due::Publish { .. });
        let handed = match self.operator.act(&due) {
            Err(Error::Store(StoreError::TooLarge(_))) if is_publish && !steps.is_first => {
                self.stage = Stage::Rest;
                return Ok(None);
            }
            handed => handed?,
        };
        let is_done = handed == Handed::Applied;
        let newest = self.operator.present()?;
        steps.is_unsure |= is_publish && handed == Handed::Lost;
        if is_publish && (is_done || is_published(&steps, &records, &newest)?) {
            self.take_begun(next, &records);
            steps.left.pop_front();
            (steps.is_first, steps.is_unsure) = (false, false);
            self.stage = Stage::Steps(steps);
            let version = newest.version.number();
            return Ok(Some(Act::Publish { version }));
        }
        self.stage = match newest.version.number() == records.version.number() {
            true => Stage::Steps(steps),
            false => Stage::Rest,
        };
        Ok(is_done.then(|| act_of(&due, &newest)).flatten())
    }

    /// Does what is due by the records alone.
    fn take_rest(&mut self) -> Result<Option<Act>, Error> {
        let due = self.operator.present()?.due(None, self.most)?;
        if due == Due::Nothing {
            self.stage = Stage::Plan;
            return Ok(None);
        }
        let handed = match (self.operator.act(&due), &due) {
            // each element has the cursors of its pieces in the step
            (Err(Error::Store(StoreError::TooLarge(_))), Due::Publish { moves, .. })
                if *moves > 1 =>
            {
                self.most = moves / 2;
                Handed::Refused
            }
            (handed, _) => handed?,
        };
        self.stage = Stage::Rest;
        let newest = self.operator.present()?;
        let is_done = handed == Handed::Applied;
        Ok(is_done.then(|| act_of(&due, &newest)).flatten())
    }

    /// Takes the changes away that a step has begun: an element enters, or goes on its way, or turns.
    fn take_begun(&mut self, step: &PlannedStep, records: &Records) {
        let elements = &records.version.names.schema().elements;
        let of = |number: &u32| elements.iter().find(|it| it.number == *number);
        let is_begun = |change: &SchemaChange, it: &Move| {
            let (variant, table, name) = change.parts();
            let (acts, named): (&[u8], _) = match it {
                Move::Enter { table, name, .. } => (&[0, 2], Some((table, name))),
                Move::Go { element, .. } => (&[1, 3], of(element).map(|it| (&it.table, &it.name))),
                Move::Turn { element } => (&[4], of(element).map(|it| (&it.table, &it.name))),
            };
            acts.contains(&variant) && named.is_some_and(|it| (table, name) == (it.0, it.1))
        };
        self.left
            .retain(|change| !step.moves.iter().any(|it| is_begun(change, it)));
    }
}

/// Whether the next step was published after all: its answer was lost, or another program did it.
/// [`StoreError::Unknown`] if that cannot be known any more.
fn is_published(steps: &Steps, records: &Records, newest: &Records) -> Result<bool, Error> {
    let Some(step) = steps.left.front() else {
        return Ok(false);
    };
    let number = records.version.number() + 1;
    let draft = records.publish(&step.code)?;
    let due = draft.write.get(&version_key(number)).cloned().flatten();
    let found = newest.record_of(number);
    if steps.is_unsure && newest.version.number() > number && found.is_none() {
        let what = "whether the schema change has begun".to_string();
        return Err(StoreError::Unknown(what).into());
    }
    Ok(found.is_some() && found == due.as_ref())
}

/// What was done, under the newest version.
fn act_of(due: &Due, newest: &Records) -> Option<Act> {
    let version = newest.version.number();
    match *due {
        Due::Nothing => None,
        Due::Close => Some(Act::Close { version }),
        Due::Begin(element) => Some(Act::Begin { version, element }),
        Due::Publish { .. } => Some(Act::Publish { version }),
        Due::Work { element, piece } => Some(Act::Work {
            version,
            element,
            piece,
        }),
    }
}

impl<S: Store> Iterator for Acts<'_, S> {
    type Item = Result<Act, Error>;

    fn next(&mut self) -> Option<Self::Item> {
        if let Some(first) = self.first.take() {
            return Some(Ok(first));
        }
        loop {
            match self.turn() {
                Ok(None) if matches!(self.stage, Stage::Ended) => return None,
                Ok(None) => {}
                Ok(Some(act)) => return Some(Ok(act)),
                Err(error) => {
                    self.stage = Stage::Ended;
                    return Some(Err(error));
                }
            }
        }
    }
}

impl<S: Store> std::iter::FusedIterator for Acts<'_, S> {}

impl<S> fmt::Debug for Acts<'_, S> {
    fn fmt(&self, f: &mut fmt::Formatter<'_>) -> fmt::Result {
        f.debug_struct("Acts")
            .field("left", &self.left)
            .finish_non_exhaustive()
    }
}
