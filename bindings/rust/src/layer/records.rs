//! The control records of a store, and what is due by them alone.

use crate::code;
use crate::error::Error;
use crate::layer::chance;
use crate::layer::codes::{
    bounds_of, cursor_key, cursor_of, draft_of, number_of, pairs_code, plan_code, version_key,
    CURSORS, MARKS, REORGS, VERSIONS,
};
use crate::layer::draft::Draft;
use crate::layer::ffi;
use crate::layer::server::{refused, Version};
use crate::layer::store::{bad_answer, read, Pair, Range, Store, StoreError};
use crate::plan::{PlannedStep, State};
use crate::schema::{SchemaElement, SchemaKind};
use std::collections::BTreeMap;

/// How many versions, reorganisations and cursors a store may have: each table has at most 48 elements,
/// of which each has one reorganisation of up to 64 pieces.
const MANY: usize = 100_000;

/// What is to be done next.
#[derive(Debug, Clone, PartialEq, Eq)]
pub(super) enum Due {
    /// All is done.
    Nothing,
    /// The version before the newest is to be closed.
    Close,
    /// The fill or the clear of an element is to begin.
    Begin(u32),
    /// A step is to be published, by its code and how many moves it has.
    Publish { step: Vec<u8>, moves: usize },
    /// A piece of an element's reorganisation is to go on.
    Work { element: u32, piece: u32 },
}

/// The state that comes next on an element's way; `None` if it is public, and stays.
fn next_state(element: &SchemaElement) -> Option<State> {
    let is_filled = match &element.what {
        SchemaKind::Index { .. } => true,
        SchemaKind::Column { default, .. } => default.is_some(),
    };
    match (element.state, element.is_dropped) {
        (State::DeleteOnly, true) => Some(State::Absent),
        (State::DeleteOnly, false) if is_filled => Some(State::WriteOnly),
        (State::DeleteOnly, false) => Some(State::Public),
        (State::WriteOnly, true) if is_filled => Some(State::DeleteOnly),
        (State::WriteOnly, false) if is_filled => Some(State::Public),
        _ => None,
    }
}

/// Whether the next move of an element needs a fill or a clear.
fn wants(element: &SchemaElement) -> bool {
    let next = next_state(element);
    let is_filling = element.state == State::WriteOnly && next == Some(State::Public);
    is_filling || next == Some(State::Absent)
}

/// The control records of a store, as they were at one moment, and as the drafts since then have
/// changed them.
#[derive(Debug)]
pub(super) struct Records {
    pairs: BTreeMap<Vec<u8>, Vec<u8>>,
    /// The newest version.
    pub(super) version: Version,
    /// The bounds of the pieces of each reorganisation that has begun, by its element.
    bounds: BTreeMap<u32, Vec<Pair>>,
}

impl Records {
    /// The records of a store.
    pub(super) fn read<S: Store>(store: &S) -> Result<Records, Error> {
        let kinds = [(VERSIONS, REORGS), (REORGS, CURSORS), (CURSORS, MARKS)];
        let wanted = kinds.map(|(low, high)| Range::new(low, high, MANY));
        let found = read(store, &[], &wanted)?;
        let mut both = found.pages.iter().zip(&wanted);
        if both.any(|(page, range)| page.end != range.high) {
            return Err(bad_answer("more control records than there may be").into());
        }
        Records::of(
            found
                .pages
                .into_iter()
                .flat_map(|page| page.pairs)
                .collect(),
        )
    }

    fn of(pairs: BTreeMap<Vec<u8>, Vec<u8>>) -> Result<Records, Error> {
        let of_kind = |kind: &'static [u8]| pairs.iter().filter(move |it| it.0.starts_with(kind));
        let Some((key, record)) = of_kind(VERSIONS).next_back() else {
            return Err(Error::NotOpened);
        };
        let version = Version::of(number_of(key)?, record.clone())?;
        let bounds = of_kind(REORGS).map(|(key, record)| {
            let element = u32::try_from(number_of(key)?);
            let element = element.map_err(|_| bad_answer("a reorganisation of no element"))?;
            Ok::<_, StoreError>((element, bounds_of(record)?))
        });
        let bounds = bounds.collect::<Result<_, _>>()?;
        Ok(Records {
            pairs,
            version,
            bounds,
        })
    }

    /// The records once a draft has been applied.
    pub(super) fn after(&self, draft: &Draft) -> Result<Records, Error> {
        let mut pairs = self.pairs.clone();
        for (key, value) in draft.write.iter().filter(|(key, _)| key[..] < *MARKS) {
            match value {
                None => pairs.remove(key),
                Some(value) => pairs.insert(key.clone(), value.clone()),
            };
        }
        Records::of(pairs)
    }

    /// [`StoreError::BadAnswer`] if a draft compares control records with others than these, of which it
    /// was made: they do not fit each other, and no store would apply it.
    pub(super) fn check(&self, draft: &Draft) -> Result<(), StoreError> {
        let mut control = draft.compare.iter().filter(|(key, _)| key[..] < *MARKS);
        match control.all(|(key, value)| self.pairs.get(key) == value.as_ref()) {
            true => Ok(()),
            false => Err(bad_answer("records that do not fit each other")),
        }
    }

    /// The record of this key.
    pub(super) fn record(&self, key: &[u8]) -> Result<&[u8], StoreError> {
        let record = self.pairs.get(key).ok_or(bad_answer("a record is missing"));
        record.map(Vec::as_slice)
    }

    /// The record of the version of this number, if it is open.
    pub(super) fn record_of(&self, number: u64) -> Option<&Vec<u8>> {
        self.pairs.get(&version_key(number))
    }

    /// The number of the version before the newest, 0 if that is the first.
    pub(super) fn before(&self) -> u32 {
        // there are at most 1,000,000 versions
        self.version.number().saturating_sub(1) as u32
    }

    /// The key up to which a piece has come.
    pub(super) fn cursor(&self, element: u32, piece: u32) -> Result<&[u8], StoreError> {
        cursor_of(self.record(&cursor_key(element, piece))?)
    }

    /// The key at which a piece ends.
    pub(super) fn end_of(&self, element: u32, piece: u32) -> Result<&[u8], StoreError> {
        let bounds = self
            .bounds
            .get(&element)
            .and_then(|it| it.get(piece as usize));
        Ok(&bounds.ok_or(bad_answer("no such piece"))?.1)
    }

    /// The pieces of a begun reorganisation that have not ended.
    fn open_pieces(&self, element: u32) -> Result<Vec<u32>, StoreError> {
        let mut open = Vec::new();
        for (piece, (_, high)) in (0..).zip(self.bounds.get(&element).into_iter().flatten()) {
            if self.cursor(element, piece)? < &high[..] {
                open.push(piece);
            }
        }
        Ok(open)
    }

    /// Whether the reorganisation of an element has begun and ended.
    fn is_ended(&self, element: u32) -> Result<bool, StoreError> {
        Ok(self.bounds.contains_key(&element) && self.open_pieces(element)?.is_empty())
    }

    /// The draft of a step.
    pub(super) fn publish(&self, step: &[u8]) -> Result<Draft, Error> {
        let reorgs = self.pairs.iter().filter(|it| it.0.starts_with(REORGS));
        let reorgs = pairs_code(reorgs.collect::<Vec<_>>());
        let given = ffi::publish(self.before(), &self.version.record, step, reorgs.as_bytes());
        Ok(draft_of(given.map_err(refused)?.code())?)
    }

    /// The moves of up to so many elements that may go on.
    fn ready_moves(&self, most: usize) -> Result<Vec<(u32, State)>, StoreError> {
        let mut moves = Vec::new();
        for it in &self.version.names.schema().elements {
            let Some(state) = next_state(it) else {
                continue;
            };
            if moves.len() < most && (!wants(it) || self.is_ended(it.number)?) {
                moves.push((it.number, state));
            }
        }
        Ok(moves)
    }

    /// The code and the number of moves of the step that comes next: that of a plan, or else one in which
    /// up to `most` elements that may go on go their ways, if there are any.
    fn next_step(
        &self,
        step: Option<&PlannedStep>,
        most: usize,
    ) -> Result<Option<(Vec<u8>, usize)>, StoreError> {
        if let Some(step) = step {
            return Ok(Some((step.code.clone(), step.moves.len())));
        }
        let moves = self.ready_moves(most)?;
        let step = code::step(&moves).as_bytes().to_vec();
        Ok((!moves.is_empty()).then_some((step, moves.len())))
    }

    /// One of the pieces that have not ended, so that several programs are not all at the same.
    fn open_piece(&self) -> Result<Due, StoreError> {
        let mut open = Vec::new();
        for element in self.bounds.keys() {
            let pieces = self.open_pieces(*element)?.into_iter();
            open.extend(pieces.map(|piece| (*element, piece)));
        }
        let place = chance::number().checked_rem(open.len() as u64);
        let chosen = place.and_then(|place| open.get(place as usize));
        let (element, piece) = *chosen.ok_or(bad_answer("no piece is open"))?;
        Ok(Due::Work { element, piece })
    }

    /// What the library says is to be done, by the next step of a plan; without one up to `most` elements
    /// at once are to go their ways.
    pub(super) fn due(&self, step: Option<&PlannedStep>, most: usize) -> Result<Due, StoreError> {
        let next = self.next_step(step, most)?;
        let plan = plan_code(next.as_ref().map(|(step, _)| &step[..]));
        let found = pairs_code(self.pairs.iter().collect::<Vec<_>>());
        let (before, version) = (self.before(), &self.version.record);
        let due = ffi::due(before, version, found.as_bytes(), plan.as_bytes());
        let due = due.ok_or(bad_answer("records that do not fit each other"))?;
        match (due.act, next) {
            (ffi::BEGIN, _) => Ok(Due::Begin(due.element)),
            (ffi::CLOSE, _) => Ok(Due::Close),
            (ffi::PUBLISH, Some((step, moves))) => Ok(Due::Publish { step, moves }),
            (ffi::WORK, _) => self.open_piece(),
            _ => Ok(Due::Nothing),
        }
    }
}
