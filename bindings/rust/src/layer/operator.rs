//! What an operator does to the store of a database: one act after the other.

use crate::error::Error;
use crate::ffi::BAD_COUNT;
use crate::layer::chance;
use crate::layer::codes::{
    both, bounds_of, cursor_key, draft_of, pairs_code, points_code, reorg_key,
};
use crate::layer::divisions::divisions;
use crate::layer::draft::Draft;
use crate::layer::ffi;
use crate::layer::records::{Due, Records};
use crate::layer::server::refused;
use crate::layer::store::{bad_answer, read_page, Range, Store, StoreError, Values};
use std::sync::Arc;
use std::time::Duration;

/// In how many pieces a reorganisation may begin.
const MOST_PIECES: usize = 64;
/// How long at most a pause is after a draft that was refused.
const PAUSE: Duration = Duration::from_millis(10);

/// What became of a draft.
#[derive(Debug, Clone, Copy, PartialEq, Eq)]
pub(super) enum Handed {
    Applied,
    /// It was not applied, and will not be.
    Refused,
    /// Its answer was lost.
    Lost,
}

/// Does schema changes over a store.
#[derive(Debug)]
pub(super) struct Operator<'a, S> {
    pub(super) store: &'a S,
    pub(super) pieces: usize,
    /// How many pairs of a piece are read at most.
    limit: usize,
    /// How many of them are read, and fewer than which are too few.
    some: usize,
    least: usize,
    records: Option<Arc<Records>>,
}

impl<'a, S: Store> Operator<'a, S> {
    pub(super) fn new(store: &'a S, pieces: usize, limit: usize) -> Operator<'a, S> {
        Operator {
            store,
            pieces,
            limit,
            some: limit,
            least: 1,
            records: None,
        }
    }

    /// How many pairs of a piece are read in one act.
    pub(super) fn limit(&mut self, limit: usize) {
        (self.limit, self.some) = (limit, limit);
    }

    /// The records, read if they are not known.
    pub(super) fn present(&mut self) -> Result<Arc<Records>, Error> {
        let records = match self.records.take() {
            Some(known) => known,
            None => Arc::new(Records::read(self.store)?),
        };
        Ok(Arc::clone(self.records.insert(records)))
    }

    /// The records are read anew.
    pub(super) fn forget(&mut self) {
        self.records = None;
    }

    /// Hands a draft in; if it is not applied, or nobody knows, the records are read anew.
    fn hand_in(&mut self, draft: &Draft) -> Result<Handed, Error> {
        let records = self.present()?;
        records.check(draft)?;
        self.forget();
        let handed = match self.store.apply(draft) {
            Ok(()) => {
                self.records = Some(Arc::new(records.after(draft)?));
                return Ok(Handed::Applied);
            }
            Err(StoreError::Refused(_)) => Handed::Refused,
            Err(StoreError::Unknown(_) | StoreError::BadAnswer(_)) => Handed::Lost,
            Err(other) => return Err(other.into()),
        };
        chance::pause(PAUSE);
        Ok(handed)
    }

    /// Does an act.
    pub(super) fn act(&mut self, due: &Due) -> Result<Handed, Error> {
        let draft = match due {
            Due::Nothing => return Ok(Handed::Refused),
            Due::Work { element, piece } => return self.work(*element, *piece),
            Due::Begin(element) => self.begin(*element)?,
            Due::Publish { step, .. } => self.present()?.publish(step)?,
            Due::Close => {
                let records = self.present()?;
                let given = ffi::close(records.before(), &records.version.record);
                draft_of(given.map_err(refused)?.code())?
            }
        };
        self.hand_in(&draft)
    }

    /// The draft that begins the fill or the clear of an element, divided where keys are.
    fn begin(&mut self, element: u32) -> Result<Draft, Error> {
        if self.pieces > MOST_PIECES {
            return Err(Error::BadCount);
        }
        let whole = self.divided(element, Vec::new())?;
        if self.pieces <= 1 {
            return Ok(whole);
        }
        let record = whole.write.get(&reorg_key(element)).cloned().flatten();
        let bounds = bounds_of(&record.unwrap_or_default())?;
        let (low, high) = bounds.first().ok_or(bad_answer("no piece"))?;
        let keys = divisions(self.store, self.pieces, low, high)?;
        self.divided(element, keys)
    }

    /// The draft that begins it with a piece from each of these keys on.
    fn divided(&mut self, element: u32, keys: Vec<Vec<u8>>) -> Result<Draft, Error> {
        let records = self.present()?;
        let keys: Values = keys.into_iter().map(|key| (key, None)).collect();
        let (before, record) = (records.before(), &records.version.record);
        let given = ffi::begin(before, record, element, points_code(&keys).as_bytes());
        Ok(draft_of(given.map_err(refused)?.code())?)
    }

    /// Works the next pairs of a piece: fewer if the store or others that write there want that, and more
    /// again later.
    fn work(&mut self, element: u32, piece: u32) -> Result<Handed, Error> {
        let records = self.present()?;
        let (cursor, high) = (
            records.cursor(element, piece)?,
            records.end_of(element, piece)?,
        );
        let page = read_page(self.store, Range::new(cursor, high, self.some))?;
        let reorg = records.record(&reorg_key(element))?;
        let cursor = records.record(&cursor_key(element, piece))?;
        let pairs = pairs_code(both(&page.pairs));
        let draft = match ffi::piece(reorg, piece, cursor, &page.end, pairs.as_bytes()) {
            Ok(given) => draft_of(given.code())?,
            Err(refusal) if refusal.status == BAD_COUNT => {
                // not all of one row
                self.least = self.some.saturating_add(1);
                self.some = self.some.saturating_mul(2);
                return Ok(Handed::Refused);
            }
            Err(refusal) => return Err(refused(refusal)),
        };
        let fewer = (self.some / 2).max(self.least);
        match self.hand_in(&draft) {
            Err(Error::Store(StoreError::TooLarge(_))) if self.some > self.least => {
                self.records = Some(records);
                self.limit(fewer);
                Ok(Handed::Refused)
            }
            Err(error) => Err(error),
            Ok(handed) => {
                let more = self.some.saturating_mul(2).min(self.limit.max(self.least));
                self.some = match handed {
                    Handed::Applied => more,
                    _ => fewer,
                };
                Ok(handed)
            }
        }
    }
}
