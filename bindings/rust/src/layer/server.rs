//! What a server keeps: a store, and the newest version that is known of it.

use crate::error::Error;
use crate::layer::chance::{self, Mark};
use crate::layer::codes::{draft_of, mark_key, number_of, version_key, REORGS, VERSIONS};
use crate::layer::ffi::{self, Refusal};
use crate::layer::store::{bad_answer, read_page, Range, Store, StoreError};
use crate::names::Names;
use std::collections::BTreeMap;
use std::sync::{Arc, Mutex, PoisonError};
use std::time::{Duration, Instant};

/// How long at most a pause is before a draft that was refused is made again.
pub(super) const PAUSE: Duration = Duration::from_millis(5);
/// The code of no operations, and of no keys.
const NOTHING: &[u8] = b"\x01\0\0\0\0\0\0\0\0";

/// An open version: its record, and the names in it with its number.
#[derive(Debug)]
pub(super) struct Version {
    pub(super) record: Vec<u8>,
    pub(super) names: Names,
}

impl Version {
    /// The version of this number and record.
    pub(super) fn of(number: u64, record: Vec<u8>) -> Result<Version, StoreError> {
        let names = Names::read(number, record.clone());
        let names = names.map_err(|_| bad_answer("a version in another code"))?;
        Ok(Version { record, names })
    }

    pub(super) fn number(&self) -> u64 {
        self.names.version()
    }

    /// The key of its record.
    pub(super) fn key(&self) -> Vec<u8> {
        version_key(self.number())
    }
}

/// The open versions of a store by number, with their records: one or two, or none if there is no
/// database.
pub(super) fn versions_of<S: Store>(store: &S) -> Result<BTreeMap<u64, Vec<u8>>, StoreError> {
    let page = read_page(store, Range::new(VERSIONS, REORGS, 3))?;
    if page.pairs.len() > 2 {
        return Err(bad_answer("more than two open versions"));
    }
    let version = |(key, record): (Vec<u8>, Vec<u8>)| Ok((number_of(&key)?, record));
    page.pairs.into_iter().map(version).collect()
}

/// The newest version of a store.
fn newest_of<S: Store>(store: &S) -> Result<Version, Error> {
    match versions_of(store)?.pop_last() {
        None => Err(Error::NotOpened),
        Some((number, record)) => Ok(Version::of(number, record)?),
    }
}

/// Why a call was refused that has no names in it.
pub(super) fn refused(refusal: Refusal) -> Error {
    Error::of_change(refusal.status, refusal.number)
}

/// A store, and the newest version that is known of it.
#[derive(Debug)]
pub(super) struct Server<S> {
    pub(super) store: S,
    /// How long a draft whose answer was lost is handed in again.
    pub(super) patience: Duration,
    newest: Mutex<Arc<Version>>,
}

impl<S: Store> Server<S> {
    /// A server of a store, which has a database.
    pub(super) fn new(store: S, patience: Duration) -> Result<Server<S>, Error> {
        let newest = Mutex::new(Arc::new(newest_of(&store)?));
        Ok(Server {
            store,
            patience,
            newest,
        })
    }

    /// The newest version that is known, which may be closed by now.
    pub(super) fn version(&self) -> Arc<Version> {
        Arc::clone(&self.newest.lock().unwrap_or_else(PoisonError::into_inner))
    }

    /// Reads which version is the newest, unless another than the one that the caller used is known
    /// already, and says whether it is another.
    pub(super) fn refresh(&self, used: &Version) -> Result<bool, Error> {
        // the lock is held over the read, so that no older answer comes after a newer one
        let mut newest = self.newest.lock().unwrap_or_else(PoisonError::into_inner);
        let is_other = |it: &Version| it.number() != used.number() || it.record != used.record;
        if !is_other(&newest) {
            *newest = Arc::new(newest_of(&self.store)?);
        }
        Ok(is_other(&newest))
    }

    /// Whether the transaction of this mark was applied, after its answer was lost. If it was not, it
    /// never will be: a transaction without operations has put the mark.
    ///
    /// [`StoreError::Unknown`] if the answer to that is lost, too, and the mark is there, or if no
    /// answer comes in time.
    pub(super) fn is_settled(&self, mark: &Mark) -> Result<bool, Error> {
        let (mut is_mine, end) = (false, Instant::now() + self.patience);
        while Instant::now() < end {
            let version = self.version();
            let given = ffi::txn(version.number(), &version.record, NOTHING, NOTHING, mark);
            let draft = draft_of(given.map_err(refused)?.code())?;
            match self.store.apply(&draft) {
                Ok(()) => return Ok(false),
                Err(StoreError::Refused(key)) => {
                    if key == Some(mark_key(mark)) {
                        match is_mine {
                            true => break,
                            false => return Ok(true),
                        }
                    }
                    self.refresh(&version)?;
                }
                Err(StoreError::Unknown(_) | StoreError::BadAnswer(_)) => is_mine = true,
                Err(StoreError::Unreachable(_)) => {}
                Err(other) => return Err(other.into()),
            }
            chance::pause(PAUSE);
        }
        Err(unknown().into())
    }
}

/// What a transaction ends in of which nobody knows whether it was applied.
pub(super) fn unknown() -> StoreError {
    StoreError::Unknown("whether the transaction was applied".to_string())
}
