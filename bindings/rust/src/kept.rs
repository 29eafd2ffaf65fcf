//! How a store grants leases, and the one that it keeps.

use crate::db::Db;
use crate::error::Error;
use crate::fetch::{bytes_given, done};
use crate::ffi::LeaseHandle;
use crate::lease::Grant;
use crate::names::Names;
use std::sync::{Arc, PoisonError};

impl Db {
    /// Grants a lease, with the names of its version.
    pub(crate) fn grant(&self, now: u64) -> Result<Grant, Error> {
        let mut lease = LeaseHandle::closed();
        let mut world = self.session().world()?;
        let granted = world.lease(now, &mut lease);
        done(granted.status)?;
        self.session().grown(&mut world, granted.place, now);
        let mut names = self.names.lock().unwrap_or_else(PoisonError::into_inner);
        if names.version() != granted.version {
            let code = bytes_given(|code| lease.schema(code))?;
            *names = Arc::new(Names::read(granted.version, code)?);
        }
        Ok(Grant::new(lease, granted, Arc::clone(&names)))
    }

    /// The names of the newest version that a lease was granted on, with those of all tables.
    pub(crate) fn names(&self) -> Arc<Names> {
        Arc::clone(&self.names.lock().unwrap_or_else(PoisonError::into_inner))
    }

    /// The kept lease; or a new one, if that is the refused one, has ended by then, or is on an older
    /// version.
    pub(crate) fn kept_lease(
        &self,
        now: u64,
        refused: Option<&Arc<Grant>>,
    ) -> Result<Arc<Grant>, Error> {
        let mut kept = self.kept.lock().unwrap_or_else(PoisonError::into_inner);
        if let Some(grant) = &*kept {
            let is_refused = refused.is_some_and(|lease| Arc::ptr_eq(lease, grant));
            if !self.session().is_newest(grant.schema())? {
                *kept = None; // another thread may still ask under it
            } else if !is_refused && now < grant.until() {
                return Ok(Arc::clone(grant));
            }
        }
        let grant = Arc::new(self.grant(now)?);
        Ok(Arc::clone(kept.insert(grant)))
    }
}
