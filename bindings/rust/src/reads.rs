//! What a transaction has read.

use crate::code::Code;
use crate::error::Error;
use crate::faults::wrong_operation;
use crate::fetch::done;
use crate::ffi::{self, ReadsHandle};
use crate::lease::Lease;
use crate::operations::{Kind, Operations};
use crate::query::{find, Query};
use crate::rows::Row;
use crate::value::Key;
use std::sync::{Mutex, PoisonError};

/// The rows that a transaction has got, and the handle that has read them.
pub(crate) struct Reads {
    /// Each row that it got by its code, with what it held.
    rows: Vec<(Vec<u8>, Option<Row>)>,
    /// It is open once something was read. The lock is for those who share a transaction.
    handle: Mutex<ReadsHandle>,
}

impl Reads {
    /// What a transaction has read at its start.
    pub(crate) fn new() -> Reads {
        Reads {
            rows: Vec::new(),
            handle: Mutex::new(ReadsHandle::closed()),
        }
    }

    /// The row of this code and key, as it was read first.
    pub(crate) fn get(
        &mut self,
        lease: &Lease<'_>,
        row: Vec<u8>,
        table: &str,
        key: Key,
    ) -> Result<Option<Row>, Error> {
        if let Some((_, found)) = self.rows.iter().find(|it| it.0 == row) {
            return Ok(found.clone());
        }
        let mut named = Operations::new();
        let rows = self.rows.iter().map(|it| &it.0);
        rows.chain([&row])
            .for_each(|it| named.push_row(Kind::Update, it));
        let (query, names) = (Query::of(table).key(key), lease.names());
        let (handle, status) = self.read(lease, &named.finish())?;
        if status != ffi::OK {
            return Err(query.refusal(names, status, 0));
        }
        let mut found = find(&query, names, |query, rows| Ok(handle.query(query, rows)))?;
        let found = found.pop();
        self.rows.push((row, found.clone()));
        Ok(found)
    }

    /// Reads what these operations name and was not read yet, and what was got and they do not name
    /// is pinned: the handle may be prepared. The code is that of all operations.
    pub(crate) fn finish(
        mut self,
        lease: &Lease<'_>,
        mut operations: Operations,
    ) -> Result<(ReadsHandle, Code), Error> {
        for (row, found) in &self.rows {
            operations.pin(row, found.is_some());
        }
        let code = operations.finish();
        match self.read(lease, &code)?.1 {
            // Only a text over 1,024 bytes makes a bad code of what this crate writes.
            ffi::BAD_CODE => return Err(wrong_operation(lease.names(), code.as_bytes())),
            status => done(status)?,
        }
        let handle = self.handle.into_inner();
        Ok((handle.unwrap_or_else(PoisonError::into_inner), code))
    }

    /// Reads the rows that operations name, by their code, and that were not read yet, and gives the
    /// status. A refusal leaves what was read.
    fn read(&mut self, lease: &Lease<'_>, code: &Code) -> Result<(&mut ReadsHandle, i32), Error> {
        let handle = self.handle.get_mut();
        let handle = handle.unwrap_or_else(PoisonError::into_inner);
        let mut world = lease.db().session().world()?;
        let status = match handle.is_open() {
            true => world.read_again(handle, code.as_bytes()),
            false => world.read(&mut lease.lock(), code.as_bytes(), handle),
        };
        Ok((handle, status))
    }
}

#[cfg(test)]
mod tests {
    use super::*;
    use crate::operations::row;

    /// Rows are found by their codes, after operations with and without cells.
    #[test]
    fn the_rows_of_operations() {
        let rows = [1, 2, 3].map(|key| row(7, &Key::from(key)));
        let mut operations = Operations::new();
        assert!(!operations.names(&rows[0]));
        operations.push(Kind::Insert, 7, &Key::from(1));
        operations.push_cells(&[("c", "a\0".into()), ("d", "".into())], |_| 1);
        operations.push_row(Kind::Delete, &rows[1]);
        operations.push_row(Kind::Update, &rows[0]);
        operations.push(Kind::Delete, 7, &Key::from(3));
        assert!(rows.iter().all(|row| operations.names(row)));
        let others = [
            row(7, &Key::from(4)),
            row(8, &Key::from(1)),
            row(7, &Key::from((1, 2))),
        ];
        assert!(!others.iter().any(|row| operations.names(row)));
        assert_eq!(
            operations.finish().as_bytes()[..9],
            *b"\x01\0\0\0\0\0\0\0\x04"
        );
    }
}
