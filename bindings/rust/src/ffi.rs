//! The functions of libcagzhomul behind safe calls; those of the layer are in `layer/ffi`.
//!
//! What `include/cagzhomul.h` asks of a caller holds of every call here:
//!
//! - A [`Handle`] begins as zeros, and is in a box of its own until it is dropped, so it is never
//!   moved or copied while it is open. Only the functions of the library write it.
//! - A call borrows its handles mutably: no other call uses them, and they are different ones.
//! - A slice has a pointer that is not null, also if it is empty, a length below 2^63, and bytes
//!   that have values; two slices of which one is mutable do not overlap.
#![allow(unsafe_code)]

pub(crate) use crate::answers::*;
use crate::exports::*;

/// What the library keeps for this crate, of one of the types below. It is closed when it is dropped.
pub(crate) struct Handle<R: RawHandle>(Box<R>);

/// A world: its tables, pairs, versions and log.
pub(crate) type WorldHandle = Handle<RawWorld>;
/// What a conversation by lines keeps beside its world.
pub(crate) type SessionHandle = Handle<RawSession>;
/// A lease.
pub(crate) type LeaseHandle = Handle<RawLease>;
/// The operations of a transaction, and what they read.
pub(crate) type ReadsHandle = Handle<RawReads>;
/// A prepared transaction.
pub(crate) type TxnHandle = Handle<RawTxn>;
/// A snapshot.
pub(crate) type SnapshotHandle = Handle<RawSnapshot>;
/// Bytes that a call gave.
pub(crate) type BytesHandle = Handle<RawBytes>;
/// The items of a piece, as they were read.
pub(crate) type PieceHandle = Handle<RawPiece>;
/// The items of a piece, as they may be committed.
pub(crate) type PreparedPieceHandle = Handle<RawPreparedPiece>;
/// A checkpoint of a world.
pub(crate) type CheckpointHandle = Handle<RawCheckpoint>;

// SAFETY: the header lets a handle go from one thread to another, if one call at a time uses it,
// which `&mut` says of each call; what an open handle points to belongs to it alone.
unsafe impl<R: RawHandle> Send for Handle<R> {}

impl<R: RawHandle> Handle<R> {
    /// A handle that holds nothing.
    pub(crate) fn closed() -> Self {
        Handle(Box::new(R::CLOSED))
    }

    /// Whether it holds anything.
    pub(crate) fn is_open(&self) -> bool {
        self.0.is_open()
    }

    pub(crate) fn raw(&mut self) -> *mut R {
        &mut *self.0
    }
}

impl<R: RawHandle> Drop for Handle<R> {
    fn drop(&mut self) {
        if self.is_open() {
            // SAFETY: the handle, as at the top of this file.
            unsafe { R::CLOSE(self.raw()) };
        }
    }
}

impl WorldHandle {
    /// Opens a world, by the code of its opening.
    pub(crate) fn open(&mut self, opening: &[u8], furthest_jump: u64) -> i32 {
        let (at, length) = (opening.as_ptr(), opening.len());
        // SAFETY: the handle and the slice, as at the top of this file.
        unsafe { cagzhomul_open(self.raw(), at, length, furthest_jump) }
    }

    /// Opens a world at the checkpoint whose bytes these are.
    pub(crate) fn open_at(&mut self, bytes: &[u8], furthest_jump: u64) -> i32 {
        let (at, length) = (bytes.as_ptr(), bytes.len());
        // SAFETY: the handle and the slice, as at the top of this file.
        unsafe { cagzhomul_open_at(self.raw(), at, length, furthest_jump) }
    }

    /// How many entries the log had ever.
    pub(crate) fn log_length(&mut self) -> Outcome {
        // SAFETY: the handle, as at the top of this file.
        unsafe { cagzhomul_log_length(self.raw()) }
    }

    /// How many of them come before those in memory.
    pub(crate) fn log_start(&mut self) -> Outcome {
        // SAFETY: the handle, as at the top of this file.
        unsafe { cagzhomul_log_start(self.raw()) }
    }

    /// Gives the memory of the log's entries back, but for the last `keep` of them.
    pub(crate) fn cut(&mut self, keep: usize) -> i32 {
        // SAFETY: the handle, as at the top of this file.
        unsafe { cagzhomul_cut(self.raw(), keep) }
    }

    /// Writes as much of the code of the log's entry of this place to `out` as fits.
    pub(crate) fn entry(&mut self, place: usize, out: &mut [u8]) -> Outcome {
        // SAFETY: the handle and the slice, as at the top of this file.
        unsafe { cagzhomul_entry(self.raw(), place, out.as_mut_ptr(), out.len()) }
    }

    /// Repeats an entry of another world's log, given by its code.
    pub(crate) fn repeat(&mut self, entry: &[u8]) -> i32 {
        // SAFETY: the handle and the slice, as at the top of this file.
        unsafe { cagzhomul_repeat(self.raw(), entry.as_ptr(), entry.len()) }
    }

    /// Does the one act that is due of the changes under way.
    pub(crate) fn advance(&mut self, moment: u64, pieces: u32, limit: u32) -> Advanced {
        // SAFETY: the handle, as at the top of this file.
        unsafe { cagzhomul_advance(self.raw(), moment, pieces, limit) }
    }

    /// Gives the code of the entry that this act would add into a closed handle.
    pub(crate) fn due_entry(
        &mut self,
        moment: u64,
        pieces: u32,
        limit: u32,
        bytes: &mut BytesHandle,
    ) -> Advanced {
        // SAFETY: both handles, as at the top of this file.
        unsafe { cagzhomul_due_entry(self.raw(), moment, pieces, limit, bytes.raw()) }
    }

    /// Grants a lease into a closed handle.
    pub(crate) fn lease(&mut self, moment: u64, lease: &mut LeaseHandle) -> Granted {
        // SAFETY: both handles, as at the top of this file.
        unsafe { cagzhomul_lease(self.raw(), moment, lease.raw()) }
    }

    /// Reads what operations under a lease want, by their code, into a closed handle.
    pub(crate) fn read(
        &mut self,
        lease: &mut LeaseHandle,
        operations: &[u8],
        reads: &mut ReadsHandle,
    ) -> i32 {
        let (at, length) = (operations.as_ptr(), operations.len());
        // SAFETY: the three handles and the slice, as at the top of this file.
        unsafe { cagzhomul_read(self.raw(), lease.raw(), at, length, reads.raw()) }
    }

    /// Gives a transaction that has read other operations, by their code, and reads what it has not
    /// read yet.
    pub(crate) fn read_again(&mut self, reads: &mut ReadsHandle, operations: &[u8]) -> i32 {
        let (at, length) = (operations.as_ptr(), operations.len());
        // SAFETY: both handles and the slice, as at the top of this file.
        unsafe { cagzhomul_read_again(self.raw(), reads.raw(), at, length) }
    }

    /// Commits the prepared transaction, and writes as much of the key of a pair that has changed to
    /// `out` as fits.
    pub(crate) fn commit(&mut self, moment: u64, txn: &mut TxnHandle, out: &mut [u8]) -> Committed {
        let (at, length) = (out.as_mut_ptr(), out.len());
        // SAFETY: both handles and the slice, as at the top of this file.
        unsafe { cagzhomul_commit(self.raw(), moment, txn.raw(), at, length) }
    }

    /// Gives the code of the entry that this commit would add into a closed handle.
    pub(crate) fn txn_entry(
        &mut self,
        moment: u64,
        txn: &mut TxnHandle,
        out: &mut [u8],
        bytes: &mut BytesHandle,
    ) -> Committed {
        let (at, length) = (out.as_mut_ptr(), out.len());
        // SAFETY: the three handles and the slice, as at the top of this file.
        unsafe { cagzhomul_txn_entry(self.raw(), moment, txn.raw(), at, length, bytes.raw()) }
    }

    /// Makes a transaction under a lease, by the code of its operations.
    pub(crate) fn write(
        &mut self,
        moment: u64,
        lease: &mut LeaseHandle,
        operations: &[u8],
    ) -> Committed {
        let (at, length) = (operations.as_ptr(), operations.len());
        // SAFETY: both handles and the slice, as at the top of this file.
        unsafe { cagzhomul_write(self.raw(), moment, lease.raw(), at, length) }
    }

    /// Answers a query under a lease, by its code, into a closed handle.
    pub(crate) fn query(
        &mut self,
        moment: u64,
        lease: &mut LeaseHandle,
        query: &[u8],
        rows: &mut BytesHandle,
    ) -> Queried {
        let (at, length) = (query.as_ptr(), query.len());
        // SAFETY: the three handles and the slice, as at the top of this file.
        unsafe { cagzhomul_query(self.raw(), moment, lease.raw(), at, length, rows.raw()) }
    }

    /// Answers a page under a lease, by the code of its request, into a closed handle.
    pub(crate) fn query_page(
        &mut self,
        moment: u64,
        lease: &mut LeaseHandle,
        request: &[u8],
        rows: &mut BytesHandle,
    ) -> Paged {
        let (at, length) = (request.as_ptr(), request.len());
        // SAFETY: the three handles and the slice, as at the top of this file.
        unsafe { cagzhomul_query_page(self.raw(), moment, lease.raw(), at, length, rows.raw()) }
    }

    /// Takes a snapshot under a lease, into a closed handle.
    pub(crate) fn snapshot(
        &mut self,
        moment: u64,
        lease: &mut LeaseHandle,
        snapshot: &mut SnapshotHandle,
    ) -> i32 {
        // SAFETY: the three handles, as at the top of this file.
        unsafe { cagzhomul_snapshot(self.raw(), moment, lease.raw(), snapshot.raw()) }
    }

    /// Audits this world.
    pub(crate) fn check(&mut self) -> Checked {
        // SAFETY: the handle, as at the top of this file.
        unsafe { cagzhomul_check(self.raw()) }
    }

    /// Takes the checkpoint of this world, into a closed handle.
    pub(crate) fn checkpoint(&mut self, checkpoint: &mut CheckpointHandle) -> i32 {
        // SAFETY: both handles, as at the top of this file.
        unsafe { cagzhomul_checkpoint(self.raw(), checkpoint.raw()) }
    }

    /// Writes the code of the newest version, into a closed handle.
    pub(crate) fn schema(&mut self, code: &mut BytesHandle) -> i32 {
        // SAFETY: both handles, as at the top of this file.
        unsafe { cagzhomul_schema(self.raw(), code.raw()) }
    }

    /// Plans a batch of changes, by its code, and writes what fits of the plan's code to `out`.
    pub(crate) fn plan(&mut self, changes: &[u8], out: &mut [u8]) -> Outcome {
        let (at, length) = (out.as_mut_ptr(), out.len());
        // SAFETY: the handle and both slices, as at the top of this file.
        unsafe { cagzhomul_plan(self.raw(), changes.as_ptr(), changes.len(), at, length) }
    }

    /// Writes as much of how this world stands to `out` as fits.
    pub(crate) fn status(&mut self, out: &mut [u8]) -> Outcome {
        // SAFETY: the handle and the slice, as at the top of this file.
        unsafe { cagzhomul_status(self.raw(), out.as_mut_ptr(), out.len()) }
    }

    /// Publishes the version that a step gives, by its code.
    pub(crate) fn publish(&mut self, moment: u64, step: &[u8]) -> Changed {
        // SAFETY: the handle and the slice, as at the top of this file.
        unsafe { cagzhomul_publish(self.raw(), moment, step.as_ptr(), step.len()) }
    }

    /// Begins the reorganisation that an element wants.
    pub(crate) fn begin_reorg(&mut self, moment: u64, element: u32, pieces: u32) -> Changed {
        // SAFETY: the handle, as at the top of this file.
        unsafe { cagzhomul_begin_reorg(self.raw(), moment, element, pieces) }
    }

    /// Reads the next items of a piece, into a closed handle.
    pub(crate) fn read_piece(
        &mut self,
        element: u32,
        piece: u32,
        limit: u32,
        work: &mut PieceHandle,
    ) -> i32 {
        // SAFETY: both handles, as at the top of this file.
        unsafe { cagzhomul_read_piece(self.raw(), element, piece, limit, work.raw()) }
    }

    /// Commits the prepared items of a piece.
    pub(crate) fn commit_piece(
        &mut self,
        moment: u64,
        prepared: &mut PreparedPieceHandle,
    ) -> Pieced {
        // SAFETY: both handles, as at the top of this file.
        unsafe { cagzhomul_commit_piece(self.raw(), moment, prepared.raw()) }
    }

    /// How far the reorganisation of an element is.
    pub(crate) fn progress(&mut self, element: u32) -> Progressed {
        // SAFETY: the handle, as at the top of this file.
        unsafe { cagzhomul_progress(self.raw(), element) }
    }
}

impl SessionHandle {
    /// Opens a session at its start: before its line `open`.
    pub(crate) fn open(&mut self) -> i32 {
        // SAFETY: the handle, as at the top of this file.
        unsafe { cagzhomul_session_open(self.raw()) }
    }

    /// Opens a session after its line `open`, for a world that is open.
    pub(crate) fn attach(&mut self) -> i32 {
        // SAFETY: the handle, as at the top of this file.
        unsafe { cagzhomul_session_attach(self.raw()) }
    }

    /// Answers a line in this world, and writes as much of the reply to `out` as fits.
    pub(crate) fn reply_to(
        &mut self,
        world: &mut WorldHandle,
        line: &[u8],
        out: &mut [u8],
    ) -> Outcome {
        let (at, length) = (out.as_mut_ptr(), out.len());
        let (line, line_length) = (line.as_ptr(), line.len());
        // SAFETY: both handles and both slices, as at the top of this file.
        unsafe { cagzhomul_reply_to(self.raw(), world.raw(), line, line_length, at, length) }
    }

    /// Writes as much of the last reply to `out` as fits, from this byte on.
    pub(crate) fn reply_from(&mut self, from: usize, out: &mut [u8]) -> Outcome {
        // SAFETY: the handle and the slice, as at the top of this file.
        unsafe { cagzhomul_reply_from(self.raw(), from, out.as_mut_ptr(), out.len()) }
    }
}

impl LeaseHandle {
    /// Writes the code of the version that this lease is on, into a closed handle.
    pub(crate) fn schema(&mut self, code: &mut BytesHandle) -> i32 {
        // SAFETY: both handles, as at the top of this file.
        unsafe { cagzhomul_lease_schema(self.raw(), code.raw()) }
    }
}

impl ReadsHandle {
    /// Answers a query of a row that was read, by its code, into a closed handle.
    pub(crate) fn query(&mut self, query: &[u8], rows: &mut BytesHandle) -> Queried {
        // SAFETY: both handles and the slice, as at the top of this file.
        unsafe { cagzhomul_query_read(self.raw(), query.as_ptr(), query.len(), rows.raw()) }
    }

    /// Prepares the transaction into a closed handle; this one stays.
    pub(crate) fn prepare(&mut self, txn: &mut TxnHandle) -> Prepared {
        // SAFETY: both handles, as at the top of this file.
        unsafe { cagzhomul_prepare(self.raw(), txn.raw()) }
    }
}

impl SnapshotHandle {
    /// Answers a query, by its code, into a closed handle.
    pub(crate) fn query(&mut self, query: &[u8], rows: &mut BytesHandle) -> Queried {
        // SAFETY: both handles and the slice, as at the top of this file.
        unsafe { cagzhomul_snapshot_query(self.raw(), query.as_ptr(), query.len(), rows.raw()) }
    }

    /// Answers a page, by the code of its request, into a closed handle.
    pub(crate) fn query_page(&mut self, request: &[u8], rows: &mut BytesHandle) -> Paged {
        let (at, length) = (request.as_ptr(), request.len());
        // SAFETY: both handles and the slice, as at the top of this file.
        unsafe { cagzhomul_snapshot_query_page(self.raw(), at, length, rows.raw()) }
    }

    /// Audits this snapshot.
    pub(crate) fn check(&mut self) -> Checked {
        // SAFETY: the handle, as at the top of this file.
        unsafe { cagzhomul_snapshot_check(self.raw()) }
    }
}

impl BytesHandle {
    /// Writes as much of these bytes to `out` as fits, from this one on.
    pub(crate) fn copy_from(&mut self, from: usize, out: &mut [u8]) -> Outcome {
        // SAFETY: the handle and the slice, as at the top of this file.
        unsafe { cagzhomul_bytes_from(self.raw(), from, out.as_mut_ptr(), out.len()) }
    }
}

impl PieceHandle {
    /// Prepares these items into a closed handle, and this one is closed.
    pub(crate) fn prepare(&mut self, prepared: &mut PreparedPieceHandle) -> i32 {
        // SAFETY: both handles, as at the top of this file.
        unsafe { cagzhomul_prepare_piece(self.raw(), prepared.raw()) }
    }
}

impl CheckpointHandle {
    /// Writes the bytes of this checkpoint, into a closed handle.
    pub(crate) fn save(&mut self, bytes: &mut BytesHandle) -> i32 {
        // SAFETY: both handles, as at the top of this file.
        unsafe { cagzhomul_save(self.raw(), bytes.raw()) }
    }

    /// Opens a world that goes on from this checkpoint in a closed handle, and this one is closed.
    pub(crate) fn open(&mut self, furthest_jump: u64, world: &mut WorldHandle) -> i32 {
        // SAFETY: both handles, as at the top of this file.
        unsafe { cagzhomul_open_checkpoint(self.raw(), furthest_jump, world.raw()) }
    }
}

/// Which value of operations is wrong under a schema, both by their codes.
pub(crate) fn txn_fault(schema: &[u8], operations: &[u8]) -> ValueFault {
    let (at, length) = (operations.as_ptr(), operations.len());
    // SAFETY: both slices, as at the top of this file.
    unsafe { cagzhomul_txn_fault(schema.as_ptr(), schema.len(), at, length) }
}

/// Which value of a query is wrong under a schema, both by their codes.
pub(crate) fn query_fault(schema: &[u8], query: &[u8]) -> ValueFault {
    let (at, length) = (query.as_ptr(), query.len());
    // SAFETY: both slices, as at the top of this file.
    unsafe { cagzhomul_query_fault(schema.as_ptr(), schema.len(), at, length) }
}

/// Why the tables of an opening may not be declared, by its code.
pub(crate) fn opening_fault(opening: &[u8]) -> TableFault {
    // SAFETY: the slice, as at the top of this file.
    unsafe { cagzhomul_opening_fault(opening.as_ptr(), opening.len()) }
}

/// The form of saved bytes: 0 damaged, 1 without a digest, 2 with the right one.
pub(crate) fn saved_form(bytes: &[u8]) -> u32 {
    // SAFETY: the slice, as at the top of this file.
    unsafe { cagzhomul_saved_form(bytes.as_ptr(), bytes.len()) }
}

/// Writes the record of an entry.
pub(crate) fn log_record(place: u64, entry: &[u8], out: &mut [u8]) -> Outcome {
    let (at, room) = (out.as_mut_ptr(), out.len());
    // SAFETY: both slices, as at the top of this file.
    unsafe { cagzhomul_log_record(place, entry.as_ptr(), entry.len(), at, room) }
}

/// Looks for the record of this place with which the bytes begin.
pub(crate) fn log_entry(place: u64, bytes: &[u8]) -> Outcome {
    // SAFETY: the slice, as at the top of this file.
    unsafe { cagzhomul_log_entry(place, bytes.as_ptr(), bytes.len()) }
}

/// The library's version.
pub(crate) fn version() -> u32 {
    // SAFETY: it takes nothing.
    unsafe { cagzhomul_version() }
}

/// The library's text for a status; any number has one.
pub(crate) fn text_of(status: i32) -> String {
    let mut out = [0; 256];
    // SAFETY: the slice, as at the top of this file.
    let length = unsafe { cagzhomul_text_of(status, out.as_mut_ptr(), out.len()) };
    String::from_utf8_lossy(&out[..length.min(out.len())]).into_owned()
}
