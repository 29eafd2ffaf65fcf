//! What libcagzhomul exports, as `include/cagzhomul.h` declares it; `ffi.rs` has the safe calls.
#![allow(unsafe_code)]

use crate::answers::*;
use std::ffi::c_void;
use std::ptr;

/// A handle type of the header. Its fields are the library's.
pub(crate) trait RawHandle: Sized {
    /// All zeros: it holds nothing.
    const CLOSED: Self;
    /// The function that frees what a handle of this type holds.
    const CLOSE: unsafe extern "C" fn(handle: *mut Self) -> i32;

    fn is_open(&self) -> bool;
}

/// Declares handle types, each with its name in the header and the function that closes it.
macro_rules! raw_handles {
    ($($raw:ident, $name:literal, $close:ident;)*) => {
        $(
            #[doc = concat!("`", $name, "`.")]
            #[repr(C)]
            pub(crate) struct $raw {
                at: *mut c_void,
                is_open: bool,
            }

            impl RawHandle for $raw {
                const CLOSED: Self = $raw {
                    at: ptr::null_mut(),
                    is_open: false,
                };
                const CLOSE: unsafe extern "C" fn(handle: *mut Self) -> i32 = $close;

                fn is_open(&self) -> bool {
                    self.is_open
                }
            }
        )*

        unsafe extern "C" {
            $(fn $close(handle: *mut $raw) -> i32;)*
        }
    };
}

raw_handles! {
    RawWorld, "cagzhomul_world_handle", cagzhomul_close_world;
    RawSession, "cagzhomul_session_handle", cagzhomul_close_session;
    RawLease, "cagzhomul_lease_handle", cagzhomul_close_lease;
    RawReads, "cagzhomul_reads_handle", cagzhomul_close_reads;
    RawTxn, "cagzhomul_txn_handle", cagzhomul_close_txn;
    RawSnapshot, "cagzhomul_snapshot_handle", cagzhomul_close_snapshot;
    RawBytes, "cagzhomul_bytes_handle", cagzhomul_close_bytes;
    RawPiece, "cagzhomul_piece_handle", cagzhomul_close_piece;
    RawPreparedPiece, "cagzhomul_prepared_piece_handle", cagzhomul_close_prepared_piece;
    RawCheckpoint, "cagzhomul_checkpoint_handle", cagzhomul_close_checkpoint;
}

unsafe extern "C" {
    pub(crate) fn cagzhomul_open(
        world: *mut RawWorld,
        opening: *const u8,
        opening_length: usize,
        furthest_jump: u64,
    ) -> i32;
    pub(crate) fn cagzhomul_open_at(
        world: *mut RawWorld,
        bytes: *const u8,
        length: usize,
        furthest_jump: u64,
    ) -> i32;
    pub(crate) fn cagzhomul_open_checkpoint(
        checkpoint: *mut RawCheckpoint,
        furthest_jump: u64,
        world: *mut RawWorld,
    ) -> i32;
    pub(crate) fn cagzhomul_log_length(world: *mut RawWorld) -> Outcome;
    pub(crate) fn cagzhomul_log_start(world: *mut RawWorld) -> Outcome;
    pub(crate) fn cagzhomul_cut(world: *mut RawWorld, keep: usize) -> i32;
    pub(crate) fn cagzhomul_entry(
        world: *mut RawWorld,
        place: usize,
        out: *mut u8,
        out_length: usize,
    ) -> Outcome;
    pub(crate) fn cagzhomul_repeat(
        world: *mut RawWorld,
        entry: *const u8,
        entry_length: usize,
    ) -> i32;
    pub(crate) fn cagzhomul_advance(
        world: *mut RawWorld,
        moment: u64,
        pieces: u32,
        limit: u32,
    ) -> Advanced;
    pub(crate) fn cagzhomul_due_entry(
        world: *mut RawWorld,
        moment: u64,
        pieces: u32,
        limit: u32,
        bytes: *mut RawBytes,
    ) -> Advanced;
    pub(crate) fn cagzhomul_lease(
        world: *mut RawWorld,
        moment: u64,
        lease: *mut RawLease,
    ) -> Granted;
    pub(crate) fn cagzhomul_lease_schema(lease: *mut RawLease, bytes: *mut RawBytes) -> i32;
    pub(crate) fn cagzhomul_read(
        world: *mut RawWorld,
        lease: *mut RawLease,
        operations: *const u8,
        operations_length: usize,
        reads: *mut RawReads,
    ) -> i32;
    pub(crate) fn cagzhomul_read_again(
        world: *mut RawWorld,
        reads: *mut RawReads,
        operations: *const u8,
        operations_length: usize,
    ) -> i32;
    pub(crate) fn cagzhomul_query_read(
        reads: *mut RawReads,
        query: *const u8,
        query_length: usize,
        bytes: *mut RawBytes,
    ) -> Queried;
    pub(crate) fn cagzhomul_prepare(reads: *mut RawReads, txn: *mut RawTxn) -> Prepared;
    pub(crate) fn cagzhomul_commit(
        world: *mut RawWorld,
        moment: u64,
        txn: *mut RawTxn,
        out: *mut u8,
        out_length: usize,
    ) -> Committed;
    pub(crate) fn cagzhomul_txn_entry(
        world: *mut RawWorld,
        moment: u64,
        txn: *mut RawTxn,
        out: *mut u8,
        out_length: usize,
        bytes: *mut RawBytes,
    ) -> Committed;
    pub(crate) fn cagzhomul_write(
        world: *mut RawWorld,
        moment: u64,
        lease: *mut RawLease,
        operations: *const u8,
        operations_length: usize,
    ) -> Committed;
    pub(crate) fn cagzhomul_query(
        world: *mut RawWorld,
        moment: u64,
        lease: *mut RawLease,
        query: *const u8,
        query_length: usize,
        bytes: *mut RawBytes,
    ) -> Queried;
    pub(crate) fn cagzhomul_query_page(
        world: *mut RawWorld,
        moment: u64,
        lease: *mut RawLease,
        request: *const u8,
        request_length: usize,
        bytes: *mut RawBytes,
    ) -> Paged;
    pub(crate) fn cagzhomul_snapshot(
        world: *mut RawWorld,
        moment: u64,
        lease: *mut RawLease,
        snapshot: *mut RawSnapshot,
    ) -> i32;
    pub(crate) fn cagzhomul_snapshot_query(
        snapshot: *mut RawSnapshot,
        query: *const u8,
        query_length: usize,
        bytes: *mut RawBytes,
    ) -> Queried;
    pub(crate) fn cagzhomul_snapshot_query_page(
        snapshot: *mut RawSnapshot,
        request: *const u8,
        request_length: usize,
        bytes: *mut RawBytes,
    ) -> Paged;
    pub(crate) fn cagzhomul_snapshot_check(snapshot: *mut RawSnapshot) -> Checked;
    pub(crate) fn cagzhomul_check(world: *mut RawWorld) -> Checked;
    pub(crate) fn cagzhomul_checkpoint(world: *mut RawWorld, checkpoint: *mut RawCheckpoint)
        -> i32;
    pub(crate) fn cagzhomul_saved_form(bytes: *const u8, length: usize) -> u32;
    pub(crate) fn cagzhomul_log_record(
        place: u64,
        entry: *const u8,
        entry_length: usize,
        out: *mut u8,
        out_length: usize,
    ) -> Outcome;
    pub(crate) fn cagzhomul_log_entry(place: u64, bytes: *const u8, length: usize) -> Outcome;
    pub(crate) fn cagzhomul_save(checkpoint: *mut RawCheckpoint, bytes: *mut RawBytes) -> i32;
    pub(crate) fn cagzhomul_schema(world: *mut RawWorld, bytes: *mut RawBytes) -> i32;
    pub(crate) fn cagzhomul_plan(
        world: *mut RawWorld,
        changes: *const u8,
        changes_length: usize,
        out: *mut u8,
        out_length: usize,
    ) -> Outcome;
    pub(crate) fn cagzhomul_status(
        world: *mut RawWorld,
        out: *mut u8,
        out_length: usize,
    ) -> Outcome;
    pub(crate) fn cagzhomul_publish(
        world: *mut RawWorld,
        moment: u64,
        step: *const u8,
        step_length: usize,
    ) -> Changed;
    pub(crate) fn cagzhomul_begin_reorg(
        world: *mut RawWorld,
        moment: u64,
        element: u32,
        pieces: u32,
    ) -> Changed;
    pub(crate) fn cagzhomul_read_piece(
        world: *mut RawWorld,
        element: u32,
        piece: u32,
        limit: u32,
        work: *mut RawPiece,
    ) -> i32;
    pub(crate) fn cagzhomul_prepare_piece(
        work: *mut RawPiece,
        prepared: *mut RawPreparedPiece,
    ) -> i32;
    pub(crate) fn cagzhomul_commit_piece(
        world: *mut RawWorld,
        moment: u64,
        prepared: *mut RawPreparedPiece,
    ) -> Pieced;
    pub(crate) fn cagzhomul_progress(world: *mut RawWorld, element: u32) -> Progressed;
    pub(crate) fn cagzhomul_bytes_from(
        bytes: *mut RawBytes,
        from: usize,
        out: *mut u8,
        out_length: usize,
    ) -> Outcome;
    pub(crate) fn cagzhomul_session_open(session: *mut RawSession) -> i32;
    pub(crate) fn cagzhomul_session_attach(session: *mut RawSession) -> i32;
    pub(crate) fn cagzhomul_reply_to(
        session: *mut RawSession,
        world: *mut RawWorld,
        line: *const u8,
        line_length: usize,
        out: *mut u8,
        out_length: usize,
    ) -> Outcome;
    pub(crate) fn cagzhomul_reply_from(
        session: *mut RawSession,
        from: usize,
        out: *mut u8,
        out_length: usize,
    ) -> Outcome;
    pub(crate) fn cagzhomul_txn_fault(
        schema: *const u8,
        schema_length: usize,
        operations: *const u8,
        operations_length: usize,
    ) -> ValueFault;
    pub(crate) fn cagzhomul_query_fault(
        schema: *const u8,
        schema_length: usize,
        query: *const u8,
        query_length: usize,
    ) -> ValueFault;
    pub(crate) fn cagzhomul_opening_fault(opening: *const u8, opening_length: usize) -> TableFault;
    pub(crate) fn cagzhomul_text_of(status: i32, out: *mut u8, out_length: usize) -> usize;
    pub(crate) fn cagzhomul_version() -> u32;
}
