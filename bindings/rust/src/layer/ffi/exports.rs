//! The functions of `include/cagzhomul_layer.h` as the library exports them.
#![allow(unsafe_code)]

use crate::ffi::Checked;

/// `cagzhomul_layered`.
#[repr(C)]
#[derive(Debug, Clone, Copy, PartialEq, Eq)]
pub(in crate::layer) struct Refusal {
    pub(in crate::layer) status: i32,
    pub(in crate::layer) column: u32,
    pub(in crate::layer) number: u64,
    pub(super) length: usize,
}

/// What is due, by its number: nothing is 0.
#[repr(C)]
#[derive(Debug, Clone, Copy, PartialEq, Eq)]
pub(in crate::layer) struct DueAct {
    pub(super) status: i32,
    pub(in crate::layer) act: u32,
    pub(in crate::layer) element: u32,
    piece: u64,
}

unsafe extern "C" {
    pub(super) fn cagzhomul_layer_open(
        opening: *const u8,
        opening_length: usize,
        out: *mut u8,
        out_length: usize,
    ) -> Refusal;
    pub(super) fn cagzhomul_layer_reads(
        version: *const u8,
        version_length: usize,
        operations: *const u8,
        operations_length: usize,
        out: *mut u8,
        out_length: usize,
    ) -> Refusal;
    pub(super) fn cagzhomul_layer_txn(
        number: u64,
        version: *const u8,
        version_length: usize,
        operations: *const u8,
        operations_length: usize,
        view: *const u8,
        view_length: usize,
        mark: *const u8,
        mark_length: usize,
        out: *mut u8,
        out_length: usize,
    ) -> Refusal;
    pub(super) fn cagzhomul_layer_ranges(
        version: *const u8,
        version_length: usize,
        query: *const u8,
        query_length: usize,
        out: *mut u8,
        out_length: usize,
    ) -> Refusal;
    pub(super) fn cagzhomul_layer_row_ranges(
        version: *const u8,
        version_length: usize,
        query: *const u8,
        query_length: usize,
        pairs: *const u8,
        pairs_length: usize,
        out: *mut u8,
        out_length: usize,
    ) -> Refusal;
    pub(super) fn cagzhomul_layer_rows(
        version: *const u8,
        version_length: usize,
        query: *const u8,
        query_length: usize,
        pairs: *const u8,
        pairs_length: usize,
        out: *mut u8,
        out_length: usize,
    ) -> Refusal;
    pub(super) fn cagzhomul_layer_plan(
        version: *const u8,
        version_length: usize,
        changes: *const u8,
        changes_length: usize,
        out: *mut u8,
        out_length: usize,
    ) -> Refusal;
    pub(super) fn cagzhomul_layer_publish(
        before: u32,
        version: *const u8,
        version_length: usize,
        step: *const u8,
        step_length: usize,
        found: *const u8,
        found_length: usize,
        out: *mut u8,
        out_length: usize,
    ) -> Refusal;
    pub(super) fn cagzhomul_layer_close(
        before: u32,
        version: *const u8,
        version_length: usize,
        out: *mut u8,
        out_length: usize,
    ) -> Refusal;
    pub(super) fn cagzhomul_layer_begin(
        before: u32,
        version: *const u8,
        version_length: usize,
        element: u32,
        keys: *const u8,
        keys_length: usize,
        out: *mut u8,
        out_length: usize,
    ) -> Refusal;
    pub(super) fn cagzhomul_layer_piece(
        reorg: *const u8,
        reorg_length: usize,
        piece: u32,
        cursor: *const u8,
        cursor_length: usize,
        to: *const u8,
        to_length: usize,
        pairs: *const u8,
        pairs_length: usize,
        out: *mut u8,
        out_length: usize,
    ) -> Refusal;
    pub(super) fn cagzhomul_layer_due(
        before: u32,
        version: *const u8,
        version_length: usize,
        found: *const u8,
        found_length: usize,
        plan: *const u8,
        plan_length: usize,
        published: u64,
    ) -> DueAct;
    pub(super) fn cagzhomul_layer_check_rows(
        version: *const u8,
        version_length: usize,
        pairs: *const u8,
        pairs_length: usize,
        low: *const u8,
        low_length: usize,
        to: *const u8,
        to_length: usize,
        out: *mut u8,
        out_length: usize,
    ) -> Refusal;
    pub(super) fn cagzhomul_layer_check_given(
        version: *const u8,
        version_length: usize,
        pairs: *const u8,
        pairs_length: usize,
        low: *const u8,
        low_length: usize,
        to: *const u8,
        to_length: usize,
        out: *mut u8,
        out_length: usize,
    ) -> Refusal;
    pub(super) fn cagzhomul_layer_check_page(
        version: *const u8,
        version_length: usize,
        pairs: *const u8,
        pairs_length: usize,
        low: *const u8,
        low_length: usize,
        to: *const u8,
        to_length: usize,
    ) -> Checked;
}
