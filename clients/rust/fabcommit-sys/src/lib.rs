//! The calls and structs of `include/fabcommit.h`, under their names. The header says what each does, and what a caller
//! owes. Crate `fabcommit` has safe calls.
#![no_std]
#![allow(non_camel_case_types)]

use core::ffi::c_void;

mod codes;
pub use codes::*;

/// Of zeros it is closed. It may be moved, but is never used from two copies.
#[repr(C)]
#[derive(Debug)]
pub struct fabcommit_handle {
    pub at: *mut c_void,
    pub is_open: bool,
}

macro_rules! structs {
    ($($name:ident of $size:literal { $($field:ident: $kind:ty),* $(,)? })*) => { $(
        #[repr(C)]
        #[derive(Clone, Copy, Debug, Default, PartialEq, Eq)]
        pub struct $name { $(pub $field: $kind),* }
        const _: () = assert!(size_of::<$name>() == $size);
    )* };
}

structs! {
    fabcommit_version_numbers of 12 { interface: u32, first_block: u32, last_block: u32 }
    fabcommit_receipt of 88 { number: u64, got: u64, flags: usize, header_hash: [u8; 32], commit_hash: [u8; 32] }
    fabcommit_piece of 16 { at: usize, len: usize }
    fabcommit_verdict of 72 {
        org: fabcommit_piece, label: fabcommit_piece, message: fabcommit_piece, signature: fabcommit_piece,
        role: u8, accepted: bool,
    }
    fabcommit_sizes of 16 { pool: usize, verdicts: usize }
    fabcommit_row of 24 { block: u64, tx: u32, len: usize }
    fabcommit_use of 16 { block: u64, tx: u32, flag: u8 }
    fabcommit_scanned_row of 48 { key: fabcommit_piece, value: fabcommit_piece, block: u64, tx: u32 }
    fabcommit_scan_sizes of 24 { pool: usize, rows: usize, more: bool }
    fabcommit_past_write of 48 { id: fabcommit_piece, value: fabcommit_piece, block: u64, tx: u32, deleted: bool }
    fabcommit_history_sizes of 16 { pool: usize, writes: usize }
    fabcommit_seen of 16 { block: u64, tx: u32, is_there: bool }
    fabcommit_identity of 40 { org: fabcommit_piece, label: fabcommit_piece, role: u8 }
    fabcommit_reason of 208 {
        name: fabcommit_piece, key: fabcommit_piece, start: fabcommit_piece, end: fabcommit_piece,
        id: fabcommit_piece, policy: fabcommit_piece, missing_org: fabcommit_piece,
        read: fabcommit_seen, there: fabcommit_seen,
        block: u64, range_place: usize, result_place: usize, first_identity: usize, signers: usize, refused: usize,
        tx: u32, flag: u8, kind: u8, used_flag: u8, text_fault: u8, missing_role: u8,
        has_tx: bool, exhausted: bool, has_missing: bool, another_order: bool,
    }
    fabcommit_reason_sizes of 40 { number: u64, got: u64, pool: usize, reasons: usize, identities: usize }
}

unsafe extern "C" {
    pub fn fabcommit_versions(versions: *mut fabcommit_version_numbers);
    pub fn fabcommit_open(
        handle: *mut fabcommit_handle,
        channel: *const u8,
        channel_len: usize,
        keys: *const u8,
        keys_len: usize,
    ) -> u32;
    pub fn fabcommit_close(handle: *mut fabcommit_handle);
    pub fn fabcommit_share(handle: *mut fabcommit_handle, other: *mut fabcommit_handle) -> u32;
    pub fn fabcommit_submit(
        handle: *mut fabcommit_handle,
        block: *const u8,
        block_len: usize,
        receipt: *mut fabcommit_receipt,
    ) -> u32;
    pub fn fabcommit_list(
        block: *const u8,
        block_len: usize,
        pool: *mut u8,
        pool_len: usize,
        verdicts: *mut fabcommit_verdict,
        verdicts_len: usize,
        sizes: *mut fabcommit_sizes,
    ) -> u32;
    pub fn fabcommit_submit_by(
        handle: *mut fabcommit_handle,
        block: *const u8,
        block_len: usize,
        pool: *const u8,
        pool_len: usize,
        verdicts: *const fabcommit_verdict,
        verdicts_len: usize,
        receipt: *mut fabcommit_receipt,
    ) -> u32;
    pub fn fabcommit_height(handle: *mut fabcommit_handle, height: *mut u64) -> u32;
    pub fn fabcommit_get(
        handle: *mut fabcommit_handle,
        ns: *const u8,
        ns_len: usize,
        key: *const u8,
        key_len: usize,
        row: *mut fabcommit_row,
        value: *mut u8,
        value_len: usize,
    ) -> u32;
    pub fn fabcommit_block(handle: *mut fabcommit_handle, number: u64, receipt: *mut fabcommit_receipt) -> u32;
    pub fn fabcommit_flags(
        handle: *mut fabcommit_handle,
        number: u64,
        flags: *mut u8,
        flags_len: usize,
        len: *mut usize,
    ) -> u32;
    pub fn fabcommit_definition(
        handle: *mut fabcommit_handle,
        chaincode: *const u8,
        chaincode_len: usize,
        text: *mut u8,
        text_len: usize,
        len: *mut usize,
    ) -> u32;
    pub fn fabcommit_first_use(
        handle: *mut fabcommit_handle,
        id: *const u8,
        id_len: usize,
        first: *mut fabcommit_use,
    ) -> u32;
    pub fn fabcommit_scan(
        handle: *mut fabcommit_handle,
        ns: *const u8,
        ns_len: usize,
        start: *const u8,
        start_len: usize,
        end: *const u8,
        end_len: usize,
        pool: *mut u8,
        pool_len: usize,
        rows: *mut fabcommit_scanned_row,
        rows_len: usize,
        sizes: *mut fabcommit_scan_sizes,
    ) -> u32;
    pub fn fabcommit_history(
        handle: *mut fabcommit_handle,
        ns: *const u8,
        ns_len: usize,
        key: *const u8,
        key_len: usize,
        pool: *mut u8,
        pool_len: usize,
        writes: *mut fabcommit_past_write,
        writes_len: usize,
        sizes: *mut fabcommit_history_sizes,
    ) -> u32;
    pub fn fabcommit_key_policy(
        handle: *mut fabcommit_handle,
        ns: *const u8,
        ns_len: usize,
        key: *const u8,
        key_len: usize,
        text: *mut u8,
        text_len: usize,
        len: *mut usize,
    ) -> u32;
    pub fn fabcommit_explain(
        handle: *mut fabcommit_handle,
        block: *const u8,
        block_len: usize,
        pool: *mut u8,
        pool_len: usize,
        reasons: *mut fabcommit_reason,
        reasons_len: usize,
        identities: *mut fabcommit_identity,
        identities_len: usize,
        sizes: *mut fabcommit_reason_sizes,
    ) -> u32;
    pub fn fabcommit_explain_by(
        handle: *mut fabcommit_handle,
        block: *const u8,
        block_len: usize,
        verdict_pool: *const u8,
        verdict_pool_len: usize,
        verdicts: *const fabcommit_verdict,
        verdicts_len: usize,
        pool: *mut u8,
        pool_len: usize,
        reasons: *mut fabcommit_reason,
        reasons_len: usize,
        identities: *mut fabcommit_identity,
        identities_len: usize,
        sizes: *mut fabcommit_reason_sizes,
    ) -> u32;
}
