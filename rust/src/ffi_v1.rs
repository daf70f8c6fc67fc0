//! The functions of the earlier format's static library (`include/slatedb_block_v1.h`) on slices, and its constants. A call is
//! safe for the reasons that `ffi` gives.

#![allow(unsafe_code)]

use crate::ffi::Offer;

pub(crate) const CURSOR_WORDS: usize = 2;
pub(crate) const BUILDER_WORDS: usize = 4;
pub(crate) const ROW_WORDS: usize = 14;

#[rustfmt::skip]
extern "C" {
    fn slatedb_v1_builder_new(builder: *mut u64, builder_len: usize, block_size: usize) -> u8;
    fn slatedb_v1_builder_would_fit(builder: *const u64, builder_len: usize, first_key_bytes: *const u8,
        first_key_bytes_len: usize, data_len: usize, offsets_len: usize, key: *const u8, key_len: usize,
        value: *const u8, value_len: usize, fields: *const u64, fields_len: usize) -> u8;
    fn slatedb_v1_builder_add(builder: *mut u64, builder_len: usize, first_key_bytes: *mut u8, first_key_bytes_len: usize,
        data: *mut u8, data_len: usize, offsets: *mut u16, offsets_len: usize, key: *const u8, key_len: usize,
        value: *const u8, value_len: usize, fields: *const u64, fields_len: usize) -> u8;
    fn slatedb_v1_builder_is_empty(builder: *const u64, builder_len: usize, empty: *mut u64) -> u8;
    fn slatedb_v1_builder_build(builder: *const u64, builder_len: usize, data: *mut u8, data_len: usize,
        offsets: *const u16, offsets_len: usize, count: *mut u64) -> u8;
    fn slatedb_v1_check(block: *const u8, block_len: usize, count: *mut u64) -> u8;
    fn slatedb_v1_open(block: *const u8, block_len: usize, order: u64, cursor: *mut u64, cursor_len: usize) -> u8;
    fn slatedb_v1_next(block: *const u8, block_len: usize, cursor: *mut u64, cursor_len: usize,
        out: *mut u8, out_len: usize, row: *mut u64, row_len: usize) -> u8;
    fn slatedb_v1_seek(block: *const u8, block_len: usize, target: *const u8, target_len: usize,
        cursor: *mut u64, cursor_len: usize, reads: *mut u64) -> u8;
    fn slatedb_v1_is_empty(block: *const u8, block_len: usize, cursor: *const u64, cursor_len: usize, empty: *mut u64) -> u8;
}

/// A cursor's words by their names: the header's `slatedb_v1_cursor`.
#[derive(Clone, Copy, Debug, Default, PartialEq, Eq)]
#[repr(C)]
pub(crate) struct Cursor {
    pub order: u64,
    pub passed: u64,
}

// it is its words and nothing else
const _: () = assert!(std::mem::size_of::<Cursor>() == CURSOR_WORDS * std::mem::size_of::<u64>());

impl Cursor {
    pub(crate) fn words(&self) -> &[u64; CURSOR_WORDS] {
        unsafe { &*(self as *const Cursor).cast() }
    }

    pub(crate) fn words_mut(&mut self) -> &mut [u64; CURSOR_WORDS] {
        unsafe { &mut *(self as *mut Cursor).cast() }
    }
}

pub(crate) fn builder_new(builder: &mut [u64], block_size: usize) -> u8 {
    unsafe { slatedb_v1_builder_new(builder.as_mut_ptr(), builder.len(), block_size) }
}

#[rustfmt::skip]
pub(crate) fn builder_would_fit(builder: &[u64], first_key: &[u8], data_len: usize, offsets_len: usize, offer: Offer<'_>) -> u8 {
    let Offer { key, value, fields } = offer;
    unsafe {
        slatedb_v1_builder_would_fit(builder.as_ptr(), builder.len(), first_key.as_ptr(), first_key.len(),
            data_len, offsets_len, key.as_ptr(), key.len(), value.as_ptr(), value.len(), fields.as_ptr(), fields.len())
    }
}

#[rustfmt::skip]
pub(crate) fn builder_add(builder: &mut [u64], first_key: &mut [u8], data: &mut [u8], offsets: &mut [u16], offer: Offer<'_>) -> u8 {
    let Offer { key, value, fields } = offer;
    unsafe {
        slatedb_v1_builder_add(builder.as_mut_ptr(), builder.len(), first_key.as_mut_ptr(), first_key.len(),
            data.as_mut_ptr(), data.len(), offsets.as_mut_ptr(), offsets.len(),
            key.as_ptr(), key.len(), value.as_ptr(), value.len(), fields.as_ptr(), fields.len())
    }
}

pub(crate) fn builder_is_empty(builder: &[u64], empty: &mut u64) -> u8 {
    unsafe { slatedb_v1_builder_is_empty(builder.as_ptr(), builder.len(), empty) }
}

#[rustfmt::skip]
pub(crate) fn builder_build(builder: &[u64], data: &mut [u8], offsets: &[u16], count: &mut u64) -> u8 {
    unsafe {
        slatedb_v1_builder_build(builder.as_ptr(), builder.len(), data.as_mut_ptr(), data.len(),
            offsets.as_ptr(), offsets.len(), count)
    }
}

pub(crate) fn check(block: &[u8], count: &mut u64) -> u8 {
    unsafe { slatedb_v1_check(block.as_ptr(), block.len(), count) }
}

pub(crate) fn open(block: &[u8], order: u64, cursor: &mut [u64]) -> u8 {
    unsafe { slatedb_v1_open(block.as_ptr(), block.len(), order, cursor.as_mut_ptr(), cursor.len()) }
}

#[rustfmt::skip]
pub(crate) fn next(block: &[u8], cursor: &mut [u64], out: &mut [u8], row: &mut [u64]) -> u8 {
    unsafe {
        slatedb_v1_next(block.as_ptr(), block.len(), cursor.as_mut_ptr(), cursor.len(),
            out.as_mut_ptr(), out.len(), row.as_mut_ptr(), row.len())
    }
}

#[rustfmt::skip]
pub(crate) fn seek(block: &[u8], target: &[u8], cursor: &mut [u64], reads: &mut u64) -> u8 {
    unsafe {
        slatedb_v1_seek(block.as_ptr(), block.len(), target.as_ptr(), target.len(),
            cursor.as_mut_ptr(), cursor.len(), reads)
    }
}

pub(crate) fn is_empty(block: &[u8], cursor: &[u64], empty: &mut u64) -> u8 {
    unsafe { slatedb_v1_is_empty(block.as_ptr(), block.len(), cursor.as_ptr(), cursor.len(), empty) }
}

#[cfg(test)]
#[path = "ffi_v1_tests.rs"]
mod tests;
