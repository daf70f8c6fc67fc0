//! The static library's functions (`include/slatedb_block.h`) on slices, and its constants. All that is
//! unsafe is here, and for the earlier format in `ffi_v1`.
//!
//! Why each call is safe: the library takes any arguments that are as long as the length beside them says and not NULL, which
//! is how slices are given here; it writes only to what is lent by `&mut`, which nothing else can be lent with; it keeps no
//! pointer.

#![allow(unsafe_code)]

pub(crate) const GOOD: u8 = 0;
pub(crate) const DONE: u8 = 255;

pub(crate) const CURSOR_WORDS: usize = 6;
pub(crate) const BUILDER_WORDS: usize = 6;
pub(crate) const KEY_BYTES: usize = 4096;
pub(crate) const FIELDS_WORDS: usize = 6;
pub(crate) const SINGLE_WORDS: usize = 13;
pub(crate) const ROW_WORDS: usize = 15;

pub(crate) const ASCENDING: u64 = 0;
pub(crate) const DESCENDING: u64 = 1;

pub(crate) const VALUE: u64 = 0;
pub(crate) const TOMBSTONE: u64 = 1;
pub(crate) const MERGE: u64 = 2;

#[rustfmt::skip]
extern "C" {
    fn slatedb_builder_new(builder: *mut u64, builder_len: usize, block_size: usize, restart_interval: usize) -> u8;
    fn slatedb_builder_would_fit(builder: *const u64, builder_len: usize, last_key_bytes: *const u8, last_key_bytes_len: usize,
        data_len: usize, restarts_len: usize, key: *const u8, key_len: usize, value: *const u8, value_len: usize,
        fields: *const u64, fields_len: usize) -> u8;
    fn slatedb_builder_add(builder: *mut u64, builder_len: usize, last_key_bytes: *mut u8, last_key_bytes_len: usize,
        data: *mut u8, data_len: usize, restarts: *mut u16, restarts_len: usize, key: *const u8, key_len: usize,
        value: *const u8, value_len: usize, fields: *const u64, fields_len: usize) -> u8;
    fn slatedb_builder_is_empty(builder: *const u64, builder_len: usize, empty: *mut u64) -> u8;
    fn slatedb_builder_build(builder: *const u64, builder_len: usize, data: *mut u8, data_len: usize,
        restarts: *const u16, restarts_len: usize, count: *mut u64) -> u8;
    fn slatedb_check(block: *const u8, block_len: usize, count: *mut u64) -> u8;
    fn slatedb_open(block: *const u8, block_len: usize, order: u64, cursor: *mut u64, cursor_len: usize) -> u8;
    fn slatedb_next(block: *const u8, block_len: usize, cursor: *mut u64, cursor_len: usize,
        key_bytes: *mut u8, key_bytes_len: usize, out: *mut u8, out_len: usize, row: *mut u64, row_len: usize) -> u8;
    fn slatedb_next_rows(block: *const u8, block_len: usize, cursor: *mut u64, cursor_len: usize,
        key_bytes: *mut u8, key_bytes_len: usize, keys: *mut u8, keys_len: usize,
        rows: *mut u64, rows_len: usize, count: *mut u64) -> u8;
    fn slatedb_seek(block: *const u8, block_len: usize, target: *const u8, target_len: usize,
        cursor: *mut u64, cursor_len: usize, key_bytes: *mut u8, key_bytes_len: usize, reads: *mut u64) -> u8;
    fn slatedb_is_empty(block: *const u8, block_len: usize, cursor: *const u64, cursor_len: usize, empty: *mut u64) -> u8;
}

/// A cursor's words by their names: the header's `slatedb_cursor`.
#[derive(Clone, Copy, Debug, Default, PartialEq, Eq)]
#[repr(C)]
pub(crate) struct Cursor {
    pub order: u64,
    pub region: u64,
    pub at: u64,
    pub key_len: u64,
    pub done: u64,
    pub number: u64,
}

// it is its words and nothing else
const _: () = assert!(std::mem::size_of::<Cursor>() == CURSOR_WORDS * std::mem::size_of::<u64>());

impl Cursor {
    pub(crate) fn words(&self) -> &[u64; CURSOR_WORDS] {
        unsafe { &*(self as *const Cursor).cast() }
    }

    pub(crate) fn words_mut(&mut self) -> &mut [u64; CURSOR_WORDS] {
        unsafe { &mut *(self as *mut Cursor).cast() }
    }
}

/// What is offered to a builder.
#[derive(Clone, Copy)]
pub(crate) struct Offer<'a> {
    pub key: &'a [u8],
    pub value: &'a [u8],
    pub fields: &'a [u64],
}

pub(crate) fn builder_new(builder: &mut [u64], block_size: usize, restart_interval: usize) -> u8 {
    unsafe { slatedb_builder_new(builder.as_mut_ptr(), builder.len(), block_size, restart_interval) }
}

#[rustfmt::skip]
pub(crate) fn builder_would_fit(builder: &[u64], last_key: &[u8], data_len: usize, restarts_len: usize, offer: Offer<'_>) -> u8 {
    let Offer { key, value, fields } = offer;
    unsafe {
        slatedb_builder_would_fit(builder.as_ptr(), builder.len(), last_key.as_ptr(), last_key.len(), data_len, restarts_len,
            key.as_ptr(), key.len(), value.as_ptr(), value.len(), fields.as_ptr(), fields.len())
    }
}

#[rustfmt::skip]
pub(crate) fn builder_add(builder: &mut [u64], last_key: &mut [u8], data: &mut [u8], restarts: &mut [u16], offer: Offer<'_>) -> u8 {
    let Offer { key, value, fields } = offer;
    unsafe {
        slatedb_builder_add(builder.as_mut_ptr(), builder.len(), last_key.as_mut_ptr(), last_key.len(),
            data.as_mut_ptr(), data.len(), restarts.as_mut_ptr(), restarts.len(),
            key.as_ptr(), key.len(), value.as_ptr(), value.len(), fields.as_ptr(), fields.len())
    }
}

pub(crate) fn builder_is_empty(builder: &[u64], empty: &mut u64) -> u8 {
    unsafe { slatedb_builder_is_empty(builder.as_ptr(), builder.len(), empty) }
}

#[rustfmt::skip]
pub(crate) fn builder_build(builder: &[u64], data: &mut [u8], restarts: &[u16], count: &mut u64) -> u8 {
    unsafe {
        slatedb_builder_build(builder.as_ptr(), builder.len(), data.as_mut_ptr(), data.len(),
            restarts.as_ptr(), restarts.len(), count)
    }
}

pub(crate) fn check(block: &[u8], count: &mut u64) -> u8 {
    unsafe { slatedb_check(block.as_ptr(), block.len(), count) }
}

pub(crate) fn open(block: &[u8], order: u64, cursor: &mut [u64]) -> u8 {
    unsafe { slatedb_open(block.as_ptr(), block.len(), order, cursor.as_mut_ptr(), cursor.len()) }
}

#[rustfmt::skip]
pub(crate) fn next(block: &[u8], cursor: &mut [u64], key: &mut [u8], out: &mut [u8], row: &mut [u64]) -> u8 {
    unsafe {
        slatedb_next(block.as_ptr(), block.len(), cursor.as_mut_ptr(), cursor.len(), key.as_mut_ptr(), key.len(),
            out.as_mut_ptr(), out.len(), row.as_mut_ptr(), row.len())
    }
}

/// Where the rows of one call go.
pub(crate) struct Given<'a> {
    pub keys: &'a mut [u8],
    pub rows: &'a mut [u64],
    pub count: &'a mut u64,
}

#[rustfmt::skip]
pub(crate) fn next_rows(block: &[u8], cursor: &mut [u64], key: &mut [u8], given: Given<'_>) -> u8 {
    let Given { keys, rows, count } = given;
    unsafe {
        slatedb_next_rows(block.as_ptr(), block.len(), cursor.as_mut_ptr(), cursor.len(), key.as_mut_ptr(), key.len(),
            keys.as_mut_ptr(), keys.len(), rows.as_mut_ptr(), rows.len(), count)
    }
}

#[rustfmt::skip]
pub(crate) fn seek(block: &[u8], target: &[u8], cursor: &mut [u64], key: &mut [u8], reads: &mut u64) -> u8 {
    unsafe {
        slatedb_seek(block.as_ptr(), block.len(), target.as_ptr(), target.len(), cursor.as_mut_ptr(), cursor.len(),
            key.as_mut_ptr(), key.len(), reads)
    }
}

pub(crate) fn is_empty(block: &[u8], cursor: &[u64], empty: &mut u64) -> u8 {
    unsafe { slatedb_is_empty(block.as_ptr(), block.len(), cursor.as_ptr(), cursor.len(), empty) }
}

#[cfg(test)]
#[path = "ffi_tests.rs"]
mod tests;

// ---- the journal (`include/slatedb_journal.h`)

pub(crate) const JOURNAL_RECORD_WORDS: usize = 5;

#[rustfmt::skip]
extern "C" {
    fn slatedb_journal_record_at(journal: *const u8, journal_len: usize, at: usize, words: *mut u64, words_len: usize) -> u8;
    fn slatedb_journal_read(journal: *const u8, journal_len: usize, records: *mut u64, place: *mut u64) -> u8;
    fn slatedb_journal_balance(journal: *const u8, journal_len: usize, card: u64, balance: *mut i64, place: *mut u64) -> u8;
    fn slatedb_journal_append(buffer: *mut u8, buffer_len: usize, used: usize, kind: u64, card: u64, retry: u64, amount: u32,
        place: *mut u64) -> u8;
}

pub(crate) fn journal_record_at(journal: &[u8], at: usize, words: &mut [u64]) -> u8 {
    unsafe { slatedb_journal_record_at(journal.as_ptr(), journal.len(), at, words.as_mut_ptr(), words.len()) }
}

pub(crate) fn journal_read(journal: &[u8], records: &mut u64, place: &mut u64) -> u8 {
    unsafe { slatedb_journal_read(journal.as_ptr(), journal.len(), records, place) }
}

pub(crate) fn journal_balance(journal: &[u8], card: u64, balance: &mut i64, place: &mut u64) -> u8 {
    unsafe { slatedb_journal_balance(journal.as_ptr(), journal.len(), card, balance, place) }
}

/// A record that is offered: `kind` 1 to 3.
pub(crate) struct JournalOffer {
    pub kind: u64,
    pub card: u64,
    pub retry: u64,
    pub amount: u32,
}

#[rustfmt::skip]
pub(crate) fn journal_append(buffer: &mut [u8], used: usize, offer: JournalOffer, place: &mut u64) -> u8 {
    let JournalOffer { kind, card, retry, amount } = offer;
    unsafe { slatedb_journal_append(buffer.as_mut_ptr(), buffer.len(), used, kind, card, retry, amount, place) }
}
