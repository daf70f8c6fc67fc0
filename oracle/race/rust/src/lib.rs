//! The unchanged Rust as a contender of the race: peer.h over `slate_oracle::timing`.
use slate_oracle::timing::{Row, Slate, Sums};
use std::cell::RefCell;
use std::slice::from_raw_parts;

#[repr(C)]
pub struct PeerRow {
    key: *const u8,
    key_len: usize,
    value: *const u8,
    value_len: usize,
    seq: u64,
}

thread_local! {
    static SLATE: RefCell<Slate> = RefCell::default();
}

fn slate<A>(call: impl FnOnce(&mut Slate) -> A) -> A {
    SLATE.with_borrow_mut(call)
}

/// # Safety
/// `rows` points to `n` rows, and each of them to its bytes, as peer.h has it.
unsafe fn copied(rows: *const PeerRow, n: usize) -> Vec<Row> {
    let copy = |row: &PeerRow| unsafe {
        Row {
            key: from_raw_parts(row.key, row.key_len).to_vec(),
            value: from_raw_parts(row.value, row.value_len).to_vec(),
            seq: row.seq,
        }
    };
    unsafe { from_raw_parts(rows, n) }.iter().map(copy).collect()
}

/// # Safety
/// As `copied`.
#[no_mangle]
pub unsafe extern "C" fn peer_load(rows: *const PeerRow, n: usize, size: usize, interval: usize) -> i32 {
    let rows = unsafe { copied(rows, n) };
    slate(|s| {
        s.prepare(&rows, 1);
        let whole = s.build(size, interval) == n;
        s.load();
        whole.into()
    })
}

/// # Safety
/// `len` points to a number. The bytes stay until the next block is built.
#[no_mangle]
pub unsafe extern "C" fn peer_block(len: *mut usize) -> *const u8 {
    slate(|s| {
        unsafe { *len = s.built().len() };
        s.built().as_ptr()
    })
}

/// # Safety
/// As `copied`.
#[no_mangle]
pub unsafe extern "C" fn peer_prepare(rows: *const PeerRow, n: usize, times: usize) {
    let rows = unsafe { copied(rows, n) };
    slate(|s| s.prepare(&rows, times));
}

#[no_mangle]
pub extern "C" fn peer_forward() -> Sums {
    slate(|s| s.scan(false))
}

#[no_mangle]
pub extern "C" fn peer_backward() -> Sums {
    slate(|s| s.scan(true))
}

/// # Safety
/// `target` points to its bytes.
#[no_mangle]
pub unsafe extern "C" fn peer_seek(descending: i32, target: *const u8, target_len: usize) -> Sums {
    let target = unsafe { from_raw_parts(target, target_len) };
    slate(|s| s.open_seek_next(descending != 0, target))
}

#[no_mangle]
pub extern "C" fn peer_build(block_size: usize, interval: usize) -> usize {
    slate(|s| s.build(block_size, interval))
}
