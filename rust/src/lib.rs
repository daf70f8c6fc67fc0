//! slatedb 0.16.0's V2 block builder and block iterator, over the proved static library `slatedb_block`, and those of its
//! earlier format, over `slatedb_block_v1`.
//!
//! Types and methods are slatedb's, with these changes:
//!
//! - Keys, values and blocks are vectors and slices; nothing is async, and there is no `init`. An iterator takes any block that
//!   is `AsRef<[u8]>`, and is an `Iterator` too.
//! - What slatedb panics at, and what a damaged block has in it, is a [`Refusal`]: constructors and `would_fit` answer a
//!   `Result` too. A row that doesn't fit stays `Ok(false)`.
//! - [`check`] is added: whether a whole block is good. `seek` answers how many restart keys its search read. `build` gives the
//!   encoded block. `new_with_restart_interval`, which slatedb has for tests, is for all.
//! - A row that is read says which one of its block it is: [`RowEntry::region`] and [`RowEntry::number`].
//! - The earlier format has [`BlockBuilderV1`], [`BlockIterator`] and [`check_v1`]. The caller names the format by what is
//!   called: nothing in a block tells it. There `seek` answers how many rows' keys its search read, and a row that is read has
//!   a number in its block, and no region.
//! - [`journal`] is added: the switch's journal, over the proved static library `slatedb_journal`.

#![deny(unsafe_code)]

mod block_iterator_v1;
mod block_iterator_v2;
mod block_v1;
mod block_v2;
mod ffi;
mod ffi_v1;
#[cfg(test)]
mod headers;
mod iter;
pub mod journal;
mod refusal;
mod types;

pub use block_iterator_v1::BlockIterator;
pub use block_iterator_v2::BlockIteratorV2;
pub use block_v1::BlockBuilderV1;
pub use block_v2::BlockBuilderV2;
pub use iter::IterationOrder;
pub use refusal::Refusal;
pub use types::{RowEntry, ValueDeletable};

/// Checks a whole V2 block: its trailer, its restarts, every row, and their order: keys never fall, and among equal keys the
/// sequence numbers do. Answers how many rows it has.
pub fn check(block: &[u8]) -> Result<usize, Refusal> {
    let mut count = 0;
    refusal::good(ffi::check(block, &mut count))?;
    Ok(count as usize)
}

/// Checks a whole block of the earlier format: its trailer, its offsets, every row, which has to end where the next one starts,
/// and their order, which is that of [`check`]. Answers how many rows it has.
pub fn check_v1(block: &[u8]) -> Result<usize, Refusal> {
    let mut count = 0;
    refusal::good(ffi_v1::check(block, &mut count))?;
    Ok(count as usize)
}
