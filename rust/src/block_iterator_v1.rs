use std::fmt;

use crate::iter::IterationOrder;
use crate::refusal::{good, good_or_done, Refusal};
use crate::types::RowEntry;
use crate::{ffi, ffi_v1};

/// Iterator over a V1 block, the earlier format, which seeks by the keys of all rows.
///
/// The block may be owned or borrowed: anything that lends its bytes. One that [`check_v1`](crate::check_v1) has not
/// accepted may be read too: nothing panics, and a row that can't be read is refused, but a seek may pass over the row that it
/// is to find. Nothing in a block tells its format: a V2 block is read here as if it were one of this format.
pub struct BlockIterator<B: AsRef<[u8]>> {
    block: B,
    cursor: ffi_v1::Cursor,
    // the key of the row that is given
    row_key: Box<[u8; ffi::KEY_BYTES]>,
    refused: bool,
}

impl<B: AsRef<[u8]>> BlockIterator<B> {
    /// Before the first row, or descending after the last. Refuses a block with a bad trailer or bad offsets, and, both ways,
    /// one whose first key can't be read: the other rows share bytes with it.
    pub fn new(block: B, ordering: IterationOrder) -> Result<Self, Refusal> {
        let mut cursor = ffi_v1::Cursor::default();
        good(ffi_v1::open(block.as_ref(), ordering.word(), cursor.words_mut()))?;
        Ok(Self {
            block,
            cursor,
            row_key: Box::new([0; ffi::KEY_BYTES]),
            refused: false,
        })
    }

    pub fn new_ascending(block: B) -> Result<Self, Refusal> {
        Self::new(block, IterationOrder::Ascending)
    }

    /// The next row; None when no row is left, and then again and again. A refused step moves nothing, so that the next one is
    /// refused too; `for` loops end after it. The row says which one of the block it is: [`RowEntry::number`].
    #[allow(clippy::should_implement_trait)] // slatedb's shape; Iterator is implemented too
    pub fn next(&mut self) -> Result<Option<RowEntry>, Refusal> {
        let block = self.block.as_ref();
        let mut row = [0; ffi_v1::ROW_WORDS];
        let code = ffi_v1::next(block, self.cursor.words_mut(), &mut self.row_key[..], &mut row);
        Ok(if good_or_done(code)? {
            Some(RowEntry::read_v1(row, &self.row_key[..], block))
        } else {
            None
        })
    }

    /// On a block that [`check_v1`](crate::check_v1) accepts, moves to the first row at or above the key, or descending to the
    /// last at or below it, from wherever the iterator stands. On any other block it may pass over that row.
    /// Answers how many keys the search has read.
    pub fn seek(&mut self, next_key: &[u8]) -> Result<usize, Refusal> {
        let mut reads = 0;
        let code = ffi_v1::seek(self.block.as_ref(), next_key, self.cursor.words_mut(), &mut reads);
        good_or_done(code)?;
        self.refused = false;
        Ok(reads as usize)
    }

    /// As slatedb's: both ways, true as soon as the last row was given.
    pub fn is_empty(&self) -> bool {
        let mut empty = 0;
        let code = ffi_v1::is_empty(self.block.as_ref(), self.cursor.words(), &mut empty);
        // only a bad trailer is refused, which a block has that lends other bytes than when it was opened: `next` tells it
        good(code).is_ok() && empty == 1
    }
}

/// Where it stands: how many rows it has passed, in its order. The block's bytes are left out.
impl<B: AsRef<[u8]>> fmt::Debug for BlockIterator<B> {
    fn fmt(&self, f: &mut fmt::Formatter<'_>) -> fmt::Result {
        f.debug_struct("BlockIterator")
            .field("cursor", &self.cursor)
            .finish_non_exhaustive()
    }
}

/// The rows that are left; a refusal is the last item.
impl<B: AsRef<[u8]>> Iterator for BlockIterator<B> {
    type Item = Result<RowEntry, Refusal>;

    fn next(&mut self) -> Option<Self::Item> {
        if self.refused {
            return None;
        }
        let answer = BlockIterator::next(self);
        self.refused = answer.is_err();
        answer.transpose()
    }
}
