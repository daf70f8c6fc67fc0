use std::fmt;

use crate::ffi;
use crate::iter::IterationOrder;
use crate::refusal::{good, good_or_done, Refusal};
use crate::types::RowEntry;

/// Iterator over a V2 block, which uses its restart points to seek.
///
/// The block may be owned or borrowed: anything that lends its bytes. One that [`check`](crate::check) has not accepted may be
/// read too: nothing panics, and a row that can't be read is refused, but a seek may pass over the row that it is to find.
pub struct BlockIteratorV2<B: AsRef<[u8]>> {
    block: B,
    cursor: ffi::Cursor,
    // the key before, which the next row shares bytes with
    key: Box<[u8; ffi::KEY_BYTES]>,
    // the key of the row that is given
    row_key: Box<[u8; ffi::KEY_BYTES]>,
    refused: bool,
}

impl<B: AsRef<[u8]>> BlockIteratorV2<B> {
    /// Before the first row, or descending after the last. Refuses a block with a bad trailer or bad offsets; descending it
    /// reads the last region, to know the number of its last row, and refuses one that can't be read.
    pub fn new(block: B, ordering: IterationOrder) -> Result<Self, Refusal> {
        let mut cursor = ffi::Cursor::default();
        good(ffi::open(block.as_ref(), ordering.word(), cursor.words_mut()))?;
        Ok(Self {
            block,
            cursor,
            key: Box::new([0; ffi::KEY_BYTES]),
            row_key: Box::new([0; ffi::KEY_BYTES]),
            refused: false,
        })
    }

    pub fn new_ascending(block: B) -> Result<Self, Refusal> {
        Self::new(block, IterationOrder::Ascending)
    }

    /// The next row; None when no row is left, and then again and again. A refused step moves nothing, so that the next one is
    /// refused too; `for` loops end after it. The row says which one of the block it is: [`RowEntry::region`] and
    /// [`RowEntry::number`].
    #[allow(clippy::should_implement_trait)] // slatedb's shape; Iterator is implemented too
    pub fn next(&mut self) -> Result<Option<RowEntry>, Refusal> {
        let block = self.block.as_ref();
        let mut row = [0; ffi::ROW_WORDS];
        let code = ffi::next(
            block,
            self.cursor.words_mut(),
            &mut self.key[..],
            &mut self.row_key[..],
            &mut row,
        );
        Ok(if good_or_done(code)? {
            Some(RowEntry::read(row, &self.row_key[..], block))
        } else {
            None
        })
    }

    /// The next rows, at most so many, by one call of the library: those that as many calls of `next` would give. None when no
    /// row is left. A row that is refused ends them; the refusal is answered where no row comes before it.
    pub fn next_rows(&mut self, most: usize) -> Result<Vec<RowEntry>, Refusal> {
        let block = self.block.as_ref();
        let (mut keys, mut rows, mut count) = (vec![0; most * ffi::KEY_BYTES], vec![0; most * ffi::ROW_WORDS], 0);
        let given = ffi::Given {
            keys: &mut keys,
            rows: &mut rows,
            count: &mut count,
        };
        good_or_done(ffi::next_rows(block, self.cursor.words_mut(), &mut self.key[..], given))?;
        let mut rest = &keys[..];
        let each = rows.chunks_exact(ffi::ROW_WORDS).take(count as usize);
        Ok(each
            .map(|words| {
                let mut row = [0; ffi::ROW_WORDS];
                row.copy_from_slice(words);
                let entry = RowEntry::read(row, rest, block);
                rest = &rest[entry.key.len()..];
                entry
            })
            .collect())
    }

    /// On a block that [`check`](crate::check) accepts, moves to the first row at or above the key, or descending to the last
    /// at or below it, from wherever the iterator stands. On any other block it may pass over that row.
    /// Answers how many restart keys the search has read.
    pub fn seek(&mut self, next_key: &[u8]) -> Result<usize, Refusal> {
        let mut reads = 0;
        let code = ffi::seek(
            self.block.as_ref(),
            next_key,
            self.cursor.words_mut(),
            &mut self.key[..],
            &mut reads,
        );
        good_or_done(code)?;
        self.refused = false;
        Ok(reads as usize)
    }

    /// As slatedb's: ascending, true as soon as the last row was given; descending, once `next` or `seek` found no row.
    pub fn is_empty(&self) -> bool {
        let mut empty = 0;
        let code = ffi::is_empty(self.block.as_ref(), self.cursor.words(), &mut empty);
        // only a bad trailer is refused, which a block has that lends other bytes than when it was opened: `next` tells it
        good(code).is_ok() && empty == 1
    }
}

/// Where it stands: the region, the position there, and how many rows of the region end at or before it. The block's bytes are
/// left out.
impl<B: AsRef<[u8]>> fmt::Debug for BlockIteratorV2<B> {
    fn fmt(&self, f: &mut fmt::Formatter<'_>) -> fmt::Result {
        f.debug_struct("BlockIteratorV2")
            .field("cursor", &self.cursor)
            .finish_non_exhaustive()
    }
}

/// The rows that are left; a refusal is the last item.
impl<B: AsRef<[u8]>> Iterator for BlockIteratorV2<B> {
    type Item = Result<RowEntry, Refusal>;

    fn next(&mut self) -> Option<Self::Item> {
        if self.refused {
            return None;
        }
        let answer = BlockIteratorV2::next(self);
        self.refused = answer.is_err();
        answer.transpose()
    }
}
