//! How a block is laid: rows, then one 2-byte offset for each restart, then their 2-byte count, high byte first.
use crate::row::{self, KeyPart, Place, Row};
use crate::{refusal::*, Refusal};

/// A block whose trailer is good (14).
#[derive(Clone, Copy, Debug)]
pub struct Block<'a> {
    pub data: &'a [u8],
    offsets: &'a [u8],
}

/// "A restart region runs from its offset to the next, or to the data's end."
#[derive(Clone, Copy, Debug, PartialEq, Eq)]
pub struct Region {
    pub start: usize,
    pub end: usize,
}

/// An offset, and the count, take 2 bytes.
const OFFSET: usize = 2;

impl<'a> Block<'a> {
    /// 14: "block under 2 bytes, count 0, or trailer longer than the block".
    pub fn new(block: &'a [u8]) -> Result<Block<'a>, Refusal> {
        let count_at = block.len().checked_sub(OFFSET).ok_or(TRAILER)?;
        let (before_count, count) = block.split_at(count_at);
        let count = high_byte_first(count);
        if count == 0 {
            return Err(TRAILER);
        }
        let data_len = before_count.len().checked_sub(OFFSET * count).ok_or(TRAILER)?;
        let (data, offsets) = before_count.split_at(data_len);
        Ok(Block { data, offsets })
    }

    pub fn restarts(&self) -> usize {
        self.offsets.len() / OFFSET
    }

    pub fn is_last(&self, region: usize) -> bool {
        region == self.last()
    }

    /// The number of the last region: the count is never 0.
    pub(crate) fn last(&self) -> usize {
        self.restarts().saturating_sub(1)
    }

    fn offset(&self, number: usize) -> Option<usize> {
        self.offsets.chunks_exact(OFFSET).nth(number).map(high_byte_first)
    }

    /// "Using a region, or its restart's key, tests 15 for its offset and the next", that pair and no other. Whoever uses a
    /// region has tested its number; one not below the count is 18 here too.
    pub fn region(&self, number: usize) -> Result<Region, Refusal> {
        let start = self.offset(number).ok_or(STATE)?;
        if number == 0 && start != 0 {
            return Err(OFFSETS);
        }
        if start >= self.data.len() {
            return Err(OFFSETS);
        }
        if self.is_last(number) {
            return Ok(Region { start, end: self.data.len() });
        }
        let end = self.offset(number + 1).ok_or(OFFSETS)?;
        if end <= start || end >= self.data.len() {
            return Err(OFFSETS);
        }
        Ok(Region { start, end })
    }

    /// 15 for all: "first restart not 0, offsets not rising, or one not below the data length".
    pub fn test_all_offsets(&self) -> Result<(), Refusal> {
        for number in 0..self.restarts() {
            self.region(number)?;
        }
        Ok(())
    }

    /// The row at `at` in the region, and its full key.
    pub fn row(&self, region: Region, at: usize, previous: &[u8]) -> Result<(Row, Vec<u8>), Refusal> {
        let row = row::read(&self.place(region, at, previous.len()))?;
        let key = row::full_key(self.data, previous, row.shared, row.suffix_at, row.suffix_len);
        Ok((row, key))
    }

    /// A row is at a restart by its place; "missing" is against the end of the data, so the data alone is read.
    fn place(&self, region: Region, at: usize, previous_len: usize) -> Place<'a> {
        Place { data: self.data, at, previous_len, restart: at == region.start, region_end: region.end }
    }

    /// A restart's key, read without the rest of its row.
    pub fn restart_key(&self, number: usize) -> Result<&'a [u8], Refusal> {
        let region = self.region(number)?;
        let KeyPart { suffix_at, end, .. } = row::read_key(&self.place(region, region.start, 0))?;
        // "A restart shares 0 bytes", so its suffix is its key.
        self.data.get(suffix_at..end).ok_or(INPUT_ENDS)
    }
}

fn high_byte_first(bytes: &[u8]) -> usize {
    bytes.iter().fold(0, |number, byte| number << 8 | usize::from(*byte))
}
