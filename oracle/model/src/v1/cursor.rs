//! How a cursor travels in a block of the earlier format: opened, stepped both ways, sought with.
use super::row::{self, KeyPart, Place};
use crate::block::Block;
use crate::cursor::Order;
use crate::row::{full_key, Row};
use crate::seek::Sought;
use crate::{refusal::*, Refusal};

/// "The cursor: a direction and how many rows it has passed. No key, no mark: "done" is all passed."
#[derive(Clone, Copy, Debug, PartialEq, Eq)]
pub struct Cursor {
    pub order: Order,
    pub passed: usize,
}

/// "A row answer carries the row's number in the block, from 0, in place of region and number."
#[derive(Clone, Debug, PartialEq, Eq)]
pub struct Given {
    pub number: usize,
    pub row: Row,
}

/// A block whose trailer is good (14), by its rows.
pub struct Rows<'a>(Block<'a>);

impl<'a> Rows<'a> {
    pub fn new(block: &'a [u8]) -> Result<Rows<'a>, Refusal> {
        Block::new(block).map(Rows)
    }

    pub fn count(&self) -> usize {
        self.0.restarts()
    }

    /// "All of 15."
    pub fn test_all_offsets(&self) -> Result<(), Refusal> {
        self.0.test_all_offsets()
    }

    /// 15 for the row's offset and the next. The row ends where the next one starts, the last one at the data's end.
    fn place(&self, number: usize, first_len: usize) -> Result<Place<'a>, Refusal> {
        let region = self.0.region(number)?;
        Ok(Place { data: self.0.data, at: region.start, first_len, row_0: number == 0, next: Some(region.end) })
    }

    /// The row whole, and its full key.
    pub fn row(&self, number: usize, first: &[u8]) -> Result<(Row, Vec<u8>), Refusal> {
        let row = row::read(&self.place(number, first.len())?)?;
        let key = full_key(self.0.data, first, row.shared, row.suffix_at, row.suffix_len);
        Ok((row, key))
    }

    /// Its key alone.
    fn key(&self, number: usize, first: &[u8]) -> Result<Vec<u8>, Refusal> {
        let KeyPart { shared, suffix_at, suffix_len, .. } = row::read_key(&self.place(number, first.len())?)?;
        Ok(full_key(self.0.data, first, shared, suffix_at, suffix_len))
    }

    /// "15 for offset 0 and the next, row 0's key." No key is first before it.
    fn first_key(&self) -> Result<Vec<u8>, Refusal> {
        self.key(0, &[])
    }
}

impl Cursor {
    /// "Opening: 14, all of 15, then row 0's key (key-only), both directions."
    pub fn open(block: &[u8], order: Order) -> Result<Cursor, Refusal> {
        let rows = Rows::new(block)?;
        rows.test_all_offsets()?;
        rows.first_key()?;
        Ok(Cursor { order, passed: 0 })
    }

    /// "A step: 14; 18; done; 15 for offset 0 and the next, row 0's key; 15 for the row's offset and the next; the row; 19." 18:
    /// "more rows passed than there are".
    pub fn next(&mut self, block: &[u8], out: &mut [u8]) -> Result<Option<Given>, Refusal> {
        let rows = Rows::new(block)?;
        let left = rows.count().checked_sub(self.passed).ok_or(STATE)?;
        if left == 0 {
            return Ok(None);
        }
        let number = match self.order {
            Order::Ascending => self.passed,
            Order::Descending => left - 1,
        };
        let first = rows.first_key()?;
        let (row, key) = rows.row(number, &first)?;
        out.get_mut(..key.len()).ok_or(KEY_BUFFER)?.copy_from_slice(&key);
        self.passed += 1;
        Ok(Some(Given { number, row }))
    }

    /// "A seek takes only the direction: 14, row 0's key as in a step, then the search over all rows by key-only reads. It reports
    /// the keys that the search read, row 0's first read not counted. A "done" is all rows passed."
    pub fn seek(&mut self, block: &[u8], target: &[u8]) -> Result<Sought, Refusal> {
        let rows = Rows::new(block)?;
        let first = rows.first_key()?;
        let (answer, reads) = search(&rows, &first, self.order, target)?;
        // Where the span closes stands, ascending, the row to give; descending it is the one before.
        self.passed = match self.order {
            Order::Ascending => answer,
            Order::Descending => rows.count() - answer,
        };
        Ok(Sought { found: self.passed < rows.count(), reads })
    }

    /// "`is_empty`: 14 only; both ways true once all are passed."
    pub fn is_empty(&self, block: &[u8]) -> Result<bool, Refusal> {
        Ok(self.passed >= Rows::new(block)?.count())
    }
}

/// 01's search, its middle low + (high-low)/2, over the rows. "Ascending keeps the upper part if the key is below the target;
/// descending keeps it if the key is at or below."
fn search(rows: &Rows, first: &[u8], order: Order, target: &[u8]) -> Result<(usize, usize), Refusal> {
    let (mut low, mut high) = (0, rows.count());
    let mut reads = 0;
    while low < high {
        let middle = low + (high - low) / 2;
        let key = rows.key(middle, first)?;
        reads += 1;
        let upper = match order {
            Order::Ascending => key.as_slice() < target,
            Order::Descending => key.as_slice() <= target,
        };
        if upper {
            low = middle + 1;
        } else {
            high = middle;
        }
    }
    Ok((low, reads))
}
