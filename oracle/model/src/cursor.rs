//! How a cursor travels: opened, stepped both ways.
use crate::block::{Block, Region};
use crate::row::Row;
use crate::{refusal::*, Key, Refusal, KEY_LIMIT, LEAST_ROW};

#[derive(Clone, Copy, Debug, PartialEq, Eq)]
pub enum Order {
    Ascending,
    Descending,
}

#[derive(Clone, Debug, PartialEq, Eq)]
pub struct Cursor {
    pub order: Order,
    pub region: usize,
    /// Ascending, where the next row starts; descending, where the next row to give ends.
    pub at: usize,
    /// "How many of that region's rows end at or before its position."
    pub number: usize,
    pub key: Key,
    pub done: bool,
}

/// "Every row answer carries the region number and the row's number inside its region, both from 0": the row's region, not the
/// moved cursor's.
#[derive(Clone, Debug, PartialEq, Eq)]
pub struct Given {
    pub region: usize,
    pub number: usize,
    pub row: Row,
}

/// What a step does: the row, its key and the cursor moved past it; or "done".
enum Step {
    Given(Given, Vec<u8>, Cursor),
    Done,
}

impl Cursor {
    /// 14 and all of 15. "Region 0 at 0, or descending the last region at the data's end, with no key and no mark." Descending
    /// "now reads the last region and may give its row refusals", as met; ascending reads no row.
    pub fn open(block: &[u8], order: Order) -> Result<Cursor, Refusal> {
        let block = Block::new(block)?;
        block.test_all_offsets()?;
        let (region, at, number) = match order {
            Order::Ascending => (0, 0, 0),
            Order::Descending => (block.last(), block.data.len(), rows_of_last(&block)?),
        };
        Ok(Cursor { order, region, at, number, key: Key::none(), done: false })
    }

    /// One step: 14; 18 for region number and key; "done" of a marked cursor; 15; 18 for the position and the number, descending
    /// after row tests; row tests; 19. Gives the row, its key at the start of `out`, and moves the cursor; None is "done".
    pub fn next(&mut self, block: &[u8], out: &mut [u8]) -> Result<Option<Given>, Refusal> {
        let block = Block::new(block)?;
        self.test_region_and_key(&block)?;
        // "A marked cursor says "done" right after 14 and the first 18, its position untested", and so its number.
        if self.done {
            return Ok(None);
        }
        let step = match self.order {
            Order::Ascending => self.ascend(&block)?,
            Order::Descending => self.descend(&block)?,
        };
        match step {
            Step::Given(given, key, moved) => {
                // 19: "lent key buffer shorter than the key". Its "other bytes stay".
                let place = out.get_mut(..key.len()).ok_or(KEY_BUFFER)?;
                place.copy_from_slice(&key);
                *self = moved;
                Ok(Some(given))
            }
            Step::Done => {
                // "A step that says "done" sets only the mark."
                self.done = true;
                Ok(None)
            }
        }
    }

    /// 18: "region number not below the count, a previous key over 4,096".
    fn test_region_and_key(&self, block: &Block) -> Result<(), Refusal> {
        if self.region >= block.restarts() || self.key.len > KEY_LIMIT {
            return Err(STATE);
        }
        Ok(())
    }

    /// "Ascending, right is from the region's start to before its end, in the last region also at the end." The number is
    /// tested with the position, at the end too.
    fn ascend(&self, block: &Block) -> Result<Step, Refusal> {
        let region = block.region(self.region)?;
        let end = block.is_last(self.region) && self.at == region.end;
        if self.at < region.start || (self.at >= region.end && !end) {
            return Err(STATE);
        }
        self.test_number(self.at - region.start)?;
        if end {
            return Ok(Step::Done);
        }
        let (row, key) = block.row(region, self.at, self.key.get())?;
        let moved = self.past(block, region, &row, &key);
        Ok(Step::Given(Given { region: self.region, number: self.number, row }, key, moved))
    }

    /// "Ascending, where none are [read], one that is 0 past the region's start or above a twelfth of the bytes passed there."
    /// Another wrong one is handed on and counted from.
    fn test_number(&self, passed: usize) -> Result<(), Refusal> {
        if (self.number == 0 && passed > 0) || self.number > passed / LEAST_ROW {
            return Err(STATE);
        }
        Ok(())
    }

    /// "A step sets the key to its row's, and a finished region hands over to the next at once, then with no key", and with
    /// number 0. Handing over does not use the next region.
    fn past(&self, block: &Block, region: Region, row: &Row, key: &[u8]) -> Cursor {
        let mut moved = Cursor { at: row.next, number: self.number + 1, key: Key::of(key), ..self.clone() };
        if row.next == region.end && !block.is_last(self.region) {
            moved.region += 1;
            moved.number = 0;
            moved.key = Key::none();
        }
        moved
    }

    /// "Descending, right is the region's start and where a row of it, read from the start, ends; rows up to there are tested as
    /// read, none if the position lies outside the region." A wrong number is refused "after the rows read for it"; at the start,
    /// where none are, it must be 0 before anything else is done.
    fn descend(&self, block: &Block) -> Result<Step, Refusal> {
        let region = block.region(self.region)?;
        if self.at < region.start || self.at > region.end {
            return Err(STATE);
        }
        if self.at == region.start {
            return if self.number == 0 { self.descend_before(block) } else { Err(STATE) };
        }
        let read = rows_to(block, region, self.at)?;
        // A row that straddles the position, or another number of rows.
        if read.last.0.next != self.at || read.count != self.number {
            return Err(STATE);
        }
        Ok(self.given_back(self.region, read))
    }

    /// "At a region's start the region before is next": its last row; before region 0 there is nothing left.
    fn descend_before(&self, block: &Block) -> Result<Step, Refusal> {
        let Some(before) = self.region.checked_sub(1) else {
            return Ok(Step::Done);
        };
        let region = block.region(before)?;
        Ok(self.given_back(before, rows_to(block, region, region.end)?))
    }

    /// The position is "where the next row to give ends", and that is where this row starts: one row fewer ends up to there. "The
    /// key is neither used nor changed."
    fn given_back(&self, region: usize, read: Read) -> Step {
        let (row, key) = read.last;
        let number = read.count - 1;
        let moved = Cursor { region, at: row.start, number, ..self.clone() };
        Step::Given(Given { region, number, row }, key, moved)
    }

    /// 14 only. "Ascending, true once the position isn't below the data length or the mark is set; descending, only when it is
    /// set."
    pub fn is_empty(&self, block: &[u8]) -> Result<bool, Refusal> {
        let block = Block::new(block)?;
        Ok(match self.order {
            Order::Ascending => self.at >= block.data.len() || self.done,
            Order::Descending => self.done,
        })
    }
}

/// The last of the rows that were read of a region from its start, with its key, and how many they are: at least one.
struct Read {
    last: (Row, Vec<u8>),
    count: usize,
}

/// Rows read from the region's start until one ends at `stop` or past it. `stop` lies in the region, after its start.
fn rows_to(block: &Block, region: Region, stop: usize) -> Result<Read, Refusal> {
    let mut last = block.row(region, region.start, &[])?;
    let mut count = 1;
    while last.0.next < stop {
        last = block.row(region, last.0.next, &last.1)?;
        count += 1;
    }
    Ok(Read { last, count })
}

/// How many rows the last region has: all of them are read.
fn rows_of_last(block: &Block) -> Result<usize, Refusal> {
    let region = block.region(block.last())?;
    Ok(rows_to(block, region, region.end)?.count)
}
