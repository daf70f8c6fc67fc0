//! The seeks. "A seek starts afresh: it takes only the direction from the cursor and never answers 18."
use crate::block::Block;
use crate::cursor::{Cursor, Order};
use crate::{Key, Refusal};

/// Whether there is such a row, and how many restart keys the search read.
#[derive(Clone, Copy, Debug, PartialEq, Eq)]
pub struct Sought {
    pub found: bool,
    pub reads: usize,
}

impl Cursor {
    /// 14; then the search and the walk, with the first refusal they meet; a refused seek leaves the cursor as it came.
    pub fn seek(&mut self, block: &[u8], target: &[u8]) -> Result<Sought, Refusal> {
        let block = Block::new(block)?;
        let (answer, reads) = search(&block, target)?;
        *self = match self.order {
            Order::Ascending => ascending(&block, target, answer)?,
            Order::Descending => descending(&block, target, answer)?,
        };
        Ok(Sought { found: !self.done, reads })
    }
}

/// "The search takes the middle, low + (high-low)/2, of the span from 0 to the restart count, reads that restart's key, and keeps
/// the upper part if the key is below the target, else the lower one, until the span is empty." Its answer "is where the span
/// closes; it may be the count"; beside it the number of restart keys read.
fn search(block: &Block, target: &[u8]) -> Result<(usize, usize), Refusal> {
    let (mut low, mut high) = (0, block.restarts());
    let mut reads = 0;
    while low < high {
        let middle = low + (high - low) / 2;
        let key = block.restart_key(middle)?;
        reads += 1;
        if key < target {
            low = middle + 1;
        } else {
            high = middle;
        }
    }
    Ok((low, reads))
}

/// "Start one restart earlier (not below 0) and walk to the first row at or above the target, else "done"." The cursor "holds the
/// key of the row before in the same region, else none"; its number is how many rows stand before in that region.
fn ascending(block: &Block, target: &[u8], answer: usize) -> Result<Cursor, Refusal> {
    let mut passed = 0;
    for number in answer.saturating_sub(1)..block.restarts() {
        let region = block.region(number)?;
        let mut at = region.start;
        let mut before = Vec::new();
        passed = 0;
        while at < region.end {
            let (row, key) = block.row(region, at, &before)?;
            if key.as_slice() >= target {
                let key = Key::of(&before);
                return Ok(Cursor { order: Order::Ascending, region: number, at, number: passed, key, done: false });
            }
            at = row.next;
            before = key;
            passed += 1;
        }
    }
    // The walk ended with the last region, all of whose rows were passed.
    Ok(done(Order::Ascending, block.last(), block.data.len(), passed))
}

/// "Read that whole region, take its last row at or below the target; if none, the region before, and so on, else "done"." The
/// position is where that row ends, the number how many rows end up to there.
fn descending(block: &Block, target: &[u8], answer: usize) -> Result<Cursor, Refusal> {
    let start = descending_start(block, target, answer)?;
    for region in (0..=start).rev() {
        if let Some((at, number)) = last_at_or_below(block, target, region)? {
            return Ok(Cursor { order: Order::Descending, region, at, number, key: Key::none(), done: false });
        }
    }
    Ok(done(Order::Descending, 0, 0, 0))
}

/// "Start at the last of the run of restarts equal to the target, if the one found is equal; otherwise one earlier (not below
/// 0)." These keys add nothing to the count of the search.
fn descending_start(block: &Block, target: &[u8], answer: usize) -> Result<usize, Refusal> {
    let equal = |number: usize| -> Result<bool, Refusal> {
        Ok(number < block.restarts() && block.restart_key(number)? == target)
    };
    if !equal(answer)? {
        return Ok(answer.saturating_sub(1));
    }
    let mut last = answer;
    while equal(last + 1)? {
        last += 1;
    }
    Ok(last)
}

/// Where the region's last row at or below the target ends, and how many rows end up to there, the whole region being read.
fn last_at_or_below(block: &Block, target: &[u8], number: usize) -> Result<Option<(usize, usize)>, Refusal> {
    let region = block.region(number)?;
    let mut at = region.start;
    let mut before = Vec::new();
    let mut rows = 0;
    let mut found = None;
    while at < region.end {
        let (row, key) = block.row(region, at, &before)?;
        at = row.next;
        rows += 1;
        if key.as_slice() <= target {
            found = Some((at, rows));
        }
        before = key;
    }
    Ok(found)
}

/// "A "done" leaves it marked, at the data's end in the last region, or descending at 0 in region 0, with no key": the number is
/// the last region's row count, or 0.
fn done(order: Order, region: usize, at: usize, number: usize) -> Cursor {
    Cursor { order, region, at, number, key: Key::none(), done: true }
}
