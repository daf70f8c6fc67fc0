//! The check of a whole block.
use crate::{block::Block, refusal::*, Refusal};

/// What the next row is held to: the key and the sequence number of a row.
pub(crate) struct Entry {
    pub key: Vec<u8>,
    pub seq: u64,
}

impl Entry {
    /// "Equal keys stand with the larger sequence number first, and a key with the same sequence number twice is the very double
    /// debit we fear": the key is greater, or it is equal and the number is smaller.
    pub fn may_follow(&self, before: &Entry) -> bool {
        self.key > before.key || self.key == before.key && self.seq < before.seq
    }
}

/// "It accepts a block exactly when the trailer (14) and all offsets (15) are good, and rows read one after another from 0
/// cover the data with a row starting at each restart", in this order (17). Answers the number of rows.
pub fn check(block: &[u8]) -> Result<usize, Refusal> {
    let block = Block::new(block)?;
    block.test_all_offsets()?;
    let mut rows = 0;
    // Before the first row stands no row.
    let mut before: Option<Entry> = None;
    // The offsets are good, so the regions lie one after another from 0 to the data's end; no row runs past its region (16), so
    // a row starts at each restart.
    for number in 0..block.restarts() {
        let region = block.region(number)?;
        let mut at = region.start;
        while at < region.end {
            let previous = before.as_ref().map_or(&[][..], |row| &row.key);
            let (row, key) = block.row(region, at, previous)?;
            let entry = Entry { key, seq: row.fields.seq };
            // "For one row, 17 comes last". The row before counts across restarts too.
            if before.is_some_and(|before| !entry.may_follow(&before)) {
                return Err(KEY_FALLS);
            }
            rows += 1;
            at = row.next;
            before = Some(entry);
        }
    }
    Ok(rows)
}
