//! The check of a whole block of the earlier format.
use super::cursor::Rows;
use crate::check::Entry;
use crate::{refusal::*, Refusal};

/// "The check: 14, all of 15, rows in order, each ending where the next starts; 17 by the order in force (Q-7), last of its row. It
/// answers the number of rows."
pub fn check(block: &[u8]) -> Result<usize, Refusal> {
    let rows = Rows::new(block)?;
    rows.test_all_offsets()?;
    let mut first = Vec::new();
    let mut before: Option<Entry> = None;
    for number in 0..rows.count() {
        let (row, key) = rows.row(number, &first)?;
        if number == 0 {
            first = key.clone();
        }
        let entry = Entry { key, seq: row.fields.seq };
        if before.is_some_and(|before| !entry.may_follow(&before)) {
            return Err(KEY_FALLS);
        }
        before = Some(entry);
    }
    Ok(rows.count())
}
