//! Building a block of the earlier format into a lent data buffer and a lent buffer of offsets, one for each row.
use super::{row, LEAST_ROW, MOST_ROWS, OFFSET_LIMIT};
use crate::builder::common_prefix;
use crate::row::Fields;
use crate::{refusal::*, Key, Refusal, BLOCK_SIZE_LIMIT, KEY_LIMIT};

#[derive(Clone, Debug, PartialEq, Eq)]
pub struct Builder {
    pub block_size: usize,
    /// data bytes
    pub used: usize,
    /// and so many offsets
    pub rows: usize,
    pub first_key: Key,
}

/// An offset, and the count, take 2 bytes.
const OFFSET: usize = 2;

/// What a row that is offered would add.
struct Offer {
    shared: usize,
    size: usize,
}

impl Builder {
    /// 8: "block size 0 to 131,072 ... No interval, so no 8 for one".
    pub fn new(block_size: usize) -> Result<Builder, Refusal> {
        if block_size > BLOCK_SIZE_LIMIT {
            return Err(SETTINGS);
        }
        Ok(Builder { block_size, used: 0, rows: 0, first_key: Key::none() })
    }

    pub fn is_empty(&self) -> bool {
        self.rows == 0
    }

    /// "Builder state 18: block size outside its limits, data or offsets beyond their buffers, over 5,042 rows, fewer than 13 data
    /// bytes a row, data without rows, a first key over the limit."
    fn test_state(&self, data_len: usize, offsets_len: usize) -> Result<(), Refusal> {
        let wrong = self.block_size > BLOCK_SIZE_LIMIT
            || self.used > data_len
            || self.rows > offsets_len
            || self.rows > MOST_ROWS
            || self.used < LEAST_ROW * self.rows
            || (self.rows == 0 && self.used > 0)
            || self.first_key.len > KEY_LIMIT;
        if wrong {
            return Err(STATE);
        }
        Ok(())
    }

    /// "Row 0 shares 0; any other row shares its whole common prefix with the first key."
    fn offer(&self, key: &[u8], value: &[u8], fields: &Fields) -> Result<Offer, Refusal> {
        let shared = if self.is_empty() { 0 } else { common_prefix(self.first_key.get(), key) };
        Ok(Offer { shared, size: row::size(shared, key.len() - shared, value.len(), fields)? })
    }

    /// "Present size (data + 2 for each row + 2)." A forged builder may have used any number, so the sum stops at the top.
    fn present_size(&self) -> usize {
        self.used.saturating_add(OFFSET * self.rows + OFFSET)
    }

    /// "Present size + row size at most the block size; the new row's own offset is not counted, so a finished block may be 2 bytes
    /// over. An empty builder takes a first row of any allowed size."
    fn fits(&self, offer: &Offer) -> bool {
        self.is_empty() || self.present_size().saturating_add(offer.size) <= self.block_size
    }

    /// 18, 1, 2, 3, 4: what the fit question and adding share.
    fn fitting_offer(&self, data_len: usize, offsets_len: usize, key: &[u8], value: &[u8], fields: &Fields) -> Result<Offer, Refusal> {
        self.test_state(data_len, offsets_len)?;
        let offer = self.offer(key, value, fields)?;
        if !self.fits(&offer) {
            return Err(DOES_NOT_FIT);
        }
        Ok(offer)
    }

    /// The fit question: 18, 1, 2, 3, and 4 for "no". Answers the row's size.
    pub fn would_fit(&self, data_len: usize, offsets_len: usize, key: &[u8], value: &[u8], fields: &Fields) -> Result<usize, Refusal> {
        Ok(self.fitting_offer(data_len, offsets_len, key, value, fields)?.size)
    }

    /// 18, 1, 2, 3, 4, 5 ("the row would start past 65,535"), 6.
    pub fn add(&mut self, data: &mut [u8], offsets: &mut [u16], key: &[u8], value: &[u8], fields: &Fields) -> Result<(), Refusal> {
        let offer = self.fitting_offer(data.len(), offsets.len(), key, value, fields)?;
        if self.used > OFFSET_LIMIT {
            return Err(RESTART_PAST);
        }
        // 6: "lent data buffer can't hold rows and whole trailer", this row's offset among it, or no place is left for the offset.
        if self.present_size() + offer.size + OFFSET > data.len() || self.rows >= offsets.len() {
            return Err(BUFFER_SHORT);
        }
        data[self.used..self.used + offer.size].copy_from_slice(&row::bytes(offer.shared, &key[offer.shared..], value, fields));
        offsets[self.rows] = self.used as u16;
        if self.is_empty() {
            self.first_key = Key::of(key);
        }
        self.used += offer.size;
        self.rows += 1;
        Ok(())
    }

    /// Rows, then their offsets, then the count: 18, 7, 6. Answers the block's length.
    pub fn build(&self, data: &mut [u8], offsets: &[u16]) -> Result<usize, Refusal> {
        self.test_state(data.len(), offsets.len())?;
        if self.is_empty() {
            return Err(NO_ROW);
        }
        let end = self.present_size();
        let place = data.get_mut(self.used..end).ok_or(BUFFER_SHORT)?;
        let count = self.rows as u16;
        let numbers = offsets.iter().take(self.rows).chain([&count]);
        for (to, number) in place.chunks_exact_mut(OFFSET).zip(numbers) {
            to.copy_from_slice(&number.to_be_bytes());
        }
        Ok(end)
    }
}
