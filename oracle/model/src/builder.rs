//! Building a block into a lent data buffer and a lent restart buffer.
use crate::row::{self, Fields};
use crate::{refusal::*, Key, Refusal};
use crate::{BLOCK_SIZE_LIMIT, DEFAULT_INTERVAL, INTERVAL_LIMIT, KEY_LIMIT, LEAST_ROW, MOST_RESTARTS, RESTART_LIMIT};

#[derive(Clone, Debug, PartialEq, Eq)]
pub struct Builder {
    pub block_size: usize,
    pub interval: usize,
    /// data bytes
    pub used: usize,
    pub restarts: usize,
    pub rows: usize,
    pub last_key: Key,
}

/// An offset, and the count, take 2 bytes.
const OFFSET: usize = 2;

/// What a row that is offered would add.
struct Offer {
    restart: bool,
    shared: usize,
    size: usize,
}

impl Builder {
    /// 8.
    pub fn with_interval(block_size: usize, interval: usize) -> Result<Builder, Refusal> {
        if !settings_good(block_size, interval) {
            return Err(SETTINGS);
        }
        Ok(Builder { block_size, interval, used: 0, restarts: 0, rows: 0, last_key: Key::none() })
    }

    /// "The default interval is 16."
    pub fn new(block_size: usize) -> Result<Builder, Refusal> {
        Builder::with_interval(block_size, DEFAULT_INTERVAL)
    }

    pub fn is_empty(&self) -> bool {
        self.rows == 0
    }

    /// 18, for a builder: "settings outside their limits, data or restarts beyond their buffers, over 5,042 restarts, a restart
    /// count other than rows divided by interval, rounded up, fewer than 12 data bytes a row, data without rows, or a last key
    /// over 4,096".
    fn test_state(&self, data_len: usize, restarts_len: usize) -> Result<(), Refusal> {
        let wrong = !settings_good(self.block_size, self.interval)
            || self.used > data_len
            || self.restarts > restarts_len
            || self.restarts > MOST_RESTARTS
            // The interval is not 0: tested above.
            || self.restarts != self.rows.div_ceil(self.interval)
            // used < 12 * rows, without a product that could overflow
            || self.used / LEAST_ROW < self.rows
            || (self.rows == 0 && self.used > 0)
            || self.last_key.len > KEY_LIMIT;
        if wrong {
            return Err(STATE);
        }
        Ok(())
    }

    /// "A row is a restart when its number, from 0, is a multiple of the interval." Asked of a good state, so of an interval that
    /// is not 0.
    fn is_restart(&self) -> bool {
        self.rows % self.interval == 0
    }

    /// "A restart shares 0 bytes. Any other row shares its whole common prefix with the row before."
    fn offer(&self, key: &[u8], value: &[u8], fields: &Fields) -> Result<Offer, Refusal> {
        let restart = self.is_restart();
        let shared = if restart { 0 } else { common_prefix(self.last_key.get(), key) };
        let size = row::size(shared, key.len() - shared, value, fields)?;
        Ok(Offer { restart, shared, size })
    }

    /// "Present size = data + 2 for each restart + 2." A forged builder may have used any number, so the sum stops at the top.
    fn present_size(&self) -> usize {
        self.used.saturating_add(OFFSET * self.restarts + OFFSET)
    }

    /// Present size + row size + (2 if a restart).
    fn size_with(&self, offer: &Offer) -> usize {
        let place = if offer.restart { OFFSET } else { 0 };
        self.present_size().saturating_add(offer.size + place)
    }

    /// "An empty builder accepts a first row of any allowed size. Afterwards a row fits when present size + row size + (2 if a
    /// restart) is at most the block size."
    fn fits(&self, offer: &Offer) -> bool {
        self.is_empty() || self.size_with(offer) <= self.block_size
    }

    /// 18, 1, 2, 3, 4: what the fit question and adding share.
    fn fitting_offer(&self, data_len: usize, restarts_len: usize, key: &[u8], value: &[u8], fields: &Fields) -> Result<Offer, Refusal> {
        self.test_state(data_len, restarts_len)?;
        let offer = self.offer(key, value, fields)?;
        if !self.fits(&offer) {
            return Err(DOES_NOT_FIT);
        }
        Ok(offer)
    }

    /// The fit question: 18, 1, 2, 3, and 4 for "no". Answers the row's size.
    pub fn would_fit(&self, data_len: usize, restarts_len: usize, key: &[u8], value: &[u8], fields: &Fields) -> Result<usize, Refusal> {
        Ok(self.fitting_offer(data_len, restarts_len, key, value, fields)?.size)
    }

    /// 18, 1, 2, 3, 4, 5, 6.
    pub fn add(&mut self, data: &mut [u8], restarts: &mut [u16], key: &[u8], value: &[u8], fields: &Fields) -> Result<(), Refusal> {
        let offer = self.fitting_offer(data.len(), restarts.len(), key, value, fields)?;
        // 5: "a restart would lie past 65,535".
        if offer.restart && self.used > RESTART_LIMIT {
            return Err(RESTART_PAST);
        }
        // 6: "lent data buffer can't hold rows and whole trailer ..., or restart buffer lacks a place for a restart".
        if self.size_with(&offer) > data.len() || (offer.restart && self.restarts >= restarts.len()) {
            return Err(BUFFER_SHORT);
        }
        // "An accepted row is written into the free rest of the lent data buffer; bytes before and after it keep their values."
        let suffix = &key[offer.shared..];
        data[self.used..self.used + offer.size].copy_from_slice(&row::bytes(offer.shared, suffix, value, fields));
        if offer.restart {
            restarts[self.restarts] = self.used as u16;
            self.restarts += 1;
        }
        self.used += offer.size;
        self.rows += 1;
        self.last_key = Key::of(key);
        Ok(())
    }

    /// "Build writes the trailer after the rows": 18, 7, 6. Answers the block's length.
    pub fn build(&self, data: &mut [u8], restarts: &[u16]) -> Result<usize, Refusal> {
        self.test_state(data.len(), restarts.len())?;
        if self.is_empty() {
            return Err(NO_ROW);
        }
        // Rows and whole trailer are the present size.
        let end = self.present_size();
        let place = data.get_mut(self.used..end).ok_or(BUFFER_SHORT)?;
        let count = self.restarts as u16;
        let numbers = restarts.iter().take(self.restarts).chain([&count]);
        for (to, number) in place.chunks_exact_mut(OFFSET).zip(numbers) {
            to.copy_from_slice(&number.to_be_bytes());
        }
        Ok(end)
    }
}

/// "Block size 0 to 131,072; interval 1 to 1,024."
fn settings_good(block_size: usize, interval: usize) -> bool {
    block_size <= BLOCK_SIZE_LIMIT && (1..=INTERVAL_LIMIT).contains(&interval)
}

/// How many bytes two keys have in common at their start.
pub(crate) fn common_prefix(one: &[u8], other: &[u8]) -> usize {
    one.iter().zip(other).take_while(|(a, b)| a == b).count()
}
