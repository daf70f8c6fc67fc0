use crate::ffi;
use crate::refusal::{good, Refusal};
use crate::types::RowEntry;

const DEFAULT_RESTART_INTERVAL: usize = 16;

/// The most that a row takes beside its key and value: three varints, a sequence number, flags and two times.
const ROW_OVERHEAD: usize = 3 * 5 + 8 + 1 + 2 * 8;

/// The most that a trailer takes beside the offsets it has already: one more offset, and the count.
pub(crate) const TRAILER_OVERHEAD: usize = 4;

/// Builder for a V2 block with restart points.
pub struct BlockBuilderV2 {
    builder: [u64; ffi::BUILDER_WORDS],
    last_key: Box<[u8; ffi::KEY_BYTES]>,
    // longer than what is in use: the library writes into the rest
    data: Vec<u8>,
    restarts: Vec<u16>,
}

impl BlockBuilderV2 {
    /// A builder with the default restart interval (16).
    pub fn new(block_size: usize) -> Result<Self, Refusal> {
        Self::new_with_restart_interval(block_size, DEFAULT_RESTART_INTERVAL)
    }

    /// A builder with a restart at every `restart_interval`th row.
    pub fn new_with_restart_interval(block_size: usize, restart_interval: usize) -> Result<Self, Refusal> {
        let mut builder = [0; ffi::BUILDER_WORDS];
        good(ffi::builder_new(&mut builder, block_size, restart_interval))?;
        Ok(Self {
            builder,
            last_key: Box::new([0; ffi::KEY_BYTES]),
            data: Vec::new(),
            restarts: Vec::new(),
        })
    }

    /// Whether the row fits. An empty builder takes a first row of any size. `add` may still refuse a row that fits, with
    /// [`Refusal::RestartTooFar`].
    pub fn would_fit(&self, entry: &RowEntry) -> Result<bool, Refusal> {
        let fields = entry.fields();
        let code = ffi::builder_would_fit(
            &self.builder,
            &self.last_key[..],
            self.data.len(),
            self.restarts.len(),
            offer(entry, &fields),
        );
        false_if_it_does_not_fit(good(code))
    }

    /// Adds a row. Ok(false): it doesn't fit, and the builder is as before.
    pub fn add(&mut self, entry: RowEntry) -> Result<bool, Refusal> {
        let mut added = self.try_add(&entry);
        // this comes after all other tests, so the row is within its limits
        if added == Err(Refusal::BufferTooSmall) {
            self.make_room(&entry);
            added = self.try_add(&entry);
        }
        false_if_it_does_not_fit(added)
    }

    pub fn is_empty(&self) -> bool {
        let mut empty = 0;
        good(ffi::builder_is_empty(&self.builder, &mut empty)).expect("no builder is refused here");
        empty == 1
    }

    /// The block's bytes.
    pub fn build(mut self) -> Result<Vec<u8>, Refusal> {
        let mut count = 0;
        good(ffi::builder_build(
            &self.builder,
            &mut self.data,
            &self.restarts,
            &mut count,
        ))?;
        self.data.truncate(count as usize);
        Ok(self.data)
    }

    fn try_add(&mut self, entry: &RowEntry) -> Result<(), Refusal> {
        let fields = entry.fields();
        good(ffi::builder_add(
            &mut self.builder,
            &mut self.last_key[..],
            &mut self.data,
            &mut self.restarts,
            offer(entry, &fields),
        ))
    }

    fn make_room(&mut self, entry: &RowEntry) {
        let [block_size, _interval, used, restarts, ..] = self.builder.map(|word| word as usize);
        let row = entry.key.len() + entry.value.len() + ROW_OVERHEAD;
        let needed = used + row + 2 * restarts + TRAILER_OVERHEAD;
        // as slatedb: a block is at most its block size, or its first row
        self.data.resize(needed.max(block_size), 0);
        self.restarts.resize(2 * restarts + 8, 0);
    }
}

pub(crate) fn offer<'a>(entry: &'a RowEntry, fields: &'a [u64]) -> ffi::Offer<'a> {
    ffi::Offer {
        key: &entry.key,
        value: entry.value.as_bytes().unwrap_or(&[]),
        fields,
    }
}

pub(crate) fn false_if_it_does_not_fit(answer: Result<(), Refusal>) -> Result<bool, Refusal> {
    match answer {
        Ok(()) => Ok(true),
        Err(Refusal::RowDoesNotFit) => Ok(false),
        Err(refusal) => Err(refusal),
    }
}
