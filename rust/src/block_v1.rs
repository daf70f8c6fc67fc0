use crate::block_v2::{false_if_it_does_not_fit, offer, TRAILER_OVERHEAD};
use crate::refusal::{good, Refusal};
use crate::types::RowEntry;
use crate::{ffi, ffi_v1};

/// The most that a row takes beside its key and value: two lengths, a sequence number, flags, two times, the value's length.
const ROW_OVERHEAD: usize = 2 * 2 + 8 + 1 + 2 * 8 + 4;

/// How far a finished block may be over its block size: a row fits if it does without its own offset.
const OVER: usize = 2;

/// Builder for a V1 block, the earlier format: rows share bytes with the block's first key, and each has an offset.
pub struct BlockBuilderV1 {
    builder: [u64; ffi_v1::BUILDER_WORDS],
    first_key: Box<[u8; ffi::KEY_BYTES]>,
    // longer than what is in use: the library writes into the rest
    data: Vec<u8>,
    offsets: Vec<u16>,
}

impl BlockBuilderV1 {
    pub fn new(block_size: usize) -> Result<Self, Refusal> {
        let mut builder = [0; ffi_v1::BUILDER_WORDS];
        good(ffi_v1::builder_new(&mut builder, block_size))?;
        Ok(Self {
            builder,
            first_key: Box::new([0; ffi::KEY_BYTES]),
            data: Vec::new(),
            offsets: Vec::new(),
        })
    }

    /// Whether the row fits. An empty builder takes a first row of any size. As slatedb's it leaves the row's own offset out,
    /// so a finished block may be 2 bytes over its block size. `add` may still refuse a row that fits, with
    /// [`Refusal::RestartTooFar`]: it would start past 65,535.
    pub fn would_fit(&self, entry: &RowEntry) -> Result<bool, Refusal> {
        let fields = entry.fields();
        let code = ffi_v1::builder_would_fit(
            &self.builder,
            &self.first_key[..],
            self.data.len(),
            self.offsets.len(),
            offer(entry, &fields),
        );
        false_if_it_does_not_fit(good(code))
    }

    /// Adds a row. Ok(false): it doesn't fit, and the builder is as before.
    pub fn add(&mut self, entry: RowEntry) -> Result<bool, Refusal> {
        let mut added = self.try_add(&entry);
        // this comes after all other tests, so the row is within its limits
        if added == Err(Refusal::BufferTooSmall) {
            self.make_room(&entry);
            added = self.try_add(&entry);
        }
        false_if_it_does_not_fit(added)
    }

    pub fn is_empty(&self) -> bool {
        let mut empty = 0;
        good(ffi_v1::builder_is_empty(&self.builder, &mut empty)).expect("no builder is refused here");
        empty == 1
    }

    /// The block's bytes.
    pub fn build(mut self) -> Result<Vec<u8>, Refusal> {
        let mut count = 0;
        good(ffi_v1::builder_build(
            &self.builder,
            &mut self.data,
            &self.offsets,
            &mut count,
        ))?;
        self.data.truncate(count as usize);
        Ok(self.data)
    }

    fn try_add(&mut self, entry: &RowEntry) -> Result<(), Refusal> {
        let fields = entry.fields();
        good(ffi_v1::builder_add(
            &mut self.builder,
            &mut self.first_key[..],
            &mut self.data,
            &mut self.offsets,
            offer(entry, &fields),
        ))
    }

    fn make_room(&mut self, entry: &RowEntry) {
        let [block_size, used, rows, ..] = self.builder.map(|word| word as usize);
        let row = entry.key.len() + entry.value.len() + ROW_OVERHEAD;
        let needed = used + row + 2 * rows + TRAILER_OVERHEAD;
        // a block is at most so long, or its first row
        self.data.resize(needed.max(block_size + OVER), 0);
        self.offsets.resize(2 * rows + 8, 0);
    }
}
