//! The rules of the block format as plain small Rust, to be held side by side with the papers that give them ("01", and the
//! requests after it, "02"): their words stand in the comments, their numbers in `refusal`. It was written from these and the
//! readings of them alone: neither the Rust of slatedb nor the proved code was looked at.
pub mod block;
pub mod builder;
#[cfg(test)]
mod cases;
pub mod check;
pub mod cursor;
pub mod journal;
pub mod row;
pub mod seek;
pub mod v1;
pub mod varint;

/// A number of the refusal table.
pub type Refusal = u8;

pub mod refusal {
    use super::Refusal;
    pub const KEY_EMPTY: Refusal = 1;
    pub const KEY_OVER: Refusal = 2;
    pub const VALUE_OVER: Refusal = 3;
    pub const DOES_NOT_FIT: Refusal = 4;
    pub const RESTART_PAST: Refusal = 5;
    pub const BUFFER_SHORT: Refusal = 6;
    pub const NO_ROW: Refusal = 7;
    pub const SETTINGS: Refusal = 8;
    pub const INPUT_ENDS: Refusal = 9;
    pub const VARINT_OVER: Refusal = 10;
    pub const FLAGS_UNKNOWN: Refusal = 11;
    pub const TOMBSTONE_WITH_MERGE: Refusal = 12;
    pub const SHARE: Refusal = 13;
    pub const TRAILER: Refusal = 14;
    pub const OFFSETS: Refusal = 15;
    pub const PAST_REGION: Refusal = 16;
    pub const KEY_FALLS: Refusal = 17;
    pub const STATE: Refusal = 18;
    pub const KEY_BUFFER: Refusal = 19;
    pub const ROW_ENDS_EARLY: Refusal = 20;
}

// Numbers with an edge
pub const KEY_LIMIT: usize = 4_096;
pub const VALUE_LIMIT: usize = 65_535;
pub const BLOCK_SIZE_LIMIT: usize = 131_072;
pub const INTERVAL_LIMIT: usize = 1_024;
pub const RESTART_LIMIT: usize = 65_535;
pub const MOST_RESTARTS: usize = 5_042;
pub const LEAST_ROW: usize = 12;
pub const DEFAULT_INTERVAL: usize = 16;

/// A carried key: its first `len` bytes. A forged length may be over the limit; whoever uses the key has tested that.
#[derive(Clone, Debug, PartialEq, Eq)]
pub struct Key {
    pub len: usize,
    pub bytes: [u8; KEY_LIMIT],
}

impl Key {
    /// "No key".
    pub fn none() -> Key {
        Key::of(&[])
    }

    /// A key over the limit keeps its length, so that 18 is answered for it, and as many of its bytes as there is place for.
    pub fn of(key: &[u8]) -> Key {
        let mut bytes = [0; KEY_LIMIT];
        for (to, from) in bytes.iter_mut().zip(key) {
            *to = *from;
        }
        Key { len: key.len(), bytes }
    }

    /// The bytes of the key. What lies past its length changes no answer.
    pub fn get(&self) -> &[u8] {
        self.bytes.get(..self.len).unwrap_or(&self.bytes)
    }
}
