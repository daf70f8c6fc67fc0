use crate::{ffi, ffi_v1};

/// A row: a key, and what it stands for. One that was read from a block also says where it stood there; of two rows that hold
/// the same it makes no difference, so they are equal.
#[derive(Debug, Clone)]
pub struct RowEntry {
    pub key: Vec<u8>,
    /// The value, which may be a regular value, a merge operand, or a tombstone.
    pub value: ValueDeletable,
    pub seq: u64,
    /// The creation timestamp (if set).
    pub create_ts: Option<i64>,
    /// The expiration timestamp (if set).
    pub expire_ts: Option<i64>,
    region: Option<usize>,
    number: Option<usize>,
}

impl PartialEq for RowEntry {
    fn eq(&self, other: &Self) -> bool {
        self.key == other.key
            && self.value == other.value
            && self.seq == other.seq
            && self.create_ts == other.create_ts
            && self.expire_ts == other.expire_ts
    }
}

impl Eq for RowEntry {}

impl RowEntry {
    pub fn new(key: Vec<u8>, value: ValueDeletable, seq: u64, create_ts: Option<i64>, expire_ts: Option<i64>) -> Self {
        Self {
            key,
            value,
            seq,
            create_ts,
            expire_ts,
            region: None,
            number: None,
        }
    }

    pub fn new_value(key: &[u8], value: &[u8], seq: u64) -> Self {
        Self::new(key.to_vec(), ValueDeletable::Value(value.to_vec()), seq, None, None)
    }

    pub fn new_merge(key: &[u8], value: &[u8], seq: u64) -> Self {
        Self::new(key.to_vec(), ValueDeletable::Merge(value.to_vec()), seq, None, None)
    }

    pub fn new_tombstone(key: &[u8], seq: u64) -> Self {
        Self::new(key.to_vec(), ValueDeletable::Tombstone, seq, None, None)
    }

    pub fn with_create_ts(self, create_ts: i64) -> Self {
        Self {
            create_ts: Some(create_ts),
            ..self
        }
    }

    pub fn with_expire_ts(self, expire_ts: i64) -> Self {
        Self {
            expire_ts: Some(expire_ts),
            ..self
        }
    }

    /// Of a row that was read from a V2 block: its restart region there, from 0. No other row of a block that
    /// [`check`](crate::check) accepts has both this region and this [`number`](Self::number).
    pub fn region(&self) -> Option<usize> {
        self.region
    }

    /// Of a row that was read from a block: its number among the rows of its [`region`](Self::region), from 0; in a block
    /// of the earlier format, which has no regions, its number among all rows.
    pub fn number(&self) -> Option<usize> {
        self.number
    }

    /// What is offered to the library beside key and value.
    pub(crate) fn fields(&self) -> [u64; ffi::FIELDS_WORDS] {
        let (has_expire, expire) = time_words(self.expire_ts);
        let (has_create, create) = time_words(self.create_ts);
        [self.value.kind(), self.seq, has_expire, expire, has_create, create]
    }

    /// From a row's words, its key, and the block that its places are in.
    pub(crate) fn read(words: [u64; ffi::ROW_WORDS], key: &[u8], block: &[u8]) -> Self {
        let [single @ .., region, number] = words;
        Self {
            region: Some(region as usize),
            number: Some(number as usize),
            ..Self::read_single(single, key, block)
        }
    }

    /// The same of the earlier format, where a row stands in no region.
    pub(crate) fn read_v1(words: [u64; ffi_v1::ROW_WORDS], key: &[u8], block: &[u8]) -> Self {
        let [single @ .., number] = words;
        Self {
            number: Some(number as usize),
            ..Self::read_single(single, key, block)
        }
    }

    fn read_single(words: [u64; ffi::SINGLE_WORDS], key: &[u8], block: &[u8]) -> Self {
        let [_start, _next, shared, _suffix_at, suffix_len, kind, value_at, value_len, seq, times @ ..] = words;
        let [has_expire, expire, has_create, create] = times;
        Self::new(
            key[..(shared + suffix_len) as usize].to_vec(),
            ValueDeletable::read(kind, &block[value_at as usize..][..value_len as usize]),
            seq,
            time(has_create, create),
            time(has_expire, expire),
        )
    }
}

fn time_words(ts: Option<i64>) -> (u64, u64) {
    (ts.is_some() as u64, ts.unwrap_or(0) as u64)
}

fn time(present: u64, word: u64) -> Option<i64> {
    if present == 1 {
        Some(word as i64)
    } else {
        None
    }
}

/// What stands for a key.
#[derive(Debug, Clone, PartialEq, Eq)]
pub enum ValueDeletable {
    /// A regular value.
    Value(Vec<u8>),
    /// A merge operand.
    Merge(Vec<u8>),
    /// A deletion marker.
    Tombstone,
}

#[allow(clippy::len_without_is_empty)] // as in slatedb
impl ValueDeletable {
    /// The length of the value in bytes, 0 for a tombstone.
    pub fn len(&self) -> usize {
        self.as_bytes().map_or(0, <[u8]>::len)
    }

    pub fn is_tombstone(&self) -> bool {
        matches!(self, ValueDeletable::Tombstone)
    }

    /// The value's bytes, None for a tombstone.
    pub fn as_bytes(&self) -> Option<&[u8]> {
        match self {
            ValueDeletable::Value(v) | ValueDeletable::Merge(v) => Some(v),
            ValueDeletable::Tombstone => None,
        }
    }

    fn kind(&self) -> u64 {
        match self {
            ValueDeletable::Value(_) => ffi::VALUE,
            ValueDeletable::Merge(_) => ffi::MERGE,
            ValueDeletable::Tombstone => ffi::TOMBSTONE,
        }
    }

    fn read(kind: u64, bytes: &[u8]) -> Self {
        match kind {
            ffi::TOMBSTONE => ValueDeletable::Tombstone,
            ffi::MERGE => ValueDeletable::Merge(bytes.to_vec()),
            _ => ValueDeletable::Value(bytes.to_vec()),
        }
    }
}
