//! The same modules as in `driver`, called without text: what the comparison uses. Ours; lives in crate::format because the
//! builders are pub(super).
use crate::block_iterator_v2::BlockIteratorV2;
use crate::error::SlateDBError;
use crate::format::block::Block;
use crate::format::driver::now;
use crate::format::row_codec_v2::{SstRowCodecV2, SstRowEntryV2};
use crate::format::sst::BlockBuilder;
use crate::iter::{IterationOrder, RowEntryIterator};
use crate::types::{RowEntry, ValueDeletable};
use crate::utils::{decode_varint, encode_varint, varint_len};
use bytes::Bytes;
use std::panic::{catch_unwind, AssertUnwindSafe};

/// 0 value, 1 tombstone, 2 merge: as in the C interface.
#[derive(Clone, Debug, PartialEq, Eq)]
pub struct Row {
    pub key: Vec<u8>,
    pub kind: u8,
    pub value: Vec<u8>,
    pub seq: u64,
    pub expire: Option<i64>,
    pub create: Option<i64>,
}

/// How a call of the Rust ends when it gives no value.
#[derive(Clone, Debug, PartialEq, Eq)]
pub enum Stop {
    EmptyKey,
    EmptyBlock,
    InvalidRowFlags,
    OtherError,
    Panic,
}

pub(super) fn stop(error: SlateDBError) -> Stop {
    match error {
        SlateDBError::EmptyKey => Stop::EmptyKey,
        SlateDBError::EmptyBlock => Stop::EmptyBlock,
        SlateDBError::InvalidRowFlags { .. } => Stop::InvalidRowFlags,
        _ => Stop::OtherError,
    }
}

pub(super) fn guard<T>(call: impl FnOnce() -> T) -> Result<T, Stop> {
    catch_unwind(AssertUnwindSafe(call)).map_err(|_| Stop::Panic)
}

pub(super) fn value_of(kind: u8, value: &[u8]) -> ValueDeletable {
    let bytes = Bytes::copy_from_slice(value);
    match kind {
        0 => ValueDeletable::Value(bytes),
        1 => ValueDeletable::Tombstone,
        _ => ValueDeletable::Merge(bytes),
    }
}

pub(super) fn kind_and_value(value: &ValueDeletable) -> (u8, Vec<u8>) {
    match value {
        ValueDeletable::Value(v) => (0, v.to_vec()),
        ValueDeletable::Tombstone => (1, Vec::new()),
        ValueDeletable::Merge(v) => (2, v.to_vec()),
    }
}

pub(super) fn entry(row: &Row) -> RowEntry {
    RowEntry::new(Bytes::copy_from_slice(&row.key), value_of(row.kind, &row.value), row.seq, row.create, row.expire)
}

pub(super) fn row(entry: &RowEntry) -> Row {
    let (kind, value) = kind_and_value(&entry.value);
    Row { key: entry.key.to_vec(), kind, value, seq: entry.seq, expire: entry.expire_ts, create: entry.create_ts }
}

pub fn varint(number: u32) -> (Vec<u8>, usize) {
    let mut bytes = Vec::new();
    encode_varint(&mut bytes, number);
    (bytes, varint_len(number))
}

/// The number, and how many bytes were read.
pub fn unvarint(input: &[u8]) -> Result<(u32, usize), Stop> {
    let mut rest = input;
    let number = guard(|| decode_varint(&mut rest))?;
    Ok((number, input.len() - rest.len()))
}

/// A row's bytes and its size; the key is the suffix.
pub fn encode(shared: u32, suffix: &Row) -> Result<(Vec<u8>, usize), Stop> {
    let r = suffix;
    let entry = SstRowEntryV2::new(shared, Bytes::copy_from_slice(&r.key), r.seq, value_of(r.kind, &r.value), r.create, r.expire);
    guard(|| {
        let mut bytes = Vec::new();
        SstRowCodecV2::new().encode(&mut bytes, &entry);
        (bytes, entry.encoded_size())
    })
}

/// The share, the row with the suffix as its key, and how many bytes were read.
pub fn decode(input: &[u8]) -> Result<(u32, Row, usize), Stop> {
    let mut rest = input;
    let e = guard(|| SstRowCodecV2::new().decode(&mut rest))?.map_err(stop)?;
    let (kind, value) = kind_and_value(&e.value);
    let row = Row { key: e.key_suffix.to_vec(), kind, value, seq: e.seq, expire: e.expire_ts, create: e.create_ts };
    Ok((e.shared_bytes, row, input.len() - rest.len()))
}

/// The share, the suffix, and how many bytes were read.
pub fn decode_key_only(input: &[u8]) -> Result<(u32, Vec<u8>, usize), Stop> {
    let mut rest = input;
    let (shared, suffix) = guard(|| SstRowCodecV2::new().decode_key_only(&mut rest))?;
    Ok((shared, suffix.to_vec(), input.len() - rest.len()))
}

pub struct Builder(pub(super) BlockBuilder);

impl Builder {
    pub fn new(block_size: usize, interval: usize) -> Builder {
        // 16 through the production constructor, which has it as its default
        Builder(match interval {
            16 => BlockBuilder::new_v2(block_size),
            _ => BlockBuilder::new_v2_with_restart_interval(block_size, interval),
        })
    }

    pub fn would_fit(&self, row: &Row) -> Result<bool, Stop> {
        let entry = entry(row);
        guard(|| self.0.would_fit(&entry))
    }

    pub fn add(&mut self, row: &Row) -> Result<bool, Stop> {
        let entry = entry(row);
        guard(|| self.0.add(entry))?.map_err(stop)
    }

    pub fn is_empty(&self) -> bool {
        self.0.is_empty()
    }

    pub fn build(self) -> Result<Vec<u8>, Stop> {
        let block = guard(|| self.0.build())?.map_err(stop)?;
        Ok(block.encode().to_vec())
    }
}

pub struct Opened(Block);

impl Opened {
    pub fn new(block: &[u8]) -> Result<Opened, Stop> {
        let bytes = Bytes::copy_from_slice(block);
        Ok(Opened(guard(|| Block::decode(bytes))?))
    }

    pub fn iterator(&self, descending: bool) -> Result<Iterator<'_>, Stop> {
        let order = if descending { IterationOrder::Descending } else { IterationOrder::Ascending };
        Ok(Iterator(guard(|| BlockIteratorV2::new(&self.0, order))?))
    }
}

pub struct Iterator<'a>(BlockIteratorV2<&'a Block>);

impl Iterator<'_> {
    pub fn next(&mut self) -> Result<Option<Row>, Stop> {
        let given = guard(|| now(self.0.next()))?.map_err(stop)?;
        Ok(given.as_ref().map(row))
    }

    pub fn seek(&mut self, target: &[u8]) -> Result<(), Stop> {
        guard(|| now(self.0.seek(target)))?.map_err(stop)
    }

    pub fn is_empty(&self) -> bool {
        self.0.is_empty()
    }
}
