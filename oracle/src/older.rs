//! The older modules, format/row (SstRowCodecV0), format/block (BlockBuilderV1) and block_iterator (BlockIterator), called without
//! text: what the comparison of the earlier format uses. Ours; lives in crate::format because the builders are pub(super).
use crate::block_iterator::BlockIterator;
use crate::format::block::Block;
use crate::format::direct::{self, entry, guard, kind_and_value, row, stop, value_of, Row, Stop};
use crate::format::driver::now;
use crate::format::row::{SstRowCodecV0, SstRowEntry};
use crate::format::sst::BlockBuilder;
use crate::iter::{IterationOrder, RowEntryIterator};
use bytes::Bytes;

/// A row's bytes and its size; the key is the suffix.
pub fn encode(shared: usize, suffix: &Row) -> Result<(Vec<u8>, usize), Stop> {
    let r = suffix;
    guard(|| {
        let entry = SstRowEntry::new(shared, Bytes::copy_from_slice(&r.key), r.seq, value_of(r.kind, &r.value), r.create, r.expire);
        let mut bytes = Vec::new();
        SstRowCodecV0::new().encode(&mut bytes, &entry);
        (bytes, entry.size())
    })
}

/// The size by which the fit question goes, of a row with its whole key.
pub fn encoded_size(whole: &Row, shared: usize) -> Result<usize, Stop> {
    let entry = entry(whole);
    guard(|| entry.encoded_size(shared))
}

/// The share, the row with the suffix as its key, and how many bytes were read, which the value's are not among.
pub fn decode(input: &[u8]) -> Result<(usize, Row, usize), Stop> {
    let mut rest = Bytes::copy_from_slice(input);
    let e = guard(|| SstRowCodecV0::new().decode(&mut rest))?.map_err(stop)?;
    let (kind, value) = kind_and_value(&e.value);
    let row = Row { key: e.key_suffix.to_vec(), kind, value, seq: e.seq, expire: e.expire_ts, create: e.create_ts };
    Ok((e.key_prefix_len, row, input.len() - rest.len()))
}

pub fn builder(block_size: usize) -> direct::Builder {
    direct::Builder(BlockBuilder::new_v1(block_size))
}

pub struct Opened(Block);

impl Opened {
    pub fn new(block: &[u8]) -> Result<Opened, Stop> {
        let bytes = Bytes::copy_from_slice(block);
        Ok(Opened(guard(|| Block::decode(bytes))?))
    }

    pub fn iterator(&self, descending: bool) -> Result<Iterator<'_>, Stop> {
        let order = if descending { IterationOrder::Descending } else { IterationOrder::Ascending };
        Ok(Iterator(guard(|| BlockIterator::new(&self.0, order))?))
    }
}

pub struct Iterator<'a>(BlockIterator<&'a Block>);

impl Iterator<'_> {
    pub fn next(&mut self) -> Result<Option<Row>, Stop> {
        let given = guard(|| now(self.0.next()))?.map_err(stop)?;
        Ok(given.as_ref().map(row))
    }

    pub fn seek(&mut self, target: &[u8]) -> Result<(), Stop> {
        guard(|| now(self.0.seek(target)))?.map_err(stop)
    }

    pub fn is_empty(&self) -> bool {
        self.0.is_empty()
    }
}
