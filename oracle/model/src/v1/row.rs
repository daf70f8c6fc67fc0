//! A row of the earlier format: share (2 bytes), suffix length (2), suffix, seq (8), flags (1), expire (8, if flagged), create (8,
//! if flagged), then for all but tombstones value length (4) and value. High byte first.
use crate::row::{self, Fields, Kind, Row};
use crate::{refusal::*, Refusal};

const SHARE_LEN: usize = 2;
const SUFFIX_LEN: usize = 2;
const VALUE_LEN: usize = 4;

/// What a key-only read gives; `end` is the suffix's.
#[derive(Clone, Debug, PartialEq, Eq)]
pub struct KeyPart {
    pub shared: usize,
    pub suffix_at: usize,
    pub suffix_len: usize,
    pub end: usize,
}

/// Where a row is read: the input up to the data's end, its start, how long the block's first key is, whether it is row 0, and
/// where the next row starts (after the last one, the data's end). A row by itself has no next.
#[derive(Clone, Copy, Debug)]
pub struct Place<'a> {
    pub data: &'a [u8],
    pub at: usize,
    pub first_len: usize,
    pub row_0: bool,
    pub next: Option<usize>,
}

// ---- writing

/// "4, suffix, 9, 8 for each time, and 4 and the value unless it is a tombstone", from the lengths alone: 1, 2, 3. "A tombstone has
/// no value length at all; offered bytes are ignored."
pub fn size(shared: usize, suffix_len: usize, value_len: usize, fields: &Fields) -> Result<usize, Refusal> {
    let tombstone = fields.kind == Kind::Tombstone;
    row::test_limits(shared.saturating_add(suffix_len), if tombstone { 0 } else { value_len })?;
    let value_size = if tombstone { 0 } else { VALUE_LEN + value_len };
    Ok(SHARE_LEN + SUFFIX_LEN + suffix_len + row::FIXED + row::times_size(fields) + value_size)
}

/// The bytes of a row within the limits: of these each length fits its number.
pub fn bytes(shared: usize, suffix: &[u8], value: &[u8], fields: &Fields) -> Vec<u8> {
    let mut row = Vec::new();
    row.extend((shared as u16).to_be_bytes());
    row.extend((suffix.len() as u16).to_be_bytes());
    row.extend(suffix);
    row.extend(fields.seq.to_be_bytes());
    row.push(row::flags(fields));
    // "A tombstone's expire time is written and read like any other."
    for time in [fields.expire, fields.create].into_iter().flatten() {
        row.extend(time.to_be_bytes());
    }
    if fields.kind != Kind::Tombstone {
        row.extend((value.len() as u32).to_be_bytes());
        row.extend(value);
    }
    row
}

/// Encoding one row from a first key, share and suffix: 13, 1, 2, 3, 6. Answers the bytes written.
pub fn encode(output: &mut [u8], first_len: usize, shared: usize, suffix: &[u8], value: &[u8], fields: &Fields) -> Result<usize, Refusal> {
    if shared > first_len {
        return Err(SHARE);
    }
    let size = size(shared, suffix.len(), value.len(), fields)?;
    let place = output.get_mut(..size).ok_or(BUFFER_SHORT)?;
    place.copy_from_slice(&bytes(shared, suffix, value, fields));
    Ok(size)
}

// ---- reading

/// A number of `len` bytes at `at`, and where it ends: 9.
fn number(data: &[u8], at: usize, len: usize) -> Result<(usize, usize), Refusal> {
    let end = row::end_of(data, at, len)?;
    Ok((data[at..end].iter().fold(0, |number, byte| number << 8 | usize::from(*byte)), end))
}

/// The start of every row read: "share, suffix length (9 as met); share longer than the first key, or not 0 in row 0 (13); 1; 2",
/// then the suffix (9).
fn read_start(place: &Place) -> Result<KeyPart, Refusal> {
    let (shared, at) = number(place.data, place.at, SHARE_LEN)?;
    let (suffix_len, suffix_at) = number(place.data, at, SUFFIX_LEN)?;
    if shared > place.first_len || (place.row_0 && shared != 0) {
        return Err(SHARE);
    }
    row::test_key_len(shared + suffix_len)?;
    let end = row::end_of(place.data, suffix_at, suffix_len)?;
    Ok(KeyPart { shared, suffix_at, suffix_len, end })
}

/// "The same up to the suffix, whose end takes 9 and 16; no 3, no 20."
pub fn read_key(place: &Place) -> Result<KeyPart, Refusal> {
    let part = read_start(place)?;
    test_past_next(place, part.end)?;
    Ok(part)
}

/// 16: "row end past the next offset".
fn test_past_next(place: &Place, end: usize) -> Result<(), Refusal> {
    if place.next.is_some_and(|next| end > next) {
        return Err(PAST_REGION);
    }
    Ok(())
}

/// 20: "a row ends before the next one starts, or before the data's end".
fn test_ends_early(place: &Place, end: usize) -> Result<(), Refusal> {
    if place.next.is_some_and(|next| end < next) {
        return Err(ROW_ENDS_EARLY);
    }
    Ok(())
}

/// "Share, suffix length (9 as met); 13; 1; 2; suffix, seq or flags missing (9); 11, 12; times missing (9); value length missing
/// (9); over 65,535 (3); value missing (9); row end past the next offset (16); row end before it (20)."
pub fn read(place: &Place) -> Result<Row, Refusal> {
    let data = place.data;
    let KeyPart { shared, suffix_at, suffix_len, end } = read_start(place)?;
    let (seq, flags_at) = row::eight(data, end)?;
    let flags = *data.get(flags_at).ok_or(INPUT_ENDS)?;
    let kind = row::kind_of(flags)?;
    let (expire, create_at) = row::time(data, flags_at + 1, flags & row::EXPIRE != 0)?;
    let (create, times_end) = row::time(data, create_at, flags & row::CREATE != 0)?;
    let (value_at, value_len, next) = read_value(data, kind, times_end)?;
    test_past_next(place, next)?;
    test_ends_early(place, next)?;
    let fields = Fields { kind, seq: u64::from_be_bytes(seq), expire, create };
    Ok(Row { start: place.at, next, shared, suffix_at, suffix_len, value_at, value_len, fields })
}

/// The value's place and length, and where the row ends. A tombstone ends with its times, and has no value place: 0, of length 0.
fn read_value(data: &[u8], kind: Kind, at: usize) -> Result<(usize, usize, usize), Refusal> {
    if kind == Kind::Tombstone {
        return Ok((0, 0, at));
    }
    let (value_len, value_at) = number(data, at, VALUE_LEN)?;
    row::test_value_len(value_len)?;
    Ok((value_at, value_len, row::end_of(data, value_at, value_len)?))
}

/// "A single row by itself: after a first key of any length, not row 0, neither 16 nor 20."
fn by_itself(input: &[u8], first_len: usize) -> Place<'_> {
    Place { data: input, at: 0, first_len, row_0: false, next: None }
}

pub fn decode(input: &[u8], first_len: usize) -> Result<Row, Refusal> {
    read(&by_itself(input, first_len))
}

pub fn decode_key(input: &[u8], first_len: usize) -> Result<KeyPart, Refusal> {
    read_key(&by_itself(input, first_len))
}
