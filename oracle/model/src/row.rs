//! A row on the wire: shared, unshared, value length (three varints), key suffix, value, seq (8 bytes), flags (1), expire time
//! (8, if flagged), create time (8, if flagged). Fixed numbers are high byte first.
use crate::{refusal::*, varint, Refusal, KEY_LIMIT, VALUE_LIMIT};

const TOMBSTONE: u8 = 1;
pub(crate) const EXPIRE: u8 = 2;
pub(crate) const CREATE: u8 = 4;
const MERGE: u8 = 8;
const FIRST_UNKNOWN: u8 = 16;

/// seq and flags
pub(crate) const FIXED: usize = 9;
const TIME: usize = 8;

#[derive(Clone, Copy, Debug, PartialEq, Eq)]
pub enum Kind {
    Value,
    Tombstone,
    Merge,
}

#[derive(Clone, Copy, Debug, PartialEq, Eq)]
pub struct Fields {
    pub kind: Kind,
    pub seq: u64,
    pub expire: Option<i64>,
    pub create: Option<i64>,
}

/// A row that was read: places in the input, and fields. A tombstone has no value place: 0, of length 0.
#[derive(Clone, Debug, PartialEq, Eq)]
pub struct Row {
    pub start: usize,
    pub next: usize,
    pub shared: usize,
    pub suffix_at: usize,
    pub suffix_len: usize,
    pub value_at: usize,
    pub value_len: usize,
    pub fields: Fields,
}

/// What a key-only read gives; `end` is the suffix's.
#[derive(Clone, Debug, PartialEq, Eq)]
pub struct KeyPart {
    pub shared: usize,
    pub suffix_at: usize,
    pub suffix_len: usize,
    pub value_len: usize,
    pub end: usize,
}

/// Where a row is read: the input up to the data's end, its start, what may be shared, and where its region ends.
#[derive(Clone, Copy, Debug)]
pub struct Place<'a> {
    pub data: &'a [u8],
    pub at: usize,
    pub previous_len: usize,
    pub restart: bool,
    pub region_end: usize,
}

// ---- writing

/// "Offered bytes are ignored, for size and refusal 3 too."
pub fn written_value(kind: Kind, value: &[u8]) -> &[u8] {
    match kind {
        Kind::Tombstone => &[],
        Kind::Value | Kind::Merge => value,
    }
}

/// 1: "key empty". 2: "key over 4,096".
pub(crate) fn test_key_len(key_len: usize) -> Result<(), Refusal> {
    if key_len == 0 {
        return Err(KEY_EMPTY);
    }
    if key_len > KEY_LIMIT {
        return Err(KEY_OVER);
    }
    Ok(())
}

/// 3: "value or value length over 65,535".
pub(crate) fn test_value_len(value_len: usize) -> Result<(), Refusal> {
    if value_len > VALUE_LIMIT {
        return Err(VALUE_OVER);
    }
    Ok(())
}

/// 1, 2, 3: what is asked of a key and a value that are offered.
pub fn test_limits(key_len: usize, value_len: usize) -> Result<(), Refusal> {
    test_key_len(key_len)?;
    test_value_len(value_len)
}

/// "The three varint lengths, suffix, value, 9, and 8 for each time": 1, 2, 3.
pub fn size(shared: usize, suffix_len: usize, value: &[u8], fields: &Fields) -> Result<usize, Refusal> {
    let value_len = written_value(fields.kind, value).len();
    // A sum past usize::MAX is over the limit all the same.
    test_limits(shared.saturating_add(suffix_len), value_len)?;
    let varints = varint::len(number(shared)) + varint::len(number(suffix_len)) + varint::len(number(value_len));
    Ok(varints + suffix_len + value_len + FIXED + times_size(fields))
}

/// "8 for each time".
pub(crate) fn times_size(fields: &Fields) -> usize {
    let of = |time: Option<i64>| if time.is_some() { TIME } else { 0 };
    of(fields.expire) + of(fields.create)
}

/// A length as the number of a varint. Within the limits it is the length itself; beyond them nothing is asked of a row.
fn number(length: usize) -> u32 {
    u32::try_from(length).unwrap_or(u32::MAX)
}

/// "Tombstone 1, expire 2, create 4, merge 8."
pub(crate) fn flags(fields: &Fields) -> u8 {
    let kind = match fields.kind {
        Kind::Value => 0,
        Kind::Tombstone => TOMBSTONE,
        Kind::Merge => MERGE,
    };
    let expire = if fields.expire.is_some() { EXPIRE } else { 0 };
    let create = if fields.create.is_some() { CREATE } else { 0 };
    kind | expire | create
}

/// The bytes of a row within the limits.
pub fn bytes(shared: usize, suffix: &[u8], value: &[u8], fields: &Fields) -> Vec<u8> {
    let value = written_value(fields.kind, value);
    let mut row = varint::write(number(shared));
    row.extend(varint::write(number(suffix.len())));
    row.extend(varint::write(number(value.len())));
    row.extend(suffix);
    row.extend(value);
    row.extend(fields.seq.to_be_bytes());
    row.push(flags(fields));
    // The expire time comes first. "Times are signed, two's complement."
    for time in [fields.expire, fields.create].into_iter().flatten() {
        row.extend(time.to_be_bytes());
    }
    row
}

/// Encoding one row from a previous key, share and suffix: 13, 1, 2, 3, 6. Answers the bytes written.
pub fn encode(output: &mut [u8], previous_len: usize, shared: usize, suffix: &[u8], value: &[u8], fields: &Fields) -> Result<usize, Refusal> {
    if shared > previous_len {
        return Err(SHARE);
    }
    let size = size(shared, suffix.len(), value, fields)?;
    // 6: "lent data buffer can't hold ... (encoding one row: that row)".
    let place = output.get_mut(..size).ok_or(BUFFER_SHORT)?;
    place.copy_from_slice(&bytes(shared, suffix, value, fields));
    Ok(size)
}

// ---- reading

/// The start of every row read: "the three varints (9, 10 as met); shared longer than the previous key, or not 0 at a restart
/// (13); full key empty (1); over 4,096 (2)".
fn read_start(place: &Place) -> Result<KeyPart, Refusal> {
    let (shared, at) = varint::read(place.data, place.at)?;
    let (unshared, at) = varint::read(place.data, at)?;
    let (value_len, at) = varint::read(place.data, at)?;
    let (shared, suffix_len) = (shared as usize, unshared as usize);
    if shared > place.previous_len || (place.restart && shared != 0) {
        return Err(SHARE);
    }
    test_key_len(shared.saturating_add(suffix_len))?;
    // The suffix is at most the limit now.
    Ok(KeyPart { shared, suffix_at: at, suffix_len, value_len: value_len as usize, end: at.saturating_add(suffix_len) })
}

/// "The same tests but for the value length, and stops after the suffix, whose end takes the test 16."
pub fn read_key(place: &Place) -> Result<KeyPart, Refusal> {
    let part = read_start(place)?;
    end_of(place.data, part.suffix_at, part.suffix_len)?;
    test_region_end(place, part.end)?;
    Ok(part)
}

/// Where `len` bytes at `at` end. Bytes missing (9): "'Missing' is against the end of the data".
pub(crate) fn end_of(data: &[u8], at: usize, len: usize) -> Result<usize, Refusal> {
    match at.checked_add(len) {
        Some(end) if end <= data.len() => Ok(end),
        _ => Err(INPUT_ENDS),
    }
}

/// "Fixed numbers are high byte first": the 8 bytes at `at`, and where they end.
pub(crate) fn eight(data: &[u8], at: usize) -> Result<([u8; 8], usize), Refusal> {
    let end = end_of(data, at, 8)?;
    let mut number = [0; 8];
    number.copy_from_slice(&data[at..end]);
    Ok((number, end))
}

/// A time, if flagged: "times are signed, two's complement".
pub(crate) fn time(data: &[u8], at: usize, flagged: bool) -> Result<(Option<i64>, usize), Refusal> {
    if !flagged {
        return Ok((None, at));
    }
    let (number, end) = eight(data, at)?;
    Ok((Some(i64::from_be_bytes(number)), end))
}

/// "Bytes 16 to 255 are unknown" (11); "9, 11, 13 and 15 set tombstone and merge together" (12); "the other twelve are good".
pub(crate) fn kind_of(flags: u8) -> Result<Kind, Refusal> {
    if flags >= FIRST_UNKNOWN {
        return Err(FLAGS_UNKNOWN);
    }
    match (flags & TOMBSTONE != 0, flags & MERGE != 0) {
        (true, true) => Err(TOMBSTONE_WITH_MERGE),
        (true, false) => Ok(Kind::Tombstone),
        (false, true) => Ok(Kind::Merge),
        (false, false) => Ok(Kind::Value),
    }
}

/// 16: "row end past its region".
fn test_region_end(place: &Place, end: usize) -> Result<(), Refusal> {
    if end > place.region_end {
        return Err(PAST_REGION);
    }
    Ok(())
}

/// Order of a row read: the three varints (9, 10 as met), 13, 1, 2, value length (3), bytes missing (9), flags (11, 12), times
/// missing (9), row end past its region (16).
pub fn read(place: &Place) -> Result<Row, Refusal> {
    let data = place.data;
    let KeyPart { shared, suffix_at, suffix_len, value_len, .. } = read_start(place)?;
    test_value_len(value_len)?;
    let value_at = end_of(data, suffix_at, suffix_len)?;
    let seq_at = end_of(data, value_at, value_len)?;
    let (seq, flags_at) = eight(data, seq_at)?;
    let flags = *data.get(flags_at).ok_or(INPUT_ENDS)?;
    let kind = kind_of(flags)?;
    let (expire, create_at) = time(data, flags_at + 1, flags & EXPIRE != 0)?;
    let (create, next) = time(data, create_at, flags & CREATE != 0)?;
    test_region_end(place, next)?;
    let (value_at, value_len) = value_place(kind, value_at, value_len);
    let fields = Fields { kind, seq: u64::from_be_bytes(seq), expire, create };
    Ok(Row { start: place.at, next, shared, suffix_at, suffix_len, value_at, value_len, fields })
}

/// "A tombstone's value is empty: ... value bytes read are dropped."
fn value_place(kind: Kind, value_at: usize, value_len: usize) -> (usize, usize) {
    match kind {
        Kind::Tombstone => (0, 0),
        Kind::Value | Kind::Merge => (value_at, value_len),
    }
}

/// "A single row decoded by itself has the whole input as its region and isn't a restart."
fn by_itself(input: &[u8], previous_len: usize) -> Place<'_> {
    Place { data: input, at: 0, previous_len, restart: false, region_end: input.len() }
}

pub fn decode(input: &[u8], previous_len: usize) -> Result<Row, Refusal> {
    read(&by_itself(input, previous_len))
}

pub fn decode_key(input: &[u8], previous_len: usize) -> Result<KeyPart, Refusal> {
    read_key(&by_itself(input, previous_len))
}

/// "The first `shared` bytes of the previous key, then the suffix." The places come from a row that was read; of others it takes
/// what is there.
pub fn full_key(data: &[u8], previous: &[u8], shared: usize, suffix_at: usize, suffix_len: usize) -> Vec<u8> {
    let suffix = data.iter().skip(suffix_at).take(suffix_len);
    previous.iter().take(shared).chain(suffix).copied().collect()
}
