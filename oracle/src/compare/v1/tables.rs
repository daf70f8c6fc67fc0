//! The earlier format read by its tables alone, in their own way and not through the model: what each byte is, the faults in their
//! order with the number that each must give, and what the Rust does with them, which is held to the byte. A difference from the
//! Rust that is not here fails the run.
use model::cursor::Order;
use model::v1::builder::Builder;
use model::v1::row::Place;
use model::{Refusal, BLOCK_SIZE_LIMIT, KEY_LIMIT, VALUE_LIMIT};
use slate_oracle::direct::{Row, Stop};

/// What the Rust does with an input that is refused here.
#[derive(Clone, Copy, Debug, PartialEq, Eq)]
pub enum Does {
    /// It takes it, or reads it, or goes on to another end.
    Takes,
    /// `Ok(false)` of a builder.
    SaysNo,
    Panics,
    /// `InvalidRowFlags`, or `EmptyKey` of a builder.
    Errors,
}

impl Does {
    fn word(self) -> &'static str {
        match self {
            Does::Takes => "takes it",
            Does::SaysNo => "says that it doesn't fit",
            Does::Panics => "panics",
            Does::Errors => "refuses the flags",
        }
    }
}

pub fn does<T>(answer: &Result<T, Stop>) -> Does {
    match answer {
        Ok(_) => Does::Takes,
        Err(Stop::Panic) => Does::Panics,
        Err(_) => Does::Errors,
    }
}

/// A line of a table: the number that is given here, and what the Rust may do with such an input.
#[derive(Clone, Copy, Debug)]
pub struct Known {
    what: &'static str,
    pub here: Refusal,
    rust: &'static [Does],
}

impl Known {
    /// What the Rust does not have.
    pub const fn of_here_alone(what: &'static str, here: Refusal) -> Known {
        Known { what, here, rust: &[] }
    }

    /// The name that it is counted under, if the Rust may do so.
    pub fn listed(&self, does: Does) -> Option<String> {
        self.rust.contains(&does).then(|| format!("{}: the Rust {}, here {}", self.what, does.word(), self.here))
    }
}

struct Line<Input> {
    known: Known,
    holds: fn(&Input) -> bool,
}

const fn line<Input>(what: &'static str, here: Refusal, rust: &'static [Does], holds: fn(&Input) -> bool) -> Line<Input> {
    Line { known: Known { what, here, rust }, holds }
}

/// The first line that holds: the tables stand in the order of the tests.
fn first<Input>(table: &[Line<Input>], input: &Input) -> Option<Known> {
    table.iter().find(|line| (line.holds)(input)).map(|line| line.known)
}

/// The one difference on blocks that the check accepts.
pub const EXPIRE: &str = "a tombstone's expire time: the Rust writes it and drops it on reading, here it is read";

/// The row as the Rust gives it.
pub fn as_the_rust_reads(row: &Row) -> Row {
    Row { expire: row.expire.filter(|_| row.kind != TOMBSTONE_KIND), ..row.clone() }
}

pub const TOMBSTONE_KIND: u8 = 1;

// ---- the bytes of a row

fn number(data: &[u8], at: usize, len: usize) -> Option<usize> {
    Some(data.get(at..at.checked_add(len)?)?.iter().fold(0, |number, byte| number * 256 + *byte as usize))
}

fn share(p: &Place) -> Option<usize> {
    number(p.data, p.at, 2)
}

fn suffix_len(p: &Place) -> Option<usize> {
    number(p.data, p.at.checked_add(2)?, 2)
}

fn key_len(p: &Place) -> Option<usize> {
    Some(share(p)? + suffix_len(p)?)
}

fn suffix_end(p: &Place) -> Option<usize> {
    Some(p.at + 4 + suffix_len(p)?)
}

fn flags(p: &Place) -> Option<u8> {
    p.data.get(suffix_end(p)? + 8).copied()
}

/// Where the times end, by the row's own account, past the data or not.
fn times_end(p: &Place) -> Option<usize> {
    let flags = flags(p)?;
    Some(suffix_end(p)? + 9 + 8 * (flags / 2 % 2) as usize + 8 * (flags / 4 % 2) as usize)
}

fn is_tombstone(p: &Place) -> bool {
    flags(p).is_some_and(|flags| flags % 2 == 1)
}

fn value_len(p: &Place) -> Option<usize> {
    number(p.data, times_end(p)?, 4)
}

/// Where the row ends, by its own account.
fn row_end(p: &Place) -> Option<usize> {
    if is_tombstone(p) { times_end(p) } else { Some(times_end(p)? + 4 + value_len(p)?) }
}

fn past(end: Option<usize>, limit: usize) -> bool {
    end.is_some_and(|end| end > limit)
}

// ---- what is wrong with a row

use Does::{Errors, Panics, SaysNo, Takes};

/// What both reads of a row begin with. The Rust finds a long share only when it forms the key, after the flags; a row by itself
/// has no first key there.
fn head_table<'a>() -> [Line<Place<'a>>; 5] {
    [
        line("a row whose share or suffix length is missing", 9, &[Panics], |p| suffix_len(p).is_none()),
        line("a first row that shares", 13, &[Panics], |p| p.row_0 && share(p) != Some(0)),
        line("a share longer than the first key", 13, &[Takes, Panics, Errors], |p| past(share(p), p.first_len)),
        line("a row with an empty key", 1, &[Takes, Panics, Errors], |p| key_len(p) == Some(0)),
        line("a row with a key over 4,096", 2, &[Takes, Panics, Errors], |p| past(key_len(p), KEY_LIMIT)),
    ]
}

fn row_table<'a>() -> [Line<Place<'a>>; 9] {
    [
        line("a row whose suffix, seq or flags are missing", 9, &[Panics], |p| flags(p).is_none()),
        line("unknown flags", 11, &[Errors], |p| flags(p).is_some_and(|flags| flags > 15)),
        line("tombstone with merge", 12, &[Errors], |p| is_tombstone(p) && flags(p).is_some_and(|flags| flags > 8)),
        line("a row whose times are missing", 9, &[Panics], |p| past(times_end(p), p.data.len())),
        line("a row whose value length is missing", 9, &[Panics], |p| !is_tombstone(p) && value_len(p).is_none()),
        line("a row with a value length over 65,535", 3, &[Takes, Panics], |p| !is_tombstone(p) && past(value_len(p), VALUE_LIMIT)),
        line("a row whose value is missing", 9, &[Panics], |p| past(row_end(p), p.data.len())),
        line("a row that runs past the next offset", 16, &[Takes], |p| p.next.is_some_and(|next| past(row_end(p), next))),
        line("a row that ends before the next offset", 20, &[Takes], |p| p.next.is_some_and(|next| row_end(p) < Some(next))),
    ]
}

fn key_table<'a>() -> [Line<Place<'a>>; 2] {
    [
        line("a key whose bytes are missing", 9, &[Panics], |p| past(suffix_end(p), p.data.len())),
        line("a key that runs past the next offset", 16, &[Takes, Panics], |p| p.next.is_some_and(|next| past(suffix_end(p), next))),
    ]
}

pub fn row_fault(place: &Place) -> Option<Known> {
    first(&head_table(), place).or_else(|| first(&row_table(), place))
}

pub fn key_fault(place: &Place) -> Option<Known> {
    first(&head_table(), place).or_else(|| first(&key_table(), place))
}

/// The row that the bytes spell, with this key.
fn spelled(p: &Place, key: Vec<u8>) -> Option<Row> {
    let (flags, seq_at, times_end) = (flags(p)?, suffix_end(p)?, times_end(p)?);
    let eight = |at: usize| Some(u64::from_be_bytes(p.data.get(at..at + 8)?.try_into().ok()?));
    let time = |bit: u8, at: usize| if flags & bit != 0 { eight(at).map(|time| Some(time as i64)) } else { Some(None) };
    let value = if is_tombstone(p) { Some(&[][..]) } else { p.data.get(times_end + 4..times_end + 4 + value_len(p)?) };
    let kind = [0, TOMBSTONE_KIND][(flags & 1) as usize] + flags / 8 * 2;
    let (expire, create) = (time(2, seq_at + 9)?, time(4, times_end.wrapping_sub(8))?);
    Some(Row { key, kind, value: value?.to_vec(), seq: eight(seq_at)?, expire, create })
}

fn key_of(p: &Place, first: &[u8]) -> Option<Vec<u8>> {
    Some([first.get(..share(p)?)?, p.data.get(p.at + 4..suffix_end(p)?)?].concat())
}

/// The suffix, and the row with it for its key, of a row without fault.
pub fn by_itself(p: &Place) -> Row {
    spelled(p, p.data[p.at + 4..suffix_end(p).expect("a suffix")].to_vec()).expect("a row without fault")
}

/// The share, the suffix's place and length, and its end, of a key without fault.
pub fn key_part(p: &Place) -> (usize, usize, usize, usize) {
    let (Some(share), Some(len), Some(end)) = (share(p), suffix_len(p), suffix_end(p)) else { panic!("a key without fault") };
    (share, end - len, len, end)
}

pub fn end_of(p: &Place) -> usize {
    row_end(p).expect("a row without fault")
}

// ---- a block

pub struct Block<'a> {
    pub data: &'a [u8],
    pub offsets: Vec<usize>,
}

fn count(block: &[u8]) -> usize {
    number(block, block.len() - 2, 2).expect("two bytes")
}

pub fn block(bytes: &[u8]) -> Option<Block<'_>> {
    if bytes.len() < 2 || 2 * count(bytes) + 2 > bytes.len() {
        return None;
    }
    let data_len = bytes.len() - 2 - 2 * count(bytes);
    let offsets = (0..count(bytes)).map(|i| number(bytes, data_len + 2 * i, 2).expect("an offset")).collect();
    Some(Block { data: &bytes[..data_len], offsets })
}

static TRAILER: [Line<Vec<u8>>; 3] = [
    line("a block under 2 bytes", 14, &[Panics], |b| b.len() < 2),
    line("a trailer longer than the block", 14, &[Panics], |b| 2 * count(b) + 2 > b.len()),
    line("a count of 0", 14, &[Takes, Panics], |b| count(b) == 0),
];

/// Which offsets of the block are looked at: from this one to before that one.
struct Used<'a> {
    block: &'a Block<'a>,
    from: usize,
    to: usize,
}

impl Used<'_> {
    fn offsets(&self) -> &[usize] {
        &self.block.offsets[self.from..self.to.min(self.block.offsets.len())]
    }
}

fn offset_table<'a>() -> [Line<Used<'a>>; 3] {
    [
        line("a first offset that is not 0", 15, &[Takes, Panics, Errors], |u| u.from == 0 && u.offsets()[0] != 0),
        line("offsets that don't rise", 15, &[Takes, Panics, Errors], |u| !u.offsets().is_sorted_by(|one, next| one < next)),
        line("an offset not below the data length", 15, &[Takes, Panics, Errors], |u| u.offsets().iter().any(|at| *at >= u.block.data.len())),
    ]
}

impl<'a> Block<'a> {
    fn offsets_fault(&self, from: usize, to: usize) -> Result<(), Known> {
        first(&offset_table(), &Used { block: self, from, to }).map_or(Ok(()), Err)
    }

    fn place(&'a self, number: usize, first_len: usize) -> Place<'a> {
        let next = self.offsets.get(number + 1).copied().unwrap_or(self.data.len());
        Place { data: self.data, at: self.offsets[number], first_len, row_0: number == 0, next: Some(next) }
    }

    /// 15 for these two, then the key alone.
    fn key(&self, number: usize, first: &[u8]) -> Result<Vec<u8>, Known> {
        self.offsets_fault(number, number + 2)?;
        let place = self.place(number, first.len());
        key_fault(&place).map_or(Ok(()), Err)?;
        Ok(key_of(&place, first).expect("a key without fault"))
    }

    /// The Rust reads it once, when it opens the block, and with fewer tests: whatever it does later is another row's.
    fn first_key(&self) -> Result<Vec<u8>, Known> {
        self.key(0, &[]).map_err(|known| Known { rust: &[Takes, Panics, Errors], ..known })
    }

    fn row(&self, number: usize, first: &[u8]) -> Result<Row, Known> {
        self.offsets_fault(number, number + 2)?;
        let place = self.place(number, first.len());
        row_fault(&place).map_or(Ok(()), Err)?;
        let key = key_of(&place, first).expect("a key without fault");
        Ok(spelled(&place, key).expect("a row without fault"))
    }
}

fn opened(bytes: &[u8]) -> Result<Block<'_>, Known> {
    first(&TRAILER, &bytes.to_vec()).map_or(Ok(()), Err)?;
    Ok(block(bytes).expect("a good trailer"))
}

/// Which row stands where a cursor goes on.
fn row_number(order: Order, rows: usize, passed: usize) -> usize {
    if order == Order::Ascending { passed } else { rows - 1 - passed }
}

/// A row that a step gives, with its number and its places: start, end, share, the suffix's place and length, and the value's.
#[derive(Clone, Debug, PartialEq, Eq)]
pub struct Named {
    pub number: usize,
    pub places: [usize; 7],
    pub row: Row,
}

fn places(p: &Place, row: &Row) -> [usize; 7] {
    let (share, suffix_at, suffix_len, _) = key_part(p);
    let end = end_of(p);
    let value_at = if row.kind == TOMBSTONE_KIND { 0 } else { end - row.value.len() };
    [p.at, end, share, suffix_at, suffix_len, value_at, row.value.len()]
}

pub fn open(bytes: &[u8]) -> Result<(), Known> {
    let block = opened(bytes)?;
    block.offsets_fault(0, block.offsets.len())?;
    block.first_key().map(drop)
}

pub fn step(bytes: &[u8], order: Order, passed: usize) -> Result<Option<Named>, Known> {
    let block = opened(bytes)?;
    let rows = block.offsets.len();
    if passed > rows {
        return Err(FORGED);
    }
    if passed == rows {
        return Ok(None);
    }
    let number = row_number(order, rows, passed);
    let first = block.first_key()?;
    let row = block.row(number, &first)?;
    let places = places(&block.place(number, first.len()), &row);
    Ok(Some(Named { number, places, row }))
}

/// The Rust's iterator has no such state.
const FORGED: Known = Known::of_here_alone("more rows passed than there are", 18);

/// How many rows are passed, and how many keys the search read.
pub fn seek(bytes: &[u8], order: Order, target: &[u8]) -> Result<(usize, usize), Known> {
    let block = opened(bytes)?;
    let first = block.first_key()?;
    let reads = std::cell::Cell::new(0);
    let below = |number: usize| -> Result<bool, Known> {
        reads.set(reads.get() + 1);
        block.key(number, &first).map(|key| goes_up(order, &key, target))
    };
    let found = halved(0, block.offsets.len(), &below)?;
    Ok((passed_at(order, block.offsets.len(), found), reads.get()))
}

fn goes_up(order: Order, key: &[u8], target: &[u8]) -> bool {
    key < target || order == Order::Descending && key == target
}

fn passed_at(order: Order, rows: usize, found: usize) -> usize {
    if order == Order::Ascending { found } else { rows - found }
}

/// "The middle, low + (high-low)/2", until the span is empty.
fn halved<E>(low: usize, high: usize, below: &impl Fn(usize) -> Result<bool, E>) -> Result<usize, E> {
    if low == high {
        return Ok(low);
    }
    let middle = (low + high) / 2;
    if below(middle)? { halved(middle + 1, high, below) } else { halved(low, middle, below) }
}

static ORDER: [Line<(Row, Row)>; 2] = [
    line("a key below the one before", 17, &[Takes], |(row, next)| next.key < row.key),
    line("equal keys whose numbers don't fall", 17, &[Takes], |(row, next)| next.key == row.key && next.seq >= row.seq),
];

/// How many rows, or what is wrong with the block: with its trailer and offsets, then row by row.
pub fn check(bytes: &[u8]) -> Result<usize, Known> {
    let block = opened(bytes)?;
    block.offsets_fault(0, block.offsets.len())?;
    let mut rows: Vec<Row> = Vec::new();
    for number in 0..block.offsets.len() {
        let row = block.row(number, rows.first().map_or(&[], |row| &row.key))?;
        if let Some(before) = rows.last() {
            first(&ORDER, &(before.clone(), row.clone())).map_or(Ok(()), Err)?;
        }
        rows.push(row);
    }
    Ok(rows.len())
}

// ---- the Rust, to the byte

/// The first key, if it opens the block; else it panics.
pub fn rust_opens(bytes: &[u8]) -> Option<Vec<u8>> {
    let place = Place { data: block(bytes)?.data, at: 0, first_len: 0, row_0: true, next: None };
    key_of(&place, &[])
}

/// "TODO: bounds checks to avoid panics?": a row that is not all there panics, but for bad flags, and so does a share that is too
/// long, once the row is read; a tombstone's lengths are held to 16 bits together.
fn rust_reads(place: &Place, key: impl FnOnce() -> Option<Vec<u8>>) -> Result<Row, Stop> {
    let flags = flags(place).ok_or(Stop::Panic)?;
    if flags > 15 || flags & 9 == 9 {
        return Err(Stop::InvalidRowFlags);
    }
    if is_tombstone(place) && past(key_len(place), 65_535) {
        return Err(Stop::Panic);
    }
    let row = key().and_then(|key| spelled(place, key)).ok_or(Stop::Panic)?;
    Ok(as_the_rust_reads(&row))
}

/// Row by itself: its share, the row with the suffix for its key, and where the Rust stops reading, before the value.
pub fn rust_decodes(input: &[u8]) -> Result<(usize, Row, usize), Stop> {
    let place = Place { data: input, at: 0, first_len: 0, row_0: false, next: None };
    let suffix = || Some(input.get(4..suffix_end(&place)?)?.to_vec());
    let row = rust_reads(&place, suffix)?;
    Ok((share(&place).expect("a share"), row, times_end(&place).expect("times") + if is_tombstone(&place) { 0 } else { 4 }))
}

/// The Rust's iterator: its first key, and how many rows it has passed.
#[derive(Clone)]
pub struct Rust {
    pub first: Vec<u8>,
    pub passed: usize,
}

impl Rust {
    pub fn step(&mut self, bytes: &[u8], order: Order) -> Result<Option<Row>, Stop> {
        let block = block(bytes).expect("opened");
        if self.passed >= block.offsets.len() {
            return Ok(None);
        }
        let place = block.place(row_number(order, block.offsets.len(), self.passed), self.first.len());
        let row = rust_reads(&place, || key_of(&place, &self.first))?;
        self.passed += 1;
        Ok(Some(row))
    }

    pub fn seek(&mut self, bytes: &[u8], order: Order, target: &[u8]) -> Result<(), Stop> {
        let block = block(bytes).expect("opened");
        let below = |number: usize| {
            let key = key_of(&block.place(number, self.first.len()), &self.first).ok_or(Stop::Panic)?;
            Ok(goes_up(order, &key, target))
        };
        self.passed = passed_at(order, block.offsets.len(), halved(0, block.offsets.len(), &below)?);
        Ok(())
    }

    pub fn is_empty(&self, bytes: &[u8]) -> bool {
        self.passed >= block(bytes).expect("opened").offsets.len()
    }
}

// ---- writing

pub struct Encode {
    pub first_len: usize,
    pub shared: usize,
    pub row: Row,
    pub output_len: usize,
}

/// 4, suffix, 9, the times, and 4 and the value but for a tombstone.
pub fn size_of(row: &Row, suffix_len: usize) -> usize {
    let times = row.expire.iter().chain(&row.create).count();
    13 + suffix_len + 8 * times + if row.kind == TOMBSTONE_KIND { 0 } else { 4 + row.value.len() }
}

fn value_over(row: &Row) -> bool {
    row.kind != TOMBSTONE_KIND && row.value.len() > VALUE_LIMIT
}

fn whole_key(e: &Encode) -> usize {
    e.shared.saturating_add(e.row.key.len())
}

static ENCODE: [Line<Encode>; 5] = [
    line("encoding a share longer than the first key", 13, &[Takes, Panics], |e| e.shared > e.first_len),
    line("encoding an empty key", 1, &[Takes], |e| whole_key(e) == 0),
    line("encoding a key over 4,096", 2, &[Takes, Panics], |e| whole_key(e) > KEY_LIMIT),
    line("encoding a value over 65,535", 3, &[Takes], |e| value_over(&e.row)),
    line("a lent buffer too short for a row", 6, &[Takes], |e| size_of(&e.row, e.row.key.len()) > e.output_len),
];

pub fn encode_fault(encode: &Encode) -> Option<Known> {
    first(&ENCODE, encode)
}

/// Asserted there: share and suffix are at most 65,535 together.
pub fn rust_encodes(shared: usize, row: &Row) -> bool {
    shared.saturating_add(row.key.len()) <= 65_535
}

static SETTINGS: [Line<usize>; 1] = [line("a block size over 131,072", 8, &[Takes], |size| *size > BLOCK_SIZE_LIMIT)];

pub fn settings_fault(block_size: usize) -> Option<Known> {
    first(&SETTINGS, &block_size)
}

/// A row offered to a builder that has taken so many rows and bytes.
pub struct Offer {
    pub row: Row,
    pub shared: usize,
    pub rows: usize,
    pub used: usize,
    pub block_size: usize,
    pub data_len: usize,
    pub offsets_len: usize,
}

impl Offer {
    fn size(&self) -> usize {
        size_of(&self.row, self.row.key.len() - self.shared)
    }

    fn fits(&self) -> bool {
        self.rows == 0 || self.used + 2 * self.rows + 2 + self.size() <= self.block_size
    }
}

static FIT: [Line<Offer>; 4] = [
    line("an empty key in the fit question", 1, &[Takes, SaysNo], |o| o.row.key.is_empty()),
    line("a key over 4,096 in the fit question", 2, &[Takes, SaysNo], |o| o.row.key.len() > KEY_LIMIT),
    line("a value over 65,535 in the fit question", 3, &[Takes, SaysNo], |o| value_over(&o.row)),
    line("a row that doesn't fit", 4, &[SaysNo], |o| !o.fits()),
];

static ADD: [Line<Offer>; 7] = [
    line("an empty key offered", 1, &[Errors], |o| o.row.key.is_empty()),
    line("a key over 4,096 offered", 2, &[Takes, SaysNo, Panics], |o| o.row.key.len() > KEY_LIMIT),
    line("a value over 65,535 offered", 3, &[Takes, SaysNo], |o| value_over(&o.row)),
    line("a row that doesn't fit", 4, &[SaysNo], |o| !o.fits()),
    line("a row that would start past 65,535, its offset cut to 16 bits", 5, &[Takes], |o| o.used > 65_535),
    line("a lent data buffer too short for rows and trailer", 6, &[Takes], |o| o.used + o.size() + 2 * o.rows + 4 > o.data_len),
    line("a lent buffer of offsets with no place left", 6, &[Takes], |o| o.rows == o.offsets_len),
];

pub fn fit_fault(offer: &Offer) -> Option<Known> {
    first(&FIT, offer)
}

pub fn add_fault(offer: &Offer) -> Option<Known> {
    first(&ADD, offer)
}

pub fn rust_fits(offer: &Offer) -> Result<bool, Stop> {
    Ok(offer.fits())
}

pub fn rust_adds(offer: &Offer) -> Result<bool, Stop> {
    if offer.row.key.is_empty() {
        return Err(Stop::EmptyKey);
    }
    if !offer.fits() {
        return Ok(false);
    }
    if offer.row.key.len() > 65_535 { Err(Stop::Panic) } else { Ok(true) }
}

/// "Block size outside its limits, data or offsets beyond their buffers, over 5,042 rows, fewer than 13 data bytes a row, data
/// without rows, a first key over the limit."
pub fn bad_state(b: &Builder, data_len: usize, offsets_len: usize) -> bool {
    let rows_of_13 = b.used / 13;
    [
        b.block_size > BLOCK_SIZE_LIMIT,
        b.used > data_len,
        b.rows > offsets_len.min(5_042).min(rows_of_13),
        b.rows == 0 && b.used != 0,
        b.first_key.len > KEY_LIMIT,
    ]
    .contains(&true)
}
