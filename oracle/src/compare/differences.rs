//! Where the answers part from the Rust's. Each kind of difference is a predicate on the input alone, with the number that 01
//! gives and what the Rust does. The predicates look at the bytes in their own way, not through the model. Any difference that
//! is not in these tables fails the run.
use crate::regions::{self, before_first_greater, Asked, Told};
use model::cursor::Order;
use model::row::Place;
use model::{Refusal, BLOCK_SIZE_LIMIT, INTERVAL_LIMIT, KEY_LIMIT, RESTART_LIMIT, VALUE_LIMIT};
use slate_oracle::direct::{Row, Stop};

#[derive(Clone, Copy, Debug, PartialEq, Eq)]
pub enum Rust {
    Panics,
    /// `InvalidRowFlags`: it refuses too, only without a number, so this is no difference
    Errors,
    /// it takes the input, reads on, or stops at something later
    Varies,
}

impl Rust {
    pub fn may<T>(self, answer: &Result<T, Stop>) -> bool {
        match self {
            Rust::Panics => matches!(answer, Err(Stop::Panic)),
            Rust::Errors => matches!(answer, Err(Stop::InvalidRowFlags)),
            Rust::Varies => true,
        }
    }
}

#[derive(Clone, Copy, Debug, PartialEq)]
pub struct Known {
    pub name: &'static str,
    pub here: Refusal,
    pub rust: Rust,
}

pub struct Difference<Input> {
    known: Known,
    holds: fn(&Input) -> bool,
}

const fn entry<Input>(name: &'static str, here: Refusal, rust: Rust, holds: fn(&Input) -> bool) -> Difference<Input> {
    Difference { known: Known { name, here, rust }, holds }
}

/// The first entry that holds: the tables stand in 01's order.
pub fn first<Input>(table: &[Difference<Input>], input: &Input) -> Option<Known> {
    table.iter().find(|difference| (difference.holds)(input)).map(|difference| difference.known)
}

// ---- varints and rows

#[derive(Clone, Copy, PartialEq, Eq)]
enum Spelled {
    Ends,
    FifthAbove15,
    Padded,
    Number { number: usize, end: usize },
}

fn spelled(data: &[u8], at: usize) -> Spelled {
    let rest = &data[at..];
    let going_on = rest.iter().take(4).take_while(|byte| **byte >= 128).count();
    match rest.get(going_on) {
        None => Spelled::Ends,
        Some(&byte) if going_on == 4 && byte > 15 => Spelled::FifthAbove15,
        Some(0) if going_on > 0 => Spelled::Padded,
        Some(_) => {
            let number = rest[..=going_on].iter().rev().fold(0, |number, byte| number * 128 + (byte % 128) as usize);
            Spelled::Number { number, end: at + going_on + 1 }
        }
    }
}

/// The three varints of a row, and where they end; or the first that is none.
struct Head {
    shared: usize,
    suffix: usize,
    value: usize,
    end: usize,
}

fn head(place: &Place) -> Result<Head, Spelled> {
    let mut end = place.at;
    let mut numbers = [0; 3];
    for number in &mut numbers {
        match spelled(place.data, end) {
            Spelled::Number { number: n, end: e } => (*number, end) = (n, e),
            other => return Err(other),
        }
    }
    Ok(Head { shared: numbers[0], suffix: numbers[1], value: numbers[2], end })
}

fn has(place: &Place, test: fn(&Place, Head) -> bool) -> bool {
    head(place).is_ok_and(|head| test(place, head))
}

fn flags(place: &Place) -> Option<u8> {
    let head = head(place).ok()?;
    place.data.get(head.end + head.suffix + head.value + 8).copied()
}

/// Where the row ends, by its own account.
fn row_end(place: &Place) -> Option<usize> {
    let (head, flags) = (head(place).ok()?, flags(place)?);
    Some(head.end + head.suffix + head.value + 9 + 8 * (flags & 2 != 0) as usize + 8 * (flags & 4 != 0) as usize)
}

/// A number, and the length of the buffer that is lent for its varint. The Rust's own bytes say how many are needed.
pub static VARINT_WRITTEN: [Difference<(u32, usize)>; 1] = [
    entry("a lent buffer too short for a varint: the Rust's grows, 01 refuses 6", 6, Rust::Varies, |(number, output_len)| {
        slate_oracle::direct::varint(*number).0.len() > *output_len
    }),
];

pub static VARINT: [Difference<Vec<u8>>; 3] = [
    entry("a varint that the input ends in: the Rust panics, 01 refuses 9", 9, Rust::Panics, |input| spelled(input, 0) == Spelled::Ends),
    entry("a varint's fifth byte above 15: the Rust cuts it or reads on, 01 refuses 10", 10, Rust::Varies, |input| {
        spelled(input, 0) == Spelled::FifthAbove15
    }),
    entry("a varint longer than its number needs: the Rust reads it, 02 refuses 10", 10, Rust::Varies, |input| {
        spelled(input, 0) == Spelled::Padded
    }),
];

/// A varint as a release build of the Rust reads it, and where it ends: up to a byte below 128, seven bits each, past 32 bits from
/// the lowest on again. None: the input ends before, and it panics.
pub fn read_by_the_rust(data: &[u8], at: usize) -> Option<(u32, usize)> {
    let len = 1 + data[at..].iter().position(|byte| *byte < 128)?;
    let bits = data[at..at + len].iter().enumerate().map(|(i, byte)| ((byte & 127) as u32).wrapping_shl(7 * i as u32));
    Some((bits.fold(0, |number, bits| number | bits), at + len))
}

/// What both reads of a row begin with, as 01 orders the tests.
fn head_table<'a>() -> [Difference<Place<'a>>; 7] {
    [
        entry("a row that ends in a varint: the Rust panics, 01 refuses 9", 9, Rust::Panics, |p| head(p).is_err_and(|s| s == Spelled::Ends)),
        entry("a row with a fifth varint byte above 15: the Rust reads on, 01 refuses 10", 10, Rust::Varies, |p| {
            head(p).is_err_and(|s| s == Spelled::FifthAbove15)
        }),
        entry("a row with a varint longer than its number needs: the Rust reads it, 02 refuses 10", 10, Rust::Varies, |p| {
            head(p).is_err_and(|s| s == Spelled::Padded)
        }),
        entry("a share that is not 0 at a restart: the Rust takes it ascending, else panics, 01 refuses 13", 13, Rust::Varies, |p| {
            p.restart && has(p, |_, h| h.shared != 0)
        }),
        entry("a share longer than the key before: the Rust panics, or decoding one row takes it, 01 refuses 13", 13, Rust::Varies, |p| {
            has(p, |p, h| h.shared > p.previous_len)
        }),
        entry("a row with an empty key: the Rust reads it, 01 refuses 1", 1, Rust::Varies, |p| has(p, |_, h| h.shared + h.suffix == 0)),
        entry("a row with a key over 4,096: the Rust reads it, 01 refuses 2", 2, Rust::Varies, |p| has(p, |_, h| h.shared + h.suffix > KEY_LIMIT)),
    ]
}

fn row_table<'a>() -> [Difference<Place<'a>>; 6] {
    [
        entry("a row with a value length over 65,535: the Rust reads it, 01 refuses 3", 3, Rust::Varies, |p| has(p, |_, h| h.value > VALUE_LIMIT)),
        entry("a row whose bytes are missing: the Rust panics, 01 refuses 9", 9, Rust::Panics, |p| flags(p).is_none()),
        entry("unknown flags: both refuse, 01 with 11", 11, Rust::Errors, |p| flags(p).is_some_and(|flags| flags >= 16)),
        entry("tombstone with merge: both refuse, 01 with 12", 12, Rust::Errors, |p| flags(p).is_some_and(|flags| flags & 9 == 9)),
        entry("a row whose times are missing: the Rust panics, 01 refuses 9", 9, Rust::Panics, |p| row_end(p).is_some_and(|end| end > p.data.len())),
        entry("a row that runs past the next restart: the Rust reads it, 01 refuses 16", 16, Rust::Varies, |p| {
            row_end(p).is_some_and(|end| end > p.region_end)
        }),
    ]
}

fn key_table<'a>() -> [Difference<Place<'a>>; 2] {
    [
        entry("a key whose bytes are missing: the Rust panics, 01 refuses 9", 9, Rust::Panics, |p| has(p, |p, h| h.end + h.suffix > p.data.len())),
        entry("a key that runs past the next restart: the Rust reads it, 01 refuses 16", 16, Rust::Varies, |p| {
            has(p, |p, h| h.end + h.suffix > p.region_end)
        }),
    ]
}

/// What 01 finds wrong with the row at this place.
pub fn row_fault(place: &Place) -> Option<Known> {
    first(&head_table(), place).or_else(|| first(&row_table(), place))
}

/// What 01 finds wrong with its key, read alone.
pub fn key_fault(place: &Place) -> Option<Known> {
    first(&head_table(), place).or_else(|| first(&key_table(), place))
}

/// The key of a row whose key is without fault.
pub fn key(place: &Place, previous: &[u8]) -> Vec<u8> {
    let Ok(head) = head(place) else { panic!("a key without fault") };
    [&previous[..head.shared], &place.data[head.end..head.end + head.suffix]].concat()
}

/// A row without fault, and its end.
pub fn row_and_end(place: &Place, previous: &[u8]) -> (Row, usize) {
    let (Ok(head), Some(flags), Some(end)) = (head(place), flags(place), row_end(place)) else { panic!("a row without fault") };
    let value_at = head.end + head.suffix;
    let seq_at = value_at + head.value;
    let eight = |at: usize| u64::from_be_bytes(place.data[at..at + 8].try_into().expect("eight"));
    let kind = match flags & 9 {
        1 => 1,
        8 => 2,
        _ => 0,
    };
    let value = if kind == 1 { Vec::new() } else { place.data[value_at..seq_at].to_vec() };
    let expire = (flags & 2 != 0).then(|| eight(seq_at + 9) as i64);
    let create = (flags & 4 != 0).then(|| eight(end - 8) as i64);
    (Row { key: key(place, previous), kind, value, seq: eight(seq_at), expire, create }, end)
}

// ---- writing

pub struct Encode {
    pub previous_len: usize,
    pub shared: usize,
    pub row: Row,
    pub output_len: usize,
}

fn key_len(e: &Encode) -> usize {
    e.shared + e.row.key.len()
}

fn value_over(row: &Row) -> bool {
    row.kind != 1 && row.value.len() > VALUE_LIMIT
}

pub static ENCODE: [Difference<Encode>; 5] = [
    entry("encoding a share longer than the key before: the Rust knows no key before, 01 refuses 13", 13, Rust::Varies, |e| e.shared > e.previous_len),
    entry("encoding an empty key: the Rust writes it, 01 refuses 1", 1, Rust::Varies, |e| key_len(e) == 0),
    entry("encoding a key over 4,096: the Rust writes it, 01 refuses 2", 2, Rust::Varies, |e| key_len(e) > KEY_LIMIT),
    entry("encoding a value over 65,535: the Rust writes it, 01 refuses 3", 3, Rust::Varies, |e| value_over(&e.row)),
    // the lent length is the input that counts here, and the Rust's own bytes say how many are needed
    entry("a lent buffer too short for a row: the Rust's grows, 01 refuses 6", 6, Rust::Varies, |e| {
        slate_oracle::direct::encode(e.shared as u32, &e.row).is_ok_and(|(bytes, _)| bytes.len() > e.output_len)
    }),
];

pub struct Settings {
    pub block_size: usize,
    pub interval: usize,
}

pub static SETTINGS: [Difference<Settings>; 3] = [
    entry("a block size over 131,072: the Rust takes it, 01 refuses 8", 8, Rust::Varies, |s| s.block_size > BLOCK_SIZE_LIMIT),
    entry("interval 0: the Rust takes it as one restart, 01 refuses 8", 8, Rust::Varies, |s| s.interval == 0),
    entry("an interval over 1,024: the Rust takes it, 01 refuses 8", 8, Rust::Varies, |s| s.interval > INTERVAL_LIMIT),
];

/// A row offered to a builder, with what the builder has taken so far; `grown` is what the block would need with the row.
pub struct Offer {
    pub row: Row,
    pub restart: bool,
    pub used: usize,
    pub restarts: usize,
    pub grown: usize,
    pub data_len: usize,
    pub restarts_len: usize,
}

const OFFER_KEY_OVER: Difference<Offer> = entry("a key over 4,096 offered: the Rust takes it, 01 refuses 2", 2, Rust::Varies, |o| o.row.key.len() > KEY_LIMIT);
const OFFER_VALUE_OVER: Difference<Offer> = entry("a value over 65,535 offered: the Rust takes it, 01 refuses 3", 3, Rust::Varies, |o| value_over(&o.row));

pub static ADD: [Difference<Offer>; 5] = [
    OFFER_KEY_OVER,
    OFFER_VALUE_OVER,
    entry("a restart past 65,535: the Rust panics, 01 refuses 5", 5, Rust::Panics, |o| o.restart && o.used > RESTART_LIMIT),
    entry("a lent data buffer too short for rows and trailer: the Rust's grows, 01 refuses 6", 6, Rust::Varies, |o| o.grown > o.data_len),
    entry("a lent restart buffer with no place left: the Rust's grows, 01 refuses 6", 6, Rust::Varies, |o| o.restart && o.restarts == o.restarts_len),
];

pub static FIT: [Difference<Offer>; 3] = [
    entry("an empty key in the fit question: the Rust says whether it fits, 01 refuses 1", 1, Rust::Varies, |o| o.row.key.is_empty()),
    OFFER_KEY_OVER,
    OFFER_VALUE_OVER,
];

// ---- a block's trailer

fn two(bytes: &[u8]) -> usize {
    bytes[0] as usize * 256 + bytes[1] as usize
}

fn count(block: &[u8]) -> usize {
    two(&block[block.len() - 2..])
}

/// The offsets, and the data's length, of a block with a good trailer.
pub fn offsets(block: &[u8]) -> (Vec<usize>, usize) {
    let data_len = block.len() - 2 - 2 * count(block);
    (block[data_len..block.len() - 2].chunks(2).map(two).collect(), data_len)
}

pub static TRAILER: [Difference<Vec<u8>>; 6] = [
    entry("a block under 2 bytes: the Rust panics, 01 refuses 14", 14, Rust::Panics, |b| b.len() < 2),
    entry("a trailer longer than the block: the Rust panics, 01 refuses 14", 14, Rust::Panics, |b| 2 * count(b) + 2 > b.len()),
    entry("a restart count of 0: the Rust reads rows ascending, none descending, 01 refuses 14", 14, Rust::Varies, |b| count(b) == 0),
    entry("a first restart that is not 0: the Rust reads on, 01 refuses 15", 15, Rust::Varies, |b| offsets(b).0[0] != 0),
    entry("offsets that don't rise: the Rust reads on, 01 refuses 15", 15, Rust::Varies, |b| {
        offsets(b).0.windows(2).any(|pair| pair[0] >= pair[1])
    }),
    entry("an offset not below the data length: the Rust reads on or panics, 01 refuses 15", 15, Rust::Varies, |b| {
        let (offsets, data_len) = offsets(b);
        offsets.iter().any(|offset| *offset >= data_len)
    }),
];

// ---- a block's order

/// A row and the one after it. The Rust has no check, so on both it reads on; and so do steps and seeks here.
pub static ORDER: [Difference<(Row, Row)>; 2] = [
    entry("a key below the one before: the Rust has no check and reads it, 01's refuses 17", 17, Rust::Varies, |(row, next)| next.key < row.key),
    entry("equal keys whose numbers don't fall: the Rust has no check and reads them, 02's refuses 17", 17, Rust::Varies, |(row, next)| {
        next.key == row.key && next.seq >= row.seq
    }),
];

// ---- scans and seeks of a block that is opened

/// What the Rust must do: whether it opens the block, whether the seek is good, the rows that it gives, and how it ends then; None
/// is "done".
pub struct Does {
    pub opened: bool,
    pub sought: bool,
    pub rows: Vec<Row>,
    pub end: Option<Rust>,
}

impl Does {
    pub fn panics_at_opening() -> Does {
        Does { opened: false, sought: false, rows: Vec::new(), end: Some(Rust::Panics) }
    }
}

impl From<Told> for Does {
    /// What 01 says, and at the fault the Rust's way with it.
    fn from(told: Told) -> Does {
        let rows = told.rows.into_iter().map(|named| named.row).collect();
        Does { opened: true, sought: told.sought, rows, end: told.end.map(|known| known.rust) }
    }
}

/// Where the Rust goes another way than 01 does, `regions::told`, that is not its way with a fault.
pub struct Parting {
    pub name: &'static str,
    holds: fn(&Asked) -> bool,
    pub rust: fn(&Asked) -> Does,
}

pub static PARTINGS: [Parting; 4] = [
    Parting {
        name: "a first restart whose key the Rust can't read: opening it the Rust panics, 01 refuses where that row is read",
        holds: |asked| !opens(asked.data),
        rust: |_| Does::panics_at_opening(),
    },
    Parting {
        name: "a last region that can't be read, descending: the Rust opens it and reads what it comes to, 02 refuses the opening",
        holds: |asked| regions::opening_fault(asked).is_some(),
        rust: |asked| regions::told_by(asked, before_first_greater).into(),
    },
    Parting {
        name: "an ascending seek that lands on a row with bad flags: the Rust shows them at the step after it, 01 refuses the seek",
        holds: lands_on_bad_flags,
        rust: |_| Does { opened: true, sought: true, rows: Vec::new(), end: Some(Rust::Errors) },
    },
    Parting {
        name: "a descending seek where keys fall: the Rust takes the row before the first greater one, 01 the last at or below",
        holds: |asked| regions::told(asked) != regions::told_by(asked, before_first_greater),
        rust: |asked| regions::told_by(asked, before_first_greater).into(),
    },
];

pub fn parting(asked: &Asked) -> Option<&'static Parting> {
    PARTINGS.iter().find(|parting| (parting.holds)(asked))
}

/// Opening a block the Rust reads the key of its first restart, tests that it shares nothing, and panics where bytes are missing.
fn opens(data: &[u8]) -> bool {
    let Some((shared, at)) = read_by_the_rust(data, 0) else { return false };
    let Some((suffix, at)) = read_by_the_rust(data, at) else { return false };
    let Some((_, at)) = read_by_the_rust(data, at) else { return false };
    shared == 0 && at + suffix as usize <= data.len()
}

/// The walk meets the fault in a row that is the first at or above the target: the Rust reads that row's key only, and stops there.
fn lands_on_bad_flags(asked: &Asked) -> bool {
    let (Some(target), Order::Ascending) = (asked.target, asked.order) else { return false };
    let Err(fault) = regions::first_not_below(asked.regions, target) else { return false };
    fault.key.is_some_and(|key| key.as_slice() >= target)
}
