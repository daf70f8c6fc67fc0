//! Calls of the C interface, and what the model says that each must answer: the code, and all lent memory after it.
use model::builder::Builder;
use model::cursor::{Cursor, Given, Order};
use model::row::{self, Fields, Kind, Place, Row};
use model::{check::check, refusal, varint, Key, Refusal, KEY_LIMIT};

pub const GOOD: u8 = 0;
pub const BAD_WORDS: u8 = 254;
pub const DONE: u8 = 255;

pub const CURSOR_WORDS: usize = 6;
const BUILDER_WORDS: usize = 6;
const FIELDS_WORDS: usize = 6;
/// A single row's; a row that a step gives has its region and its number after them.
pub const SINGLE_WORDS: usize = 13;
pub const ROW_WORDS: usize = 15;
/// The places of a cursor's words that are spoken of by name.
pub const KEY_LEN: usize = 3;
pub const DONE_MARK: usize = 4;
pub const NUMBER: usize = 5;
const SUMS_WORDS: usize = 2;
const VARINT_WORDS: usize = 2;
const KEY_WORDS: usize = 3;

/// As in guest/guest.c, and those of the earlier format as in guest/guest_v1.c.
#[derive(Clone, Copy, Debug, PartialEq, Eq, PartialOrd, Ord)]
#[repr(u8)]
pub enum Function {
    Encode = 0,
    Decode,
    BuilderNew,
    WouldFit,
    Add,
    AddByValue,
    BuilderIsEmpty,
    Build,
    Check,
    Open,
    Next,
    NextByValue,
    Seek,
    IsEmpty,
    WalkByValue,
    WalkInPlace,
    VarintPut,
    VarintGet,
    DecodeKey,
    NextRows,
    V1Size = 32,
    V1Encode,
    V1Decode,
    V1BuilderNew,
    V1WouldFit,
    V1Add,
    V1BuilderIsEmpty,
    V1Build,
    V1Check,
    V1Open,
    V1Next,
    V1Seek,
    V1IsEmpty,
}

#[derive(Clone, Debug)]
pub enum Arg {
    Number(u64),
    Read(Vec<u8>),
    Written(Vec<u8>),
}

#[derive(Clone, Debug)]
pub struct Call {
    pub function: Function,
    pub args: Vec<Arg>,
}

/// `key` names the array of a carried key and how many of its bytes are settled: those past its length are the listed exception.
#[derive(Clone, Debug)]
pub struct Expected {
    pub code: u8,
    pub memory: Vec<Vec<u8>>,
    pub key: Option<(usize, usize)>,
}

pub fn bytes_of(words: &[u64]) -> Vec<u8> {
    words.iter().flat_map(|word| word.to_le_bytes()).collect()
}

pub fn words_of(bytes: &[u8]) -> Vec<u64> {
    bytes.chunks_exact(8).map(|word| u64::from_le_bytes(word.try_into().expect("eight"))).collect()
}

pub fn bytes_of_halves(halves: &[u16]) -> Vec<u8> {
    halves.iter().flat_map(|half| half.to_le_bytes()).collect()
}

fn halves_of(bytes: &[u8]) -> Vec<u16> {
    bytes.chunks_exact(2).map(|half| u16::from_le_bytes(half.try_into().expect("two"))).collect()
}

// ---- states as words

pub fn cursor_words(cursor: &Cursor) -> [u64; CURSOR_WORDS] {
    let order = (cursor.order == Order::Descending) as u64;
    [order, cursor.region as u64, cursor.at as u64, cursor.key.len as u64, cursor.done as u64, cursor.number as u64]
}

pub fn builder_words(b: &Builder) -> [u64; BUILDER_WORDS] {
    [b.block_size, b.interval, b.used, b.restarts, b.rows, b.last_key.len].map(|number| number as u64)
}

pub fn fields_words(fields: &Fields) -> [u64; FIELDS_WORDS] {
    let (expire, create) = (fields.expire, fields.create);
    [fields.kind as u64, fields.seq, expire.is_some() as u64, expire.unwrap_or(0) as u64, create.is_some() as u64, create.unwrap_or(0) as u64]
}

pub fn single_words(row: &Row) -> Vec<u64> {
    let places = [row.start, row.next, row.shared, row.suffix_at, row.suffix_len].map(|place| place as u64);
    let fields = fields_words(&row.fields);
    [&places[..], &fields[..1], &[row.value_at as u64, row.value_len as u64], &fields[1..]].concat()
}

fn row_words(given: &Given) -> Vec<u64> {
    [&single_words(&given.row)[..], &[given.region as u64, given.number as u64]].concat()
}

fn order_of(word: u64) -> Option<Order> {
    [Order::Ascending, Order::Descending].get(usize::try_from(word).ok()?).copied()
}

fn flag_of(word: u64) -> Option<bool> {
    (word <= 1).then_some(word == 1)
}

fn key_of(len: u64, bytes: &[u8]) -> Option<Key> {
    Some(Key { len: len as usize, bytes: bytes.try_into().ok()? })
}

fn cursor_of(words: &[u64], key: &[u8]) -> Option<Cursor> {
    let &[order, region, at, key_len, done, number] = words else { return None };
    let [region, at, number] = [region, at, number].map(|word| word as usize);
    Some(Cursor { order: order_of(order)?, region, at, number, key: key_of(key_len, key)?, done: flag_of(done)? })
}

fn builder_of(words: &[u64], key: &[u8]) -> Option<Builder> {
    let &[block_size, interval, used, restarts, rows, key_len] = words else { return None };
    let [block_size, interval, used, restarts, rows] = [block_size, interval, used, restarts, rows].map(|word| word as usize);
    Some(Builder { block_size, interval, used, restarts, rows, last_key: key_of(key_len, key)? })
}

fn fields_of(words: &[u64]) -> Option<Fields> {
    let &[kind, seq, has_expire, expire, has_create, create] = words else { return None };
    let kind = *[Kind::Value, Kind::Tombstone, Kind::Merge].get(usize::try_from(kind).ok()?)?;
    let (expire, create) = (flag_of(has_expire)?.then_some(expire as i64), flag_of(has_create)?.then_some(create as i64));
    Some(Fields { kind, seq, expire, create })
}

// ---- calls

impl Call {
    fn number(&self, i: usize) -> u64 {
        let Arg::Number(number) = self.args[i] else { panic!("argument {i} is an array") };
        number
    }

    fn bytes(&self, i: usize) -> &[u8] {
        match &self.args[i] {
            Arg::Read(bytes) | Arg::Written(bytes) => bytes,
            Arg::Number(_) => panic!("argument {i} is a number"),
        }
    }

    fn words(&self, i: usize) -> Vec<u64> {
        words_of(self.bytes(i))
    }

    /// Of a seek that answers: how many restarts its block has, and how many of their keys the search read.
    pub fn searched(&self, expected: &Expected) -> Option<(u64, u64)> {
        if !matches!(self.function, Function::Seek) || !matches!(expected.code, GOOD | DONE) {
            return None;
        }
        let count = self.bytes(0).last_chunk::<2>()?;
        Some((u16::from_be_bytes(*count) as u64, words_of(&expected.memory[2])[0]))
    }

    /// The lent arrays that may be written, as they came.
    fn memory(&self) -> Vec<Vec<u8>> {
        self.args.iter().filter_map(|arg| if let Arg::Written(bytes) = arg { Some(bytes.clone()) } else { None }).collect()
    }

    pub fn size(&self) -> usize {
        self.args.iter().map(|arg| if let Arg::Read(b) | Arg::Written(b) = arg { b.len() } else { 8 }).sum()
    }

    /// What the model says. A call that is refused leaves all memory as it came.
    pub fn expected(&self) -> Expected {
        let mut memory = self.memory();
        let answer = match self.function {
            Function::Encode => encode(self, &mut memory),
            Function::Decode => decode(self, &mut memory),
            Function::BuilderNew => builder_new(self, &mut memory),
            Function::WouldFit => would_fit(self),
            Function::Add | Function::AddByValue => add(self, &mut memory),
            Function::BuilderIsEmpty => builder_is_empty(self, &mut memory),
            Function::Build => build(self, &mut memory),
            Function::Check => check_block(self, &mut memory),
            Function::Open => open(self, &mut memory),
            Function::Next | Function::NextByValue => next(self, &mut memory),
            Function::Seek => seek(self, &mut memory),
            Function::IsEmpty => is_empty(self, &mut memory),
            Function::WalkByValue | Function::WalkInPlace => walk(self, &mut memory),
            Function::VarintPut => varint_put(self, &mut memory),
            Function::VarintGet => varint_get(self, &mut memory),
            Function::DecodeKey => decode_key(self, &mut memory),
            Function::NextRows => next_rows(self, &mut memory),
            _ => panic!("a function of the earlier format: v1/calls.rs has its answer"),
        };
        match answer {
            Ok((code, key)) => Expected { code, memory, key },
            Err(code) => Expected { code, memory: self.memory(), key: None },
        }
    }
}

/// Good or done, and the carried key's array with how much of it is settled.
type Answer = Result<(u8, Option<(usize, usize)>), Refusal>;
const PLAIN: Answer = Ok((GOOD, None));

fn encode(call: &Call, memory: &mut [Vec<u8>]) -> Answer {
    let fields = fields_of(&call.words(5)).ok_or(BAD_WORDS)?;
    let (previous_len, shared) = (call.number(1) as usize, call.number(2) as usize);
    let count = row::encode(&mut memory[0], previous_len, shared, call.bytes(3), call.bytes(4), &fields)?;
    memory[1] = bytes_of(&[count as u64]);
    PLAIN
}

fn decode(call: &Call, memory: &mut [Vec<u8>]) -> Answer {
    exactly(&call.words(2), SINGLE_WORDS)?;
    let row = row::decode(call.bytes(0), call.number(1) as usize)?;
    memory[0] = bytes_of(&single_words(&row));
    PLAIN
}

fn exactly(words: &[u64], count: usize) -> Result<(), Refusal> {
    if words.len() == count { Ok(()) } else { Err(BAD_WORDS) }
}

fn builder_new(call: &Call, memory: &mut [Vec<u8>]) -> Answer {
    exactly(&call.words(0), BUILDER_WORDS)?;
    let builder = Builder::with_interval(call.number(1) as usize, call.number(2) as usize)?;
    memory[0] = bytes_of(&builder_words(&builder));
    PLAIN
}

fn would_fit(call: &Call) -> Answer {
    let builder = builder_of(&call.words(0), call.bytes(1)).ok_or(BAD_WORDS)?;
    let fields = fields_of(&call.words(6)).ok_or(BAD_WORDS)?;
    let (data_len, restarts_len) = (call.number(2) as usize, call.number(3) as usize);
    builder.would_fit(data_len, restarts_len, call.bytes(4), call.bytes(5), &fields)?;
    PLAIN
}

fn add(call: &Call, memory: &mut [Vec<u8>]) -> Answer {
    let mut builder = builder_of(&call.words(0), call.bytes(1)).ok_or(BAD_WORDS)?;
    let fields = fields_of(&call.words(6)).ok_or(BAD_WORDS)?;
    let mut restarts = halves_of(call.bytes(3));
    builder.add(&mut memory[2], &mut restarts, call.bytes(4), call.bytes(5), &fields)?;
    memory[0] = bytes_of(&builder_words(&builder));
    memory[1] = builder.last_key.bytes.to_vec();
    memory[3] = bytes_of_halves(&restarts);
    Ok((GOOD, Some((1, builder.last_key.len))))
}

fn builder_is_empty(call: &Call, memory: &mut [Vec<u8>]) -> Answer {
    let builder = builder_of(&call.words(0), &[0; KEY_LIMIT]).ok_or(BAD_WORDS)?;
    memory[0] = bytes_of(&[builder.is_empty() as u64]);
    PLAIN
}

fn build(call: &Call, memory: &mut [Vec<u8>]) -> Answer {
    let builder = builder_of(&call.words(0), &[0; KEY_LIMIT]).ok_or(BAD_WORDS)?;
    let count = builder.build(&mut memory[0], &halves_of(call.bytes(2)))?;
    memory[1] = bytes_of(&[count as u64]);
    PLAIN
}

fn check_block(call: &Call, memory: &mut [Vec<u8>]) -> Answer {
    memory[0] = bytes_of(&[check(call.bytes(0))? as u64]);
    PLAIN
}

fn open(call: &Call, memory: &mut [Vec<u8>]) -> Answer {
    exactly(&call.words(2), CURSOR_WORDS)?;
    let order = order_of(call.number(1)).ok_or(BAD_WORDS)?;
    let cursor = Cursor::open(call.bytes(0), order)?;
    memory[0] = bytes_of(&cursor_words(&cursor));
    PLAIN
}

fn next(call: &Call, memory: &mut [Vec<u8>]) -> Answer {
    exactly(&call.words(4), ROW_WORDS)?;
    let mut cursor = cursor_of(&call.words(1), call.bytes(2)).ok_or(BAD_WORDS)?;
    let given = cursor.next(call.bytes(0), &mut memory[2])?;
    memory[0] = bytes_of(&cursor_words(&cursor));
    // "a step that says done sets only the mark"
    let Some(given) = given else { return Ok((DONE, None)) };
    memory[1] = cursor.key.bytes.to_vec();
    memory[3] = bytes_of(&row_words(&given));
    Ok((GOOD, Some((1, cursor.key.len))))
}

/// Steps while they find rows, each with what is left of the keys' buffer. A refusal, or "done", is the answer of the first alone.
fn next_rows(call: &Call, memory: &mut [Vec<u8>]) -> Answer {
    let mut cursor = cursor_of(&call.words(1), call.bytes(2)).ok_or(BAD_WORDS)?;
    let most = call.words(4).len() / ROW_WORDS;
    let (mut count, mut used, mut code) = (0, 0, GOOD);
    while count < most {
        let before = cursor.clone();
        match cursor.next(call.bytes(0), &mut memory[2][used..]) {
            Ok(Some(given)) => {
                let words = bytes_of(&row_words(&given));
                memory[3][count * words.len()..][..words.len()].copy_from_slice(&words);
                used += given.row.shared + given.row.suffix_len;
                count += 1;
            }
            Ok(None) if count == 0 => {
                code = DONE;
                break;
            }
            Err(refusal) if count == 0 => return Err(refusal),
            _ => {
                cursor = before;
                break;
            }
        }
    }
    memory[0] = bytes_of(&cursor_words(&cursor));
    memory[1] = cursor.key.bytes.to_vec();
    memory[4] = bytes_of(&[count as u64]);
    // with no row asked for the length is not tested
    Ok((code, Some((1, cursor.key.len.min(KEY_LIMIT)))))
}

fn seek(call: &Call, memory: &mut [Vec<u8>]) -> Answer {
    let mut cursor = cursor_of(&call.words(2), call.bytes(3)).ok_or(BAD_WORDS)?;
    let sought = cursor.seek(call.bytes(0), call.bytes(1))?;
    memory[0] = bytes_of(&cursor_words(&cursor));
    memory[1] = cursor.key.bytes.to_vec();
    memory[2] = bytes_of(&[sought.reads as u64]);
    Ok((if sought.found { GOOD } else { DONE }, Some((1, cursor.key.len))))
}

fn is_empty(call: &Call, memory: &mut [Vec<u8>]) -> Answer {
    let cursor = cursor_of(&call.words(1), &[0; KEY_LIMIT]).ok_or(BAD_WORDS)?;
    memory[0] = bytes_of(&[cursor.is_empty(call.bytes(0))? as u64]);
    PLAIN
}

/// What a walk inside the library counts of each row.
pub fn amount(seq: u64, key: &[u8], value_len: usize) -> u64 {
    let last = *key.last().expect("a key has a byte");
    seq.wrapping_add(key.len() as u64 + value_len as u64 + last as u64)
}

fn walk(call: &Call, memory: &mut [Vec<u8>]) -> Answer {
    exactly(&call.words(3), SUMS_WORDS)?;
    let order = order_of(call.number(1)).ok_or(BAD_WORDS)?;
    let (block, limit) = (call.bytes(0), call.number(2));
    let mut cursor = Cursor::open(block, order)?;
    let mut out = [0; KEY_LIMIT];
    let (mut code, mut rows, mut sum) = (GOOD, 0, 0u64);
    while rows < limit && code == GOOD {
        match cursor.next(block, &mut out)? {
            Some(Given { row, .. }) => {
                rows += 1;
                sum = sum.wrapping_add(amount(row.fields.seq, &out[..row.shared + row.suffix_len], row.value_len));
            }
            None => code = DONE,
        }
    }
    memory[0] = bytes_of(&[rows, sum]);
    Ok((code, None))
}

/// 6: a varint needs as much room as a row's bytes do.
fn varint_put(call: &Call, memory: &mut [Vec<u8>]) -> Answer {
    let number = u32::try_from(call.number(1)).expect("32 bits");
    let count = varint::len(number);
    memory[0].get_mut(..count).ok_or(refusal::BUFFER_SHORT)?.copy_from_slice(&varint::write(number));
    memory[1] = bytes_of(&[count as u64]);
    PLAIN
}

fn varint_get(call: &Call, memory: &mut [Vec<u8>]) -> Answer {
    exactly(&call.words(2), VARINT_WORDS)?;
    let (number, end) = varint::read(call.bytes(0), call.number(1) as usize)?;
    memory[0] = bytes_of(&[number as u64, end as u64]);
    PLAIN
}

fn decode_key(call: &Call, memory: &mut [Vec<u8>]) -> Answer {
    exactly(&call.words(5), KEY_WORDS)?;
    let restart = flag_of(call.number(4)).ok_or(BAD_WORDS)?;
    let [at, region_end, previous_len] = [1, 2, 3].map(|i| call.number(i) as usize);
    let key = row::read_key(&Place { data: call.bytes(0), at, previous_len, restart, region_end })?;
    memory[0] = bytes_of(&[key.shared, key.suffix_at, key.suffix_len].map(|number| number as u64));
    PLAIN
}
