//! The model's functions for the earlier format, each with the same call of the C interface: the library must answer the same code
//! and leave the same memory. What is lent is never clean: bytes and words that a call must leave are seen to stay.
use crate::calls::{bytes_of, bytes_of_halves, fields_words, single_words, Arg, Call, Expected, Function, BAD_WORDS, DONE, GOOD, SINGLE_WORDS};
use crate::Run;
use model::cursor::Order;
use model::row::{Fields, Row};
use model::seek::Sought;
use model::v1::builder::Builder;
use model::v1::cursor::{Cursor, Given};
use model::v1::{check, row};
use model::{Key, Refusal, KEY_LIMIT};

pub const CURSOR_WORDS: usize = 2;
pub const BUILDER_WORDS: usize = 4;
/// A single row's, and its number.
pub const ROW_WORDS: usize = SINGLE_WORDS + 1;

/// A call's arguments, and after them the memory that it may write as it must be then.
#[derive(Default)]
pub struct Lent {
    args: Vec<Arg>,
    after: Vec<Vec<u8>>,
    key: Option<(usize, usize)>,
}

impl Lent {
    pub fn number(mut self, number: usize) -> Lent {
        self.args.push(Arg::Number(number as u64));
        self
    }

    pub fn read(mut self, bytes: &[u8]) -> Lent {
        self.args.push(Arg::Read(bytes.to_vec()));
        self
    }

    pub fn written(mut self, before: &[u8], after: &[u8]) -> Lent {
        self.args.push(Arg::Written(before.to_vec()));
        self.after.push(after.to_vec());
        self
    }

    /// Words that come as a pattern, and are these after the call, if it sets them.
    pub fn set(self, count: usize, after: Option<Vec<u64>>) -> Lent {
        let before = pattern(8 * count);
        let after = after.map_or(before.clone(), |words| bytes_of(&words));
        self.written(&before, &after)
    }

    /// Of the array that was lent last only so many bytes are settled.
    fn settled(mut self, len: usize) -> Lent {
        self.key = Some((self.after.len() - 1, len));
        self
    }

    pub fn ask(self, run: &mut Run, kind: &'static str, function: Function, code: u8) {
        run.ask(kind, Call { function, args: self.args }, Expected { code, memory: self.after, key: self.key });
    }

    /// Refused with 254 before all else: nothing is changed.
    pub fn bad_words(self, run: &mut Run, function: Function) {
        let before = self.args.iter().filter_map(|arg| if let Arg::Written(bytes) = arg { Some(bytes.clone()) } else { None }).collect();
        Lent { after: before, ..self }.ask(run, "words that are no state", function, BAD_WORDS);
    }
}

/// Not by chance, so that the inputs are the same with the library and without it.
pub fn pattern(len: usize) -> Vec<u8> {
    (0..len).map(|i| (i as u8).wrapping_mul(37).wrapping_add(11)).collect()
}

fn code<T>(answer: &Result<T, Refusal>) -> u8 {
    answer.as_ref().map_or_else(|code| *code, |_| GOOD)
}

fn words(fields: &Fields) -> Vec<u8> {
    bytes_of(&fields_words(fields))
}

// ---- rows

pub fn size(run: &mut Run, shared: usize, suffix_len: usize, value_len: usize, fields: &Fields) -> Result<usize, Refusal> {
    let answer = row::size(shared, suffix_len, value_len, fields);
    let count = answer.ok().map(|count| vec![count as u64]);
    let lent = Lent::default().number(shared).number(suffix_len).number(value_len).read(&words(fields)).set(1, count);
    lent.ask(run, "row sized", Function::V1Size, code(&answer));
    answer
}

pub fn encode(run: &mut Run, output: &mut [u8], first_len: usize, shared: usize, suffix: &[u8], value: &[u8], fields: &Fields) -> Result<usize, Refusal> {
    let before = output.to_vec();
    let answer = row::encode(output, first_len, shared, suffix, value, fields);
    let lent = Lent::default().written(&before, output).number(first_len).number(shared).read(suffix).read(value).read(&words(fields));
    let count = answer.ok().map(|count| vec![count as u64]);
    lent.set(1, count).ask(run, "row written", Function::V1Encode, code(&answer));
    answer
}

pub fn decode(run: &mut Run, input: &[u8], first_len: usize) -> Result<Row, Refusal> {
    let answer = row::decode(input, first_len);
    let lent = Lent::default().read(input).number(first_len).set(SINGLE_WORDS, answer.as_ref().ok().map(single_words));
    lent.ask(run, "row read", Function::V1Decode, code(&answer));
    answer
}

// ---- builders

pub fn builder_words(b: &Builder) -> Vec<u64> {
    [b.block_size, b.used, b.rows, b.first_key.len].map(|number| number as u64).to_vec()
}

/// The bytes past the key's length tell nothing.
pub fn key_bytes(key: &Key) -> Vec<u8> {
    let settled = key.get();
    [settled, &pattern(KEY_LIMIT)[settled.len()..]].concat()
}

pub fn builder_new(run: &mut Run, block_size: usize) -> Result<Builder, Refusal> {
    let answer = Builder::new(block_size);
    let lent = Lent::default().set(BUILDER_WORDS, answer.as_ref().ok().map(builder_words)).number(block_size);
    lent.ask(run, "builder opened", Function::V1BuilderNew, code(&answer));
    answer
}

pub fn would_fit(run: &mut Run, builder: &Builder, lens: (usize, usize), key: &[u8], value: &[u8], fields: &Fields) -> Result<usize, Refusal> {
    let (data_len, offsets_len) = lens;
    let answer = builder.would_fit(data_len, offsets_len, key, value, fields);
    let state = Lent::default().read(&bytes_of(&builder_words(builder))).read(&key_bytes(&builder.first_key));
    let lent = state.number(data_len).number(offsets_len).read(key).read(value).read(&words(fields));
    lent.ask(run, "fit question", Function::V1WouldFit, code(&answer));
    answer
}

/// After a first row the bytes past its key are not settled; after any other, and after a refusal, all of them stay.
pub fn add(run: &mut Run, builder: &mut Builder, data: &mut [u8], offsets: &mut [u16], key: &[u8], value: &[u8], fields: &Fields) -> Result<(), Refusal> {
    let (before, data_before, offsets_before) = (builder.clone(), data.to_vec(), bytes_of_halves(offsets));
    let answer = builder.add(data, offsets, key, value, fields);
    let state = Lent::default().written(&bytes_of(&builder_words(&before)), &bytes_of(&builder_words(builder)));
    let lent = state.written(&key_bytes(&before.first_key), &key_bytes(&builder.first_key));
    let settled = if before.is_empty() && answer.is_ok() { key.len() } else { KEY_LIMIT };
    let lent = lent.settled(settled).written(&data_before, data).written(&offsets_before, &bytes_of_halves(offsets));
    lent.read(key).read(value).read(&words(fields)).ask(run, "row added", Function::V1Add, code(&answer));
    answer
}

pub fn builder_is_empty(run: &mut Run, builder: &Builder) -> bool {
    let answer = builder.is_empty();
    let lent = Lent::default().read(&bytes_of(&builder_words(builder))).set(1, Some(vec![answer as u64]));
    lent.ask(run, "builder asked whether it is empty", Function::V1BuilderIsEmpty, GOOD);
    answer
}

pub fn build(run: &mut Run, builder: &Builder, data: &mut [u8], offsets: &[u16]) -> Result<usize, Refusal> {
    let before = data.to_vec();
    let answer = builder.build(data, offsets);
    let state = Lent::default().read(&bytes_of(&builder_words(builder))).written(&before, data).read(&bytes_of_halves(offsets));
    state.set(1, answer.ok().map(|end| vec![end as u64])).ask(run, "block built", Function::V1Build, code(&answer));
    answer
}

// ---- blocks

pub fn check(run: &mut Run, block: &[u8]) -> Result<usize, Refusal> {
    let answer = check::check(block);
    let lent = Lent::default().read(block).set(1, answer.ok().map(|rows| vec![rows as u64]));
    lent.ask(run, "block checked", Function::V1Check, code(&answer));
    answer
}

pub fn cursor_words(cursor: &Cursor) -> Vec<u64> {
    vec![(cursor.order == Order::Descending) as u64, cursor.passed as u64]
}

fn moved(lent: Lent, before: &Cursor, after: &Cursor) -> Lent {
    lent.written(&bytes_of(&cursor_words(before)), &bytes_of(&cursor_words(after)))
}

pub fn open(run: &mut Run, block: &[u8], order: Order) -> Result<Cursor, Refusal> {
    let answer = Cursor::open(block, order);
    let lent = Lent::default().read(block).number((order == Order::Descending) as usize);
    lent.set(CURSOR_WORDS, answer.as_ref().ok().map(cursor_words)).ask(run, "cursor opened", Function::V1Open, code(&answer));
    answer
}

fn row_words(given: &Given) -> Vec<u64> {
    [&single_words(&given.row)[..], &[given.number as u64]].concat()
}

pub fn next(run: &mut Run, cursor: &mut Cursor, block: &[u8], out: &mut [u8]) -> Result<Option<Given>, Refusal> {
    let (before, out_before) = (*cursor, out.to_vec());
    let answer = cursor.next(block, out);
    let code = if answer == Ok(None) { DONE } else { code(&answer) };
    let lent = moved(Lent::default().read(block), &before, cursor).written(&out_before, out);
    lent.set(ROW_WORDS, answer.as_ref().ok().and_then(|given| given.as_ref().map(row_words))).ask(run, "step", Function::V1Next, code);
    answer
}

pub fn seek(run: &mut Run, cursor: &mut Cursor, block: &[u8], target: &[u8]) -> Result<Sought, Refusal> {
    let before = *cursor;
    let answer = cursor.seek(block, target);
    let code = if answer.is_ok_and(|sought| !sought.found) { DONE } else { code(&answer) };
    let lent = moved(Lent::default().read(block).read(target), &before, cursor);
    lent.set(1, answer.ok().map(|sought| vec![sought.reads as u64])).ask(run, "seek", Function::V1Seek, code);
    answer
}

pub fn is_empty(run: &mut Run, cursor: &Cursor, block: &[u8]) -> Result<bool, Refusal> {
    let answer = cursor.is_empty(block);
    let lent = Lent::default().read(block).read(&bytes_of(&cursor_words(cursor))).set(1, answer.ok().map(|empty| vec![empty as u64]));
    lent.ask(run, "cursor asked whether it is empty", Function::V1IsEmpty, code(&answer));
    answer
}
