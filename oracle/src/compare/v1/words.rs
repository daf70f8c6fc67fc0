//! Words that are no state: arrays that are not as long as they must be, and words that stand for no case. 254 before all else, on
//! inputs that would be taken and on ones that would be refused. The library alone is asked.
use super::calls::{pattern, Lent, BUILDER_WORDS, CURSOR_WORDS, ROW_WORDS};
use crate::calls::{bytes_of, Function, SINGLE_WORDS};
use crate::Run;
use model::KEY_LIMIT;

const FIELDS_WORDS: usize = 6;
/// None of them is 0, 1 or 2.
const NO_CASE: [u64; 6] = [3, 4, 256, 1 << 32, (1 << 32) + 1, u64::MAX];

/// A block of one tombstone, and one that is refused with 14.
const BLOCKS: [&[u8]; 2] = [&[0, 0, 0, 1, b'a', 0, 0, 0, 0, 0, 0, 0, 1, 1, 0, 0, 0, 1], &[0]];

fn other_lengths(right: usize) -> impl Iterator<Item = usize> {
    [0, 1, right - 1, right + 1, 2 * right].into_iter().filter(move |len| *len != right)
}

pub fn wrong(run: &mut Run) {
    for block in BLOCKS {
        wrong_cursors(run, block);
    }
    for fields in wrong_fields() {
        with_fields(run, &fields);
    }
    for len in other_lengths(BUILDER_WORDS) {
        wrong_builder(run, &pattern(8 * len), KEY_LIMIT);
        Lent::default().written(&pattern(8 * len), &[]).number(4_096).bad_words(run, Function::V1BuilderNew);
        Lent::default().read(&pattern(8 * len)).set(1, None).bad_words(run, Function::V1BuilderIsEmpty);
        let lent = Lent::default().read(&pattern(8 * len)).written(&pattern(40), &[]).read(&pattern(8)).set(1, None);
        lent.bad_words(run, Function::V1Build);
    }
    for len in other_lengths(KEY_LIMIT) {
        wrong_builder(run, &bytes_of(&[4_096, 0, 0, 0]), len);
    }
    for len in other_lengths(SINGLE_WORDS) {
        Lent::default().read(BLOCKS[0]).number(0).set(len, None).bad_words(run, Function::V1Decode);
    }
}

fn wrong_cursors(run: &mut Run, block: &[u8]) {
    let good = bytes_of(&[0, 0]);
    let orders = NO_CASE.into_iter().chain([2]);
    let cursors = other_lengths(CURSOR_WORDS).map(|len| pattern(8 * len)).chain(orders.clone().map(|order| bytes_of(&[order, 0])));
    for cursor in cursors {
        let step = Lent::default().read(block).written(&cursor, &[]).written(&pattern(4), &[]);
        step.set(ROW_WORDS, None).bad_words(run, Function::V1Next);
        Lent::default().read(block).read(b"a").written(&cursor, &[]).set(1, None).bad_words(run, Function::V1Seek);
        Lent::default().read(block).read(&cursor).set(1, None).bad_words(run, Function::V1IsEmpty);
    }
    for len in other_lengths(ROW_WORDS) {
        let step = Lent::default().read(block).written(&good, &[]).written(&pattern(4), &[]);
        step.set(len, None).bad_words(run, Function::V1Next);
    }
    for order in orders {
        Lent::default().read(block).number(order as usize).set(CURSOR_WORDS, None).bad_words(run, Function::V1Open);
    }
    for len in other_lengths(CURSOR_WORDS) {
        Lent::default().read(block).number(0).set(len, None).bad_words(run, Function::V1Open);
    }
}

/// Lengths, kinds and marks of times.
fn wrong_fields() -> Vec<Vec<u8>> {
    let lengths = other_lengths(FIELDS_WORDS).map(|len| vec![0; 8 * len]);
    let cases = [0, 2, 4].into_iter().flat_map(|place| {
        NO_CASE.into_iter().chain((place > 0).then_some(2)).map(move |word| {
            let mut words = [0; FIELDS_WORDS];
            words[place] = word;
            bytes_of(&words)
        })
    });
    lengths.chain(cases).collect()
}

fn with_fields(run: &mut Run, fields: &[u8]) {
    for key in [&b"a"[..], b""] {
        Lent::default().number(0).number(key.len()).number(0).read(fields).set(1, None).bad_words(run, Function::V1Size);
        let row = Lent::default().written(&pattern(40), &[]).number(0).number(0).read(key).read(b"v").read(fields);
        row.set(1, None).bad_words(run, Function::V1Encode);
        offered(run, &bytes_of(&[4_096, 0, 0, 0]), KEY_LIMIT, key, fields);
    }
}

fn wrong_builder(run: &mut Run, builder: &[u8], key_len: usize) {
    offered(run, builder, key_len, b"a", &[0; 8 * FIELDS_WORDS]);
}

fn offered(run: &mut Run, builder: &[u8], key_len: usize, key: &[u8], fields: &[u8]) {
    let asked = Lent::default().read(builder).read(&pattern(key_len)).number(40).number(2).read(key).read(b"").read(fields);
    asked.bad_words(run, Function::V1WouldFit);
    let lent = Lent::default().written(builder, &[]).written(&pattern(key_len), &[]).written(&pattern(40), &[]).written(&pattern(4), &[]);
    lent.read(key).read(b"").read(fields).bad_words(run, Function::V1Add);
}
