use super::*;
use crate::ffi::{ASCENDING, DESCENDING, DONE, FIELDS_WORDS, GOOD, KEY_BYTES, VALUE};
use crate::headers::{defined, definitions, header, spelled_out};
use crate::refusal::Refusal;

#[test]
fn constants_and_the_refusal_are_the_headers() {
    let header = header("slatedb_block_v1.h");
    let definitions = definitions(&header);
    let constants = [
        ("V1_CURSOR_WORDS", CURSOR_WORDS),
        ("V1_BUILDER_WORDS", BUILDER_WORDS),
        ("V1_ROW_WORDS", ROW_WORDS),
    ];
    for (name, number) in constants {
        assert_eq!(defined(&definitions, name).number, number as u64, "{name}");
    }
    let early = Refusal::RowEndsEarly;
    let definition = defined(&definitions, &spelled_out(early));
    assert_eq!(definition.number, early.number() as u64);
    // that header is of one format, and this crate's refusals are of both
    let words = definition.comment.replacen("a row", "a row of the earlier format", 1);
    assert_eq!(early.to_string(), format!("refusal 20: {words}"));
    // and it has no others but lengths that always do, since buffers grow here
    let unused = |name: &str| name.starts_with("V1_MOST_");
    let others = definitions.iter().filter(|definition| !unused(definition.name)).count();
    assert_eq!(others, constants.len() + 1);
}

const BAD_WORDS: u8 = 254;
const FIELDS: [u64; FIELDS_WORDS] = [VALUE, 1, 0, 0, 0, 0];

fn offer<'a>() -> Offer<'a> {
    Offer {
        key: b"a",
        value: b"",
        fields: &FIELDS,
    }
}

/// The row of "a", of 18 bytes, and its trailer.
const ONE_ROW: [u8; 22] = *b"\0\0\0\x01a\0\0\0\0\0\0\0\x01\0\0\0\0\0\0\0\0\x01";

#[test]
fn arrays_of_another_length_are_refused() {
    let block = ONE_ROW;
    for longer in [false, true] {
        let other = |right: usize| if longer { right + 1 } else { right - 1 };
        let (mut key, mut number) = ([0; KEY_BYTES], 0);
        let (mut cursor, mut row) = (vec![0; other(CURSOR_WORDS)], vec![0; other(ROW_WORDS)]);
        assert_eq!(open(&block, ASCENDING, &mut cursor), BAD_WORDS);
        assert_eq!(next(&block, &mut cursor, &mut [0], &mut [0; ROW_WORDS]), BAD_WORDS);
        assert_eq!(next(&block, &mut [0; CURSOR_WORDS], &mut [0], &mut row), BAD_WORDS);
        assert_eq!(seek(&block, b"a", &mut cursor, &mut number), BAD_WORDS);
        assert_eq!(is_empty(&block, &cursor, &mut number), BAD_WORDS);
        let mut builder = vec![0; other(BUILDER_WORDS)];
        assert_eq!(builder_new(&mut builder, 4096), BAD_WORDS);
        assert_eq!(builder_is_empty(&builder, &mut number), BAD_WORDS);
        assert_eq!(builder_would_fit(&builder, &key, 0, 0, offer()), BAD_WORDS);
        assert_eq!(
            builder_add(&mut builder, &mut key, &mut [], &mut [], offer()),
            BAD_WORDS
        );
        assert_eq!(builder_build(&builder, &mut [], &[], &mut number), BAD_WORDS);
    }
}

/// A builder's words and what is lent with them, so that all of it can be compared.
#[derive(Clone, Debug, PartialEq, Eq)]
struct Lent {
    builder: [u64; BUILDER_WORDS],
    first_key: Vec<u8>,
    data: Vec<u8>,
    offsets: Vec<u16>,
}

/// With buffers that hold something before.
fn lent(data_len: usize, offsets_len: usize) -> Lent {
    let mut builder = [77; BUILDER_WORDS];
    assert_eq!(builder_new(&mut builder, 4096), GOOD);
    Lent {
        builder,
        first_key: vec![77; KEY_BYTES],
        data: vec![77; data_len],
        offsets: vec![77; offsets_len],
    }
}

impl Lent {
    fn add(&mut self) -> u8 {
        builder_add(
            &mut self.builder,
            &mut self.first_key,
            &mut self.data,
            &mut self.offsets,
            offer(),
        )
    }

    fn build(&mut self, count: &mut u64) -> u8 {
        builder_build(&self.builder, &mut self.data, &self.offsets, count)
    }
}

/// The refusals of lent buffers, which the rest of this crate keeps from happening. A refused call has changed nothing.
#[test]
fn buffers_and_states_6_18() {
    for (data_len, offsets_len) in [(21, 1), (22, 0)] {
        let mut short = lent(data_len, offsets_len);
        let before = short.clone();
        assert_eq!(short.add(), Refusal::BufferTooSmall.number());
        assert_eq!(short, before);
    }
    let mut count = 77;
    let mut built = lent(22, 1);
    assert_eq!(built.add(), GOOD);
    for (data_len, code) in [(21, Refusal::BufferTooSmall), (17, Refusal::BadState)] {
        let mut short = built.clone();
        short.data.truncate(data_len);
        let before = short.clone();
        assert_eq!(short.build(&mut count), code.number());
        assert_eq!((short, count), (before, 77));
    }
    assert_eq!(built.build(&mut count), GOOD);
    assert_eq!((&built.data[..], count), (&ONE_ROW[..], 22));

    // more bytes, more rows and a longer first key than there can be
    for (word, number) in [(1, 23), (2, 2), (3, 4097)] {
        let mut forged = built.clone();
        forged.builder[word] = number;
        let before = forged.clone();
        assert_eq!(forged.add(), Refusal::BadState.number(), "word {word}");
        assert_eq!(forged.build(&mut count), Refusal::BadState.number(), "word {word}");
        assert_eq!((forged, count), (before, 22));
    }
}

/// One step from there, with a key buffer of so many bytes: the code, the cursor after it, the row's number, the key buffer.
fn stepped(mut cursor: Cursor, out_len: usize) -> (u8, Cursor, u64, Vec<u8>) {
    let (mut out, mut row) = (vec![77; out_len], [77; ROW_WORDS]);
    let code = next(&ONE_ROW, cursor.words_mut(), &mut out, &mut row);
    if code != GOOD {
        assert_eq!(row, [77; ROW_WORDS]);
    }
    (code, cursor, row[ROW_WORDS - 1], out)
}

#[test]
fn steps_done_18_and_19() {
    for order in [ASCENDING, DESCENDING] {
        let at = |passed| Cursor { order, passed };
        let mut opened = at(77);
        assert_eq!(open(&ONE_ROW, order, opened.words_mut()), GOOD);
        assert_eq!(opened, at(0));
        let short = Refusal::KeyBufferTooShort.number();
        assert_eq!(stepped(at(0), 0), (short, at(0), 77, vec![]));
        assert_eq!(stepped(at(0), 2), (GOOD, at(1), 0, vec![b'a', 77]));
        assert_eq!(stepped(at(1), 2), (DONE, at(1), 77, vec![77; 2]));
        for passed in [2, 3, 1 << 32, u64::MAX] {
            let bad = Refusal::BadState.number();
            assert_eq!(stepped(at(passed), 2), (bad, at(passed), 77, vec![77; 2]));
        }
        for (passed, answer) in [(0, 0), (1, 1), (2, 1), (u64::MAX, 1)] {
            let mut empty = 77;
            assert_eq!(is_empty(&ONE_ROW, at(passed).words(), &mut empty), GOOD);
            assert_eq!(empty, answer, "{passed} passed");
        }
    }
}

/// An order that is neither is 254.
#[test]
fn an_order_that_is_none() {
    let cursor = Cursor { order: 2, passed: 0 };
    assert_eq!(stepped(cursor, 2), (BAD_WORDS, cursor, 77, vec![77; 2]));
    let mut words = [77; CURSOR_WORDS];
    assert_eq!(open(&ONE_ROW, 2, &mut words), BAD_WORDS);
    assert_eq!(words, [77; CURSOR_WORDS]);
}

/// Of the cursor a seek takes only the order; a refused one leaves it, and the count.
#[test]
fn a_seek_from_anywhere() {
    let mut cursor = Cursor {
        order: ASCENDING,
        passed: u64::MAX,
    };
    let mut reads = 77;
    assert_eq!(seek(&ONE_ROW, b"a", cursor.words_mut(), &mut reads), GOOD);
    assert_eq!((cursor.passed, reads), (0, 1));
    assert_eq!(seek(&ONE_ROW, b"b", cursor.words_mut(), &mut reads), DONE);
    assert_eq!((cursor.passed, reads), (1, 1));

    let mut shares = ONE_ROW;
    shares[1] = 1;
    reads = 77;
    assert_eq!(
        seek(&shares, b"a", cursor.words_mut(), &mut reads),
        Refusal::BadShare.number()
    );
    assert_eq!((cursor.passed, reads), (1, 77));
}
