use super::*;
use crate::headers::{defined, definitions, header, spelled_out, Definition};
use crate::refusal::Refusal;

/// Those of the header: all but the last, which the earlier format's header adds.
fn refusals() -> &'static [Refusal] {
    let (last, refusals) = Refusal::ALL.split_last().unwrap();
    assert_eq!(*last, Refusal::RowEndsEarly);
    refusals
}

#[test]
fn constants_are_the_headers() {
    let header = header("slatedb_block.h");
    let definitions = definitions(&header);
    let constants = [
        ("GOOD", GOOD as u64),
        ("DONE", DONE as u64),
        ("BAD_WORDS", BAD_WORDS as u64),
        ("CURSOR_WORDS", CURSOR_WORDS as u64),
        ("BUILDER_WORDS", BUILDER_WORDS as u64),
        ("KEY_BYTES", KEY_BYTES as u64),
        ("FIELDS_WORDS", FIELDS_WORDS as u64),
        ("SINGLE_WORDS", SINGLE_WORDS as u64),
        ("ROW_WORDS", ROW_WORDS as u64),
        ("ASCENDING", ASCENDING),
        ("DESCENDING", DESCENDING),
        ("VALUE", VALUE),
        ("TOMBSTONE", TOMBSTONE),
        ("MERGE", MERGE),
    ];
    for (name, number) in constants {
        assert_eq!(defined(&definitions, name).number, number, "{name}");
    }
    // and it has no others but lengths that always do, since buffers grow here
    let unused = |name: &str| name.starts_with("MOST_");
    let others = definitions.iter().filter(|definition| !unused(definition.name)).count();
    assert_eq!(others, constants.len() + refusals().len());
}

#[test]
fn refusals_are_the_headers() {
    let header = header("slatedb_block.h");
    let definitions = definitions(&header);
    for &refusal in refusals() {
        let Definition { number, comment, .. } = defined(&definitions, &spelled_out(refusal));
        assert_eq!(refusal.number() as u64, *number, "{refusal:?}");
        assert_eq!(refusal.to_string(), format!("refusal {number}: {comment}"));
    }
}

const BAD_WORDS: u8 = 254;
const FIELDS: [u64; FIELDS_WORDS] = [VALUE, 1, 0, 0, 0, 0];

fn offer<'a>() -> Offer<'a> {
    Offer {
        key: b"a",
        value: b"",
        fields: &FIELDS,
    }
}

#[test]
fn arrays_of_another_length_are_refused() {
    let block = [0, 1, 0, b'a', 0, 0, 0, 0, 0, 0, 0, 1, 0, 0, 0, 0, 1];
    for longer in [false, true] {
        let other = |right: usize| if longer { right + 1 } else { right - 1 };
        let (mut key, mut row, mut number) = ([0; KEY_BYTES], [0; ROW_WORDS], 0);
        let mut cursor = vec![0; other(CURSOR_WORDS)];
        let mut builder = vec![0; other(BUILDER_WORDS)];
        assert_eq!(open(&block, ASCENDING, &mut cursor), BAD_WORDS);
        assert_eq!(next(&block, &mut cursor, &mut key, &mut [0], &mut row), BAD_WORDS);
        let given = Given {
            keys: &mut [0],
            rows: &mut row,
            count: &mut number,
        };
        assert_eq!(next_rows(&block, &mut cursor, &mut key, given), BAD_WORDS);
        assert_eq!(seek(&block, b"a", &mut cursor, &mut key, &mut number), BAD_WORDS);
        assert_eq!(is_empty(&block, &cursor, &mut number), BAD_WORDS);
        assert_eq!(builder_new(&mut builder, 4096, 16), BAD_WORDS);
        assert_eq!(builder_is_empty(&builder, &mut number), BAD_WORDS);
        assert_eq!(builder_would_fit(&builder, &key, 0, 0, offer()), BAD_WORDS);
        assert_eq!(
            builder_add(&mut builder, &mut key, &mut [], &mut [], offer()),
            BAD_WORDS
        );
        assert_eq!(builder_build(&builder, &mut [], &[], &mut number), BAD_WORDS);
    }
}

/// The refusals of lent buffers, which the rest of this crate keeps from happening.
#[test]
fn buffers_and_states_6_18_19() {
    let (mut builder, mut key, mut data, mut restarts, mut count) =
        ([0; BUILDER_WORDS], [0; KEY_BYTES], [0; 17], [0; 1], 0);
    assert_eq!(builder_new(&mut builder, 4096, 16), GOOD);
    assert_eq!(
        builder_add(&mut builder, &mut key, &mut data[..16], &mut restarts, offer()),
        Refusal::BufferTooSmall.number()
    );
    assert_eq!(
        builder_add(&mut builder, &mut key, &mut data, &mut [], offer()),
        Refusal::BufferTooSmall.number()
    );
    assert_eq!(
        builder_add(&mut builder, &mut key, &mut data, &mut restarts, offer()),
        GOOD
    );
    assert_eq!(
        builder_build(&builder, &mut data[..16], &restarts, &mut count),
        Refusal::BufferTooSmall.number()
    );
    assert_eq!(
        builder_build(&builder, &mut data[..12], &restarts, &mut count),
        Refusal::BadState.number()
    );
    assert_eq!(builder_build(&builder, &mut data, &restarts, &mut count), GOOD);

    let (mut cursor, mut row) = (Cursor::default(), [0; ROW_WORDS]);
    assert_eq!(open(&data, ASCENDING, cursor.words_mut()), GOOD);
    assert_eq!(
        next(&data, cursor.words_mut(), &mut key, &mut [], &mut row),
        Refusal::KeyBufferTooShort.number()
    );
    cursor.region = 1;
    assert_eq!(
        next(&data, cursor.words_mut(), &mut key, &mut [0], &mut row),
        Refusal::BadState.number()
    );
}

/// Two rows of key "a" in one region, of 13 and 12 bytes, and their trailer.
const TWO_ROWS: [u8; 29] = [
    0, 1, 0, b'a', 0, 0, 0, 0, 0, 0, 0, 1, 0, 1, 0, 0, 0, 0, 0, 0, 0, 0, 0, 0, 0, 0, 0, 0, 1,
];

/// One step from there, with a key buffer of so many bytes. The cursor comes back, and the row's last two words.
fn stepped(mut cursor: Cursor, out_len: usize) -> (u8, Cursor, [u64; 2]) {
    let (mut key, mut out, mut row) = ([b'a'; KEY_BYTES], vec![0; out_len], [77; ROW_WORDS]);
    let code = next(&TWO_ROWS, cursor.words_mut(), &mut key, &mut out, &mut row);
    (code, cursor, [row[ROW_WORDS - 2], row[ROW_WORDS - 1]])
}

fn opened(order: u64) -> Cursor {
    let mut cursor = Cursor::default();
    assert_eq!(open(&TWO_ROWS, order, cursor.words_mut()), GOOD);
    cursor
}

#[test]
fn a_cursor_counts_the_rows_before_it() {
    let up = opened(ASCENDING);
    assert_eq!((up.region, up.at, up.number), (0, 0, 0));
    let (code, up, pair) = stepped(up, 1);
    assert_eq!((code, pair, up.at, up.number), (GOOD, [0, 0], 13, 1));
    let (code, up, pair) = stepped(up, 1);
    assert_eq!((code, pair, up.at, up.number), (GOOD, [0, 1], 25, 2));
    assert_eq!(stepped(up, 1), (DONE, Cursor { done: 1, ..up }, [77; 2]));

    let down = opened(DESCENDING);
    assert_eq!((down.region, down.at, down.number), (0, 25, 2));
    let (code, down, pair) = stepped(down, 1);
    assert_eq!((code, pair, down.at, down.number), (GOOD, [0, 1], 13, 1));
    let (code, down, pair) = stepped(down, 1);
    assert_eq!((code, pair, down.at, down.number), (GOOD, [0, 0], 0, 0));
    assert_eq!(stepped(down, 1), (DONE, Cursor { done: 1, ..down }, [77; 2]));
}

/// A number that can't be is 18, and a refused step, this or another, leaves it; a marked cursor's is not looked at.
#[test]
fn a_wrong_number_18() {
    let bad = Refusal::BadState.number();
    for (order, at, right) in [(ASCENDING, 13, 1), (DESCENDING, 13, 1), (DESCENDING, 25, 2)] {
        for number in [0, 1, 2, 3, u64::MAX / 12 + 1, 1 << 62, u64::MAX] {
            let cursor = Cursor {
                at,
                number,
                key_len: 1,
                ..opened(order)
            };
            let code = if number == right { GOOD } else { bad };
            assert_eq!(stepped(cursor, 1).0, code, "{number} at {at}");
            if code != GOOD {
                assert_eq!(stepped(cursor, 1).1, cursor);
            }
            assert_eq!(stepped(cursor, 0).1, cursor);
            let marked = Cursor { done: 1, ..cursor };
            assert_eq!(stepped(marked, 0), (DONE, marked, [77; 2]));
        }
    }
    // ascending, one that could be is taken at its word
    let cursor = Cursor {
        at: 25,
        number: 1,
        key_len: 1,
        ..opened(ASCENDING)
    };
    assert_eq!(stepped(cursor, 1), (DONE, Cursor { done: 1, ..cursor }, [77; 2]));
    // at a region's start it must be 0, before anything is done
    for order in [ASCENDING, DESCENDING] {
        let cursor = Cursor {
            at: 0,
            number: 1,
            ..opened(order)
        };
        assert_eq!(stepped(cursor, 1), (bad, cursor, [77; 2]));
    }
}
