//! The earlier format: what is refused, and with which number.

mod common;

use common::v1::{build, open, walk};
use common::{rows_of, Vanishing, BOTH};
use slatedb_block::{check_v1, BlockBuilderV1, BlockIterator, IterationOrder, Refusal, RowEntry};

fn builder() -> BlockBuilderV1 {
    BlockBuilderV1::new(131_072).unwrap()
}

fn value(key: &[u8], value_len: usize) -> RowEntry {
    RowEntry::new_value(key, &vec![0; value_len], 1)
}

fn refused(row: RowEntry) -> Option<Refusal> {
    let asked = builder().would_fit(&row).err();
    assert_eq!(builder().add(row).err(), asked);
    asked
}

#[test]
fn keys_and_values_1_2_3() {
    assert_eq!(refused(value(b"", 0)), Some(Refusal::EmptyKey));
    assert_eq!(refused(value(&[0; 4096], 0)), None);
    assert_eq!(refused(value(&[0; 4097], 0)), Some(Refusal::KeyTooLong));
    assert_eq!(refused(value(b"a", 65_535)), None);
    assert_eq!(refused(value(b"a", 65_536)), Some(Refusal::ValueTooLong));
}

/// A second row that starts there.
fn row_at(place: usize) -> Result<bool, Refusal> {
    let mut builder = builder();
    assert_eq!(builder.add(value(b"a", place - 18)), Ok(true));
    // it fits, whatever `add` says of its place
    assert_eq!(builder.would_fit(&value(b"b", 0)), Ok(true));
    builder.add(value(b"b", 0))
}

#[test]
fn a_row_too_far_5() {
    assert_eq!(row_at(65_535), Ok(true));
    assert_eq!(row_at(65_536), Err(Refusal::RestartTooFar));
}

#[test]
fn an_empty_block_7_and_block_sizes_8() {
    assert_eq!(builder().build(), Err(Refusal::EmptyBlock));
    assert_eq!(BlockBuilderV1::new(0).err(), None);
    assert_eq!(BlockBuilderV1::new(131_073).err(), Some(Refusal::BadSettings));
}

/// The rows of "a" and "b", of 18 bytes each, and then bytes put in the places of others.
fn damaged(changes: &[(usize, u8)]) -> Vec<u8> {
    let mut block = build(&rows_of(&["a", "b"]));
    for &(place, byte) in changes {
        block[place] = byte;
    }
    block
}

/// The check and the walks refuse it; what a walk has passed by then is not asked.
fn is_refused(block: &[u8], refusal: Refusal) {
    assert_eq!(check_v1(block), Err(refusal));
    for order in BOTH {
        assert_eq!(walk(block, order), Err(refusal));
    }
}

#[test]
fn rows_that_cannot_be_read() {
    for start in [0, 18] {
        let changed = |place: usize, byte| damaged(&[(start + place, byte)]);
        is_refused(&changed(3, 0), Refusal::EmptyKey);
        is_refused(&changed(2, 1), Refusal::InputEnds);
        // 4,097 bytes, of which most are missing, and 4,096
        is_refused(&changed(2, 16), Refusal::KeyTooLong);
        is_refused(&damaged(&[(start + 2, 16), (start + 3, 0)]), Refusal::InputEnds);
        is_refused(&changed(13, 16), Refusal::UnknownFlags);
        is_refused(&changed(13, 9), Refusal::TombstoneWithMerge);
        is_refused(&changed(15, 1), Refusal::ValueTooLong);
        is_refused(&changed(14, 255), Refusal::ValueTooLong);
        is_refused(&changed(16, 255), Refusal::InputEnds);
    }
    // the last row ends inside its times, and inside its value's length
    is_refused(&damaged(&[(31, 6)]), Refusal::InputEnds);
    let cut = |from: usize| [&damaged(&[])[..from], &[0, 0, 0, 18, 0, 2]].concat();
    for end in 19..36 {
        is_refused(&cut(end), Refusal::InputEnds);
    }
}

/// The first row shares nothing, and no other more than the first key.
#[test]
fn shares_13() {
    is_refused(&damaged(&[(1, 1)]), Refusal::BadShare);
    is_refused(&damaged(&[(19, 2)]), Refusal::BadShare);
    is_refused(&damaged(&[(18, 1)]), Refusal::BadShare);
    // as long as the first key it may be
    assert_eq!(check_v1(&damaged(&[(19, 1)])), Ok(2));
}

#[test]
fn trailers_14_and_offsets_15() {
    for block in [&[][..], &[0], &[0, 0], &[0, 1], &[0, 0, 0, 2]] {
        assert_eq!(check_v1(block), Err(Refusal::BadTrailer));
        assert_eq!(BlockIterator::new_ascending(block).err(), Some(Refusal::BadTrailer));
    }
    // the first not 0, one not above the one before, one not below the data's length
    let blocks = [damaged(&[(37, 1)]), damaged(&[(39, 0)]), damaged(&[(39, 36)])];
    for block in blocks.into_iter().chain([vec![0, 0, 0, 1]]) {
        assert_eq!(check_v1(&block), Err(Refusal::BadOffset));
        for order in BOTH {
            assert_eq!(BlockIterator::new(&block, order).err(), Some(Refusal::BadOffset));
        }
    }
}

/// The first key is read both ways, so a block without one isn't opened.
#[test]
fn a_first_key_that_cannot_be_read() {
    let cases = [
        (damaged(&[(1, 1)]), Refusal::BadShare),
        (damaged(&[(3, 0)]), Refusal::EmptyKey),
        (damaged(&[(2, 16)]), Refusal::KeyTooLong),
        (damaged(&[(2, 1)]), Refusal::InputEnds),
        (damaged(&[(3, 15)]), Refusal::RowPastRegion),
    ];
    for (block, refusal) in cases {
        assert_eq!(check_v1(&block), Err(refusal));
        for order in BOTH {
            assert_eq!(BlockIterator::new(&block, order).err(), Some(refusal));
        }
    }
    // what comes after it is no part of it
    for order in BOTH {
        assert!(BlockIterator::new(damaged(&[(13, 16)]), order).is_ok());
    }
}

/// The rows of "a" and "b" with a byte more after the one or the other.
fn gap_after(row: usize) -> Vec<u8> {
    let block = damaged(&[]);
    let (rows, end) = (18 * row, if row == 1 { 19 } else { 18 });
    [&block[..rows], &[9], &block[rows..36], &[0, 0, 0, end, 0, 2]].concat()
}

#[test]
fn a_gap_20() {
    for row in [1, 2] {
        is_refused(&gap_after(row), Refusal::RowEndsEarly);
    }
    // a seek reads keys alone, and only the row with the gap is refused
    let between = gap_after(1);
    let mut iterator = open(&between, IterationOrder::Ascending);
    assert_eq!(iterator.seek(b"b"), Ok(2));
    assert_eq!(iterator.next().unwrap().unwrap().number(), Some(1));
    assert_eq!(iterator.seek(b"a"), Ok(2));
    assert_eq!(iterator.next(), Err(Refusal::RowEndsEarly));
    // a tombstone has no value length: these four bytes are a gap
    is_refused(&damaged(&[(31, 1)]), Refusal::RowEndsEarly);
}

#[test]
fn an_overrun_16() {
    // the first value, a byte longer; the second row's offset, a byte early
    is_refused(&damaged(&[(17, 1)]), Refusal::RowPastRegion);
    assert_eq!(check_v1(&damaged(&[(39, 17)])), Err(Refusal::RowPastRegion));
    // past the data's end it is another number
    is_refused(&damaged(&[(35, 1)]), Refusal::InputEnds);
    // a key that runs over is met by a seek too
    let mut key = build(&rows_of(&["a", "b", "c"]));
    key[21] = 15;
    is_refused(&key, Refusal::RowPastRegion);
    for order in BOTH {
        assert_eq!(open(&key, order).seek(b"b"), Err(Refusal::RowPastRegion));
    }
}

#[test]
fn keys_that_fall_17() {
    let block = build(&rows_of(&["b", "a"]));
    assert_eq!(check_v1(&block), Err(Refusal::KeyFalls));
    // readers don't ask for it
    assert_eq!(walk(&block, IterationOrder::Ascending).unwrap().len(), 2);
}

/// Numbers of 64 bits without a sign: falling they are taken.
#[test]
fn equal_keys_whose_numbers_do_not_fall_17() {
    const TOP: u64 = 1 << 63;
    let falling = [[1, 0], [256, 255], [TOP, TOP - 1], [u64::MAX, 0]];
    let others = [[0, 0], [u64::MAX, u64::MAX], [255, 256], [TOP - 1, TOP], [0, u64::MAX]];
    let cases = falling.map(|seqs| (seqs, Ok(3))).into_iter();
    for ([first, second], answer) in cases.chain(others.map(|seqs| (seqs, Err(Refusal::KeyFalls)))) {
        let rows = [
            value(b"a", 0),
            RowEntry::new_value(b"b", b"x", first),
            RowEntry::new_tombstone(b"b", second),
        ];
        let block = build(&rows);
        assert_eq!(check_v1(&block), answer, "{first}, then {second}");
        // readers don't ask for it
        assert_eq!(walk(&block, IterationOrder::Ascending).unwrap(), rows);
    }
}

#[test]
fn a_refused_step_is_refused_again_and_ends_a_loop() {
    let block = damaged(&[(31, 16)]);
    let mut iterator = open(&block, IterationOrder::Ascending);
    assert!(iterator.next().unwrap().is_some());
    let before = format!("{iterator:?}");
    for _ in 0..2 {
        assert_eq!(iterator.next(), Err(Refusal::UnknownFlags));
        assert_eq!(format!("{iterator:?}"), before);
        assert!(!iterator.is_empty());
    }
    let looped: Vec<_> = iterator.by_ref().collect();
    assert_eq!(looped, [Err(Refusal::UnknownFlags)]);
    // a seek to what is whole takes it up again
    assert_eq!(iterator.seek(b"a"), Ok(2));
    assert_eq!(iterator.map(|row| row.is_ok()).collect::<Vec<_>>(), [true, false]);
}

#[test]
fn a_refused_seek_leaves_the_iterator() {
    let block = damaged(&[(19, 2)]);
    let mut iterator = open(&block, IterationOrder::Ascending);
    assert!(iterator.next().unwrap().is_some());
    let before = format!("{iterator:?}");
    assert_eq!(iterator.seek(b"a"), Err(Refusal::BadShare));
    assert_eq!(format!("{iterator:?}"), before);
}

#[test]
fn a_refusal_is_not_an_end() {
    let block = Vanishing::new(build(&rows_of(&["a"])));
    let mut iterator = BlockIterator::new_ascending(block).unwrap();
    assert!(!iterator.is_empty());
    assert_eq!(iterator.next(), Err(Refusal::BadTrailer));
}

/// Nothing panics, and an accepted block has as many rows as the check says.
fn reads(block: &[u8]) {
    let rows = check_v1(block).ok();
    for order in BOTH {
        let walked = walk(block, order).map(|rows| rows.len());
        if let Some(rows) = rows {
            assert_eq!(walked, Ok(rows));
        }
        if let Ok(mut iterator) = BlockIterator::new(block, order) {
            if iterator.seek(b"b").is_ok() {
                iterator.for_each(drop);
            }
        }
    }
}

#[test]
fn every_damaged_byte_and_every_cut() {
    let mut block = build(&rows_of(&["a", "b", "bb", "bbb", "c", "ca"]));
    for place in 0..block.len() {
        let byte = block[place];
        let flips = (0..8).map(|bit| byte ^ (1 << bit));
        for damaged in flips.chain([0, 15, 255]) {
            block[place] = damaged;
            reads(&block);
        }
        block[place] = byte;
        reads(&block[..place]);
    }
}
