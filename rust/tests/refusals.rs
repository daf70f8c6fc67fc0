//! What is refused, and with which number.

mod common;

use common::{build, open, rows_of, walk, walk_by, Vanishing, BOTH};
use slatedb_block::{check, BlockBuilderV2, BlockIteratorV2, IterationOrder, Refusal, RowEntry};

fn builder() -> BlockBuilderV2 {
    BlockBuilderV2::new(131_072).unwrap()
}

fn value(key: &[u8], value_len: usize) -> RowEntry {
    RowEntry::new_value(key, &vec![0; value_len], 1)
}

fn refused(row: RowEntry) -> Option<Refusal> {
    let asked = builder().would_fit(&row).err();
    assert_eq!(builder().add(row).err(), asked);
    asked
}

#[test]
fn keys_and_values_1_2_3() {
    assert_eq!(refused(value(b"", 0)), Some(Refusal::EmptyKey));
    assert_eq!(refused(value(&[0; 4096], 0)), None);
    assert_eq!(refused(value(&[0; 4097], 0)), Some(Refusal::KeyTooLong));
    assert_eq!(refused(value(b"a", 65_535)), None);
    assert_eq!(refused(value(b"a", 65_536)), Some(Refusal::ValueTooLong));
}

#[test]
fn a_row_that_does_not_fit_4() {
    for (block_size, fits) in [(31, true), (30, false)] {
        let mut builder = BlockBuilderV2::new(block_size).unwrap();
        let second = RowEntry::new_value(b"ab", b"x", 2);
        assert_eq!(builder.add(value(b"a", 0)), Ok(true));
        assert_eq!(builder.would_fit(&second), Ok(fits));
        assert_eq!(builder.add(second), Ok(fits));
    }
}

#[test]
fn a_first_row_of_any_size_is_taken() {
    let mut builder = BlockBuilderV2::new(0).unwrap();
    assert_eq!(builder.add(value(b"a", 65_535)), Ok(true));
    assert_eq!(builder.add(value(b"b", 0)), Ok(false));
}

/// A first row whose end is the second's restart: two length bytes, three value length bytes, key, value, number, flags.
fn restart_at(place: usize) -> Result<bool, Refusal> {
    let mut builder = BlockBuilderV2::new_with_restart_interval(131_072, 1).unwrap();
    let row = value(b"a", place - 15);
    assert_eq!(builder.add(row), Ok(true));
    // it fits, whatever `add` says of its place
    assert_eq!(builder.would_fit(&value(b"b", 0)), Ok(true));
    builder.add(value(b"b", 0))
}

#[test]
fn a_restart_too_far_5() {
    assert_eq!(restart_at(65_535), Ok(true));
    assert_eq!(restart_at(65_536), Err(Refusal::RestartTooFar));
}

#[test]
fn an_empty_block_7() {
    assert_eq!(builder().build(), Err(Refusal::EmptyBlock));
}

#[test]
fn settings_8() {
    let refused = |size, interval| BlockBuilderV2::new_with_restart_interval(size, interval).err();
    assert_eq!(refused(0, 1), None);
    assert_eq!(refused(131_072, 1024), None);
    assert_eq!(refused(131_073, 16), Some(Refusal::BadSettings));
    assert_eq!(refused(4096, 0), Some(Refusal::BadSettings));
    assert_eq!(refused(4096, 1025), Some(Refusal::BadSettings));
    assert_eq!(BlockBuilderV2::new(131_073).err(), Some(Refusal::BadSettings));
}

/// Case 1's row, changed at a place, with a trailer.
fn changed(place: usize, byte: u8) -> Vec<u8> {
    let mut block = build(&[value(b"a", 0)], 1);
    block[place] = byte;
    block
}

#[test]
fn rows_that_cannot_be_read() {
    let cases = [
        (changed(0, 1), Refusal::BadShare),
        (changed(1, 0), Refusal::EmptyKey),
        (changed(2, 1), Refusal::InputEnds),
        (changed(12, 9), Refusal::TombstoneWithMerge),
        (changed(12, 16), Refusal::UnknownFlags),
        (changed(12, 2), Refusal::InputEnds),
        (
            [&[0, 0x81, 0x20, 0][..], &[0; 4106], &[0, 0, 0, 1]].concat(),
            Refusal::KeyTooLong,
        ),
        (
            [&[0, 1, 0x80, 0x80, 4][..], &[0; 12], &[0, 0, 0, 1]].concat(),
            Refusal::ValueTooLong,
        ),
        (
            [&[255, 255, 255, 255, 16][..], &[0; 12], &[0, 0, 0, 1]].concat(),
            Refusal::VarintTooLarge,
        ),
        (
            [&[0, 0x81, 0, 0, b'a'][..], &[0; 9], &[0, 0, 0, 1]].concat(),
            Refusal::VarintTooLarge,
        ),
    ];
    for (block, refusal) in cases {
        assert_eq!(check(&block), Err(refusal));
        for order in BOTH {
            assert_eq!(walk(&block, order), Err(refusal));
        }
    }
}

#[test]
fn trailers_14_and_offsets_15() {
    for block in [&[][..], &[0], &[0, 0], &[0, 1], &[0, 0, 0, 2]] {
        assert_eq!(check(block), Err(Refusal::BadTrailer));
        assert_eq!(BlockIteratorV2::new_ascending(block).err(), Some(Refusal::BadTrailer));
    }
    for block in [changed(14, 1), changed(13, 255), vec![0, 0, 0, 1]] {
        assert_eq!(check(&block), Err(Refusal::BadOffset));
        assert_eq!(
            BlockIteratorV2::new(block, IterationOrder::Descending).err(),
            Some(Refusal::BadOffset)
        );
    }
}

#[test]
fn a_row_past_its_region_16() {
    let mut block = build(&rows_of(&["a", "b", "c"]), 1);
    // the second restart, one byte early: the first row runs past it
    block[3 * 13 + 3] -= 1;
    assert_eq!(check(&block), Err(Refusal::RowPastRegion));
    assert_eq!(walk(&block, IterationOrder::Ascending), Err(Refusal::RowPastRegion));
}

#[test]
fn keys_that_fall_17() {
    let block = build(&rows_of(&["b", "a"]), 1);
    assert_eq!(check(&block), Err(Refusal::KeyFalls));
    // readers don't ask for it
    assert_eq!(walk(&block, IterationOrder::Ascending).unwrap().len(), 2);
}

/// Numbers of 64 bits without a sign: falling they are taken, with a restart between them or without.
#[test]
fn equal_keys_whose_numbers_do_not_fall_17() {
    const TOP: u64 = 1 << 63;
    let cases = [
        ([1, 0], Ok(3)),
        ([256, 255], Ok(3)),
        ([TOP, TOP - 1], Ok(3)),
        ([u64::MAX, 0], Ok(3)),
        ([0, 0], Err(Refusal::KeyFalls)),
        ([u64::MAX, u64::MAX], Err(Refusal::KeyFalls)),
        ([255, 256], Err(Refusal::KeyFalls)),
        ([TOP - 1, TOP], Err(Refusal::KeyFalls)),
        ([0, u64::MAX], Err(Refusal::KeyFalls)),
    ];
    for ([first, second], answer) in cases {
        let rows = [
            value(b"a", 0),
            RowEntry::new_value(b"b", b"x", first),
            RowEntry::new_tombstone(b"b", second),
        ];
        for interval in [1, 2, 3] {
            let block = build(&rows, interval);
            assert_eq!(check(&block), answer, "{first}, then {second}");
            // readers don't ask for it
            assert_eq!(walk(&block, IterationOrder::Ascending).unwrap(), rows);
        }
    }
}

#[test]
fn a_refused_step_is_refused_again_and_ends_a_loop() {
    let mut block = build(&rows_of(&["a", "b"]), 1);
    block[25] = 16;
    let mut iterator = open(&block, IterationOrder::Ascending);
    assert!(iterator.next().unwrap().is_some());
    assert_eq!(iterator.next(), Err(Refusal::UnknownFlags));
    assert_eq!(iterator.next(), Err(Refusal::UnknownFlags));
    let looped: Vec<_> = iterator.by_ref().collect();
    assert_eq!(looped, [Err(Refusal::UnknownFlags)]);
    // a seek to what is whole takes it up again
    assert!(iterator.seek(b"a").is_ok());
    assert_eq!(iterator.map(|row| row.is_ok()).collect::<Vec<_>>(), [true, false]);
}

#[test]
fn a_refusal_is_not_an_end() {
    let block = Vanishing::new(build(&rows_of(&["a"]), 1));
    let mut iterator = BlockIteratorV2::new_ascending(block).unwrap();
    assert!(!iterator.is_empty());
    assert_eq!(iterator.next(), Err(Refusal::BadTrailer));
}

/// Nothing panics, and an accepted block has as many rows as the check says.
fn reads(block: &[u8]) {
    let rows = check(block).ok();
    for order in BOTH {
        let walked = walk(block, order).map(|rows| rows.len());
        for most in [1, 3] {
            assert_eq!(walk_by(block, order, most).map(|rows| rows.len()), walked);
        }
        if let Some(rows) = rows {
            assert_eq!(walked, Ok(rows));
        }
        if let Ok(mut iterator) = BlockIteratorV2::new(block, order) {
            if iterator.seek(b"b").is_ok() {
                iterator.for_each(drop);
            }
        }
    }
}

#[test]
fn every_damaged_byte_and_every_cut() {
    let mut block = build(&rows_of(&["a", "b", "bb", "bbb", "c", "ca"]), 2);
    for place in 0..block.len() {
        let byte = block[place];
        let flips = (0..8).map(|bit| byte ^ (1 << bit));
        for damaged in flips.chain([0, 15, 255]) {
            block[place] = damaged;
            reads(&block);
        }
        block[place] = byte;
        reads(&block[..place]);
    }
}

#[test]
fn refusals_have_their_numbers() {
    for (i, refusal) in Refusal::ALL.iter().enumerate() {
        assert_eq!(refusal.number() as usize, i + 1);
    }
    assert_eq!(
        Refusal::KeyFalls.to_string(),
        "refusal 17: a key is smaller than the one before, or equal with a sequence number that is not smaller"
    );
}
