//! The earlier format: what is built is read back, both ways, and found by seeks held to a plain search.

mod common;

use common::v1::{build, build_within, open, walk};
use common::{all_sorts, expected, reversed, rows_of, BOTH};
use slatedb_block::{
    check, check_v1, BlockBuilderV1, BlockIterator, BlockIteratorV2, IterationOrder, Refusal, RowEntry,
};

fn holds(rows: &[RowEntry], block: &[u8]) {
    assert_eq!(check_v1(block), Ok(rows.len()));
    assert_eq!(walk(block, IterationOrder::Ascending).unwrap(), rows);
    assert_eq!(walk(block, IterationOrder::Descending).unwrap(), reversed(rows));
    for order in BOTH {
        let looped: Result<Vec<_>, _> = open(block, order).collect();
        assert_eq!(looped, walk(block, order));
    }
}

/// A row's bytes, beside which a block has 2 for each row's offset, and 2 for their count.
fn size_of_last(rows: &[RowEntry]) -> usize {
    let before = match rows.len() {
        1 => 2,
        n => build(&rows[..n - 1]).len(),
    };
    build(rows).len() - before - 2
}

#[test]
fn sizes_of_the_row_of_a() {
    for (first, size) in [
        (RowEntry::new_value(b"a", b"", 2), 18),
        (RowEntry::new_tombstone(b"a", 2), 14),
    ] {
        let rows = [first, RowEntry::new_tombstone(b"a", 1)];
        assert_eq!(size_of_last(&rows[..1]), size);
        // it shares the whole key
        assert_eq!(size_of_last(&rows), 13);
        holds(&rows, &build(&rows));
    }
}

const ROW_OF_A: [u8; 18] = *b"\0\0\0\x01a\0\0\0\0\0\0\0\x01\0\0\0\0\0";
const ROW_OF_AB: [u8; 19] = *b"\0\x01\0\x01b\0\0\0\0\0\0\0\x02\0\0\0\0\x01x";
const ROW_OF_B: [u8; 18] = *b"\0\0\0\x01b\0\0\0\0\0\0\0\x03\0\0\0\0\0";

fn three_rows() -> [RowEntry; 3] {
    [
        RowEntry::new_value(b"a", b"", 1),
        RowEntry::new_value(b"ab", b"x", 2),
        RowEntry::new_value(b"b", b"", 3),
    ]
}

#[test]
fn three_rows_have_these_bytes() {
    let rows = three_rows();
    let block = build(&rows);
    let trailer = [0, 0, 0, 18, 0, 37, 0, 3];
    assert_eq!(block, [&ROW_OF_A[..], &ROW_OF_AB, &ROW_OF_B, &trailer].concat());
    holds(&rows, &block);
}

/// Sought to, the number of the row that follows; the search reads two keys of three.
#[test]
fn three_rows_are_sought() {
    let block = build(&three_rows());
    let answer = |order, target: &[u8]| {
        let mut iterator = open(&block, order);
        assert_eq!(iterator.seek(target), Ok(2));
        iterator.next().unwrap().map(|row| row.number().unwrap())
    };
    assert_eq!(answer(IterationOrder::Ascending, b"ab"), Some(1));
    assert_eq!(answer(IterationOrder::Ascending, b"aa"), Some(1));
    assert_eq!(answer(IterationOrder::Ascending, b"c"), None);
    assert_eq!(answer(IterationOrder::Ascending, b""), Some(0));
    assert_eq!(answer(IterationOrder::Descending, b"ab"), Some(1));
    assert_eq!(answer(IterationOrder::Descending, b"aa"), Some(0));
    assert_eq!(answer(IterationOrder::Descending, b"c"), Some(2));
    assert_eq!(answer(IterationOrder::Descending, b""), None);
}

/// A row fits if it does without its own offset, so the block is 2 bytes over; one byte less, and it doesn't.
#[test]
fn a_block_may_be_2_bytes_over() {
    let [first, second, _] = three_rows();
    for (block_size, fits, len) in [(41, true, 43), (40, false, 22), (0, false, 22)] {
        let mut builder = BlockBuilderV1::new(block_size).unwrap();
        assert_eq!(builder.add(first.clone()), Ok(true));
        assert_eq!(builder.would_fit(&second), Ok(fits));
        assert_eq!(builder.add(second.clone()), Ok(fits));
        assert_eq!(builder.build().unwrap().len(), len, "block size {block_size}");
    }
}

/// Both are written and read, the expire time too, which slatedb writes and drops on reading.
#[test]
fn a_tombstone_with_both_times() {
    let held = RowEntry::new_tombstone(b"ab", 2).with_expire_ts(7).with_create_ts(-1);
    let rows = [RowEntry::new_value(b"a", b"", 1), held];
    let block = build(&rows);
    let times = *b"\0\x01\0\x01b\0\0\0\0\0\0\0\x02\x07\0\0\0\0\0\0\0\x07\xff\xff\xff\xff\xff\xff\xff\xff";
    assert_eq!(block, [&ROW_OF_A[..], &times, &[0, 0, 0, 18, 0, 2]].concat());
    holds(&rows, &block);
}

#[test]
fn all_sorts_of_rows_come_back() {
    let rows = all_sorts();
    for n in (1..20).chain([rows.len()]) {
        holds(&rows[..n], &build(&rows[..n]));
    }
}

#[test]
fn the_longest_key_and_value_come_back() {
    let long = RowEntry::new_value(&[b'k'; 4096], &[1; 65_535], 1)
        .with_create_ts(2)
        .with_expire_ts(3);
    let rows = [RowEntry::new_tombstone(b"a", 0), long];
    holds(&rows, &build_within(131_072, &rows));
    // alone, in a block of any size
    holds(&rows[1..], &build_within(0, &rows[1..]));
}

/// 5,042 rows of 13 bytes, the first of 14: the last starts at 65,534. Another would start too far.
#[test]
fn as_many_rows_as_a_block_can_have() {
    let row = |n: u64| RowEntry::new_tombstone(b"a", 9999 - n);
    let rows: Vec<_> = (0..5042).map(row).collect();
    let mut builder = BlockBuilderV1::new(131_072).unwrap();
    for row in &rows {
        assert_eq!(builder.add(row.clone()), Ok(true));
    }
    assert_eq!(builder.would_fit(&row(5042)), Ok(true));
    assert_eq!(builder.add(row(5042)), Err(Refusal::RestartTooFar));
    let block = builder.build().unwrap();
    assert_eq!(block.len(), 14 + 5041 * 13 + 5042 * 2 + 2);
    holds(&rows, &block);
}

#[test]
fn the_builder_says_whether_it_is_empty() {
    let mut builder = BlockBuilderV1::new(4096).unwrap();
    assert!(builder.is_empty());
    assert_eq!(builder.add(RowEntry::new_value(b"a", b"", 1)), Ok(true));
    assert!(!builder.is_empty());
}

#[test]
fn a_row_that_was_refused_leaves_no_trace() {
    let [first, second, _] = three_rows();
    let mut builder = BlockBuilderV1::new(41).unwrap();
    assert_eq!(builder.add(RowEntry::new_value(b"", b"", 1)), Err(Refusal::EmptyKey));
    assert!(builder.is_empty());
    assert_eq!(builder.add(first.clone()), Ok(true));
    assert_eq!(builder.add(RowEntry::new_value(b"abcdefghij", b"", 2)), Ok(false));
    assert_eq!(
        builder.add(RowEntry::new_value(&[0; 4097], b"", 2)),
        Err(Refusal::KeyTooLong)
    );
    assert_eq!(builder.add(second.clone()), Ok(true));
    assert_eq!(builder.build().unwrap(), build(&[first, second]));
}

#[test]
fn the_block_may_be_owned_or_borrowed() {
    let block = build(&three_rows());
    assert_eq!(BlockIterator::new_ascending(&block).unwrap().count(), 3);
    assert_eq!(BlockIterator::new_ascending(block.clone()).unwrap().count(), 3);
    let shared = std::sync::Arc::<[u8]>::from(block);
    assert_eq!(BlockIterator::new_ascending(shared).unwrap().count(), 3);
}

/// Unlike in the later format it is known both ways as soon as the last row was given.
#[test]
fn is_empty_is_slatedbs() {
    let block = build(&rows_of(&["a", "b"]));
    for order in BOTH {
        let mut iterator = open(&block, order);
        for _ in 0..2 {
            assert!(!iterator.is_empty());
            assert!(iterator.next().unwrap().is_some());
        }
        assert!(iterator.is_empty());
        assert_eq!(iterator.next(), Ok(None));
    }
}

/// Its number in the block, and no region; made by hand it has neither. Where it stood is no part of what it holds.
#[test]
fn a_row_says_which_one_it_is() {
    let rows = three_rows();
    let block = build(&rows);
    for (number, row) in open(&block, IterationOrder::Ascending).enumerate() {
        let row = row.unwrap();
        assert_eq!((row.region(), row.number()), (None, Some(number)));
        assert_eq!((rows[number].region(), rows[number].number()), (None, None));
        assert_eq!(row, rows[number]);
    }
    let down = open(&block, IterationOrder::Descending).map(|row| row.unwrap().number().unwrap());
    assert_eq!(down.collect::<Vec<_>>(), [2, 1, 0]);
}

/// An iterator shows how many rows it has passed, and not the block.
#[test]
fn an_iterator_shows_where_it_stands() {
    let block = build(&three_rows());
    let mut iterator = open(&block, IterationOrder::Descending);
    assert!(format!("{iterator:?}").contains("order: 1, passed: 0"));
    assert!(iterator.next().unwrap().is_some());
    assert!(format!("{iterator:?}").contains("order: 1, passed: 1"));
}

const KEYS: [&str; 14] = [
    "b", "bb", "bb", "bbc", "d", "d", "d", "d", "d", "da", "f", "fff", "h", "hz",
];

/// From wherever the iterator stands, one that has ended too.
#[test]
fn seeks_find_what_a_plain_search_finds() {
    let long = "d".repeat(5000);
    let targets = [
        "h", "", "a", "zz", "b", "ba", "bb", "bba", "bbc", "c", "d", "d\0", "da", "e", "fff", "g", "hz", "hzz", &long,
    ];
    for n in 1..=KEYS.len() {
        let rows = rows_of(&KEYS[..n]);
        let block = build(&rows);
        for order in BOTH {
            let mut iterator = open(&block, order);
            for target in targets {
                let left = expected(&rows, order, target.as_bytes());
                let reads = iterator.seek(target.as_bytes()).unwrap();
                // halving
                assert!(reads >= 1 && 1 << (reads - 1) <= n, "{reads} of {n}");
                assert_eq!(iterator.is_empty(), left.is_empty());
                let found: Result<Vec<_>, _> = iterator.by_ref().collect();
                assert_eq!(found.unwrap(), left, "{n} {order:?} {target:?}");
                assert!(iterator.is_empty());
            }
        }
    }
}

/// Nothing in a block tells its format, and neither reader guesses: of these two each refuses the other's row.
#[test]
fn the_caller_names_the_format() {
    let rows = rows_of(&["a"]);
    let (earlier, later) = (build(&rows), common::build(&rows, 16));
    assert_eq!((check_v1(&earlier), check(&later)), (Ok(1), Ok(1)));
    assert_eq!(check(&earlier), Err(Refusal::EmptyKey));
    assert_eq!(check_v1(&later), Err(Refusal::BadShare));
    assert_eq!(
        BlockIteratorV2::new_ascending(&earlier).unwrap().next(),
        Err(Refusal::EmptyKey)
    );
    assert_eq!(BlockIterator::new_ascending(&later).err(), Some(Refusal::BadShare));
}
