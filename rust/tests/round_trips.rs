//! What is built is read back: all kinds, times, intervals, both ways.

mod common;

use common::{all_sorts, build, build_within, open, reversed, rows_of, walk, walk_by, BOTH};
use slatedb_block::{check, BlockBuilderV2, BlockIteratorV2, IterationOrder, RowEntry};

fn holds(rows: &[RowEntry], block: &[u8]) {
    assert_eq!(check(block), Ok(rows.len()));
    assert_eq!(walk(block, IterationOrder::Ascending).unwrap(), rows);
    assert_eq!(walk(block, IterationOrder::Descending).unwrap(), reversed(rows));
    for most in [1, 2, 7, rows.len() + 1] {
        assert_eq!(walk_by(block, IterationOrder::Ascending, most).unwrap(), rows);
        assert_eq!(
            walk_by(block, IterationOrder::Descending, most).unwrap(),
            reversed(rows)
        );
    }
}

#[test]
fn all_sorts_of_rows_come_back() {
    let rows = all_sorts();
    for interval in [1, 2, 3, 16, 1024] {
        holds(&rows, &build(&rows, interval));
    }
}

#[test]
fn any_number_of_rows_comes_back() {
    let rows = all_sorts();
    for n in 1..40 {
        holds(&rows[..n], &build(&rows[..n], 4));
        holds(&rows[..n], &build(&rows[..n], 16));
    }
}

#[test]
fn the_longest_key_and_value_come_back() {
    let long = RowEntry::new_value(&[b'k'; 4096], &[1; 65_535], 1)
        .with_create_ts(2)
        .with_expire_ts(3);
    let rows = [RowEntry::new_tombstone(b"a", 0), long];
    holds(&rows, &build_within(131_072, &rows, 16));
    // alone, in a block of any size
    holds(&rows[1..], &build_within(0, &rows[1..], 16));
}

#[test]
fn case_2_has_the_papers_bytes() {
    let rows = [RowEntry::new_value(b"a", b"", 1), RowEntry::new_value(b"ab", b"x", 2)];
    let row_1 = [0, 1, 0, b'a', 0, 0, 0, 0, 0, 0, 0, 1, 0];
    let row_2 = [1, 1, 1, b'b', b'x', 0, 0, 0, 0, 0, 0, 0, 2, 0];
    let trailer = [0, 0, 0, 1];
    assert_eq!(build(&rows, 16), [&row_1[..], &row_2, &trailer].concat());
    assert_eq!(build(&rows, 1).len(), 34);
}

#[test]
fn the_builder_says_whether_it_is_empty() {
    let mut builder = BlockBuilderV2::new(4096).unwrap();
    assert!(builder.is_empty());
    assert_eq!(builder.add(RowEntry::new_value(b"a", b"", 1)), Ok(true));
    assert!(!builder.is_empty());
}

#[test]
fn the_default_interval_is_16() {
    let keys: Vec<String> = (10..50).map(|n| n.to_string()).collect();
    let rows = rows_of(&keys.iter().map(String::as_str).collect::<Vec<_>>());
    let mut builder = BlockBuilderV2::new(4096).unwrap();
    for row in &rows {
        assert_eq!(builder.add(row.clone()), Ok(true));
    }
    assert_eq!(builder.build().unwrap(), build(&rows, 16));
}

#[test]
fn a_row_that_was_refused_leaves_no_trace() {
    let mut builder = BlockBuilderV2::new(31).unwrap();
    assert_eq!(builder.add(RowEntry::new_value(b"a", b"", 1)), Ok(true));
    assert_eq!(builder.add(RowEntry::new_value(b"abcdefghij", b"", 2)), Ok(false));
    assert_eq!(builder.add(RowEntry::new_value(b"abc", b"", 3)), Ok(true));
    let rows = [RowEntry::new_value(b"a", b"", 1), RowEntry::new_value(b"abc", b"", 3)];
    assert_eq!(builder.build().unwrap(), build(&rows, 16));
}

#[test]
fn a_for_loop_gives_the_rows() {
    let rows = all_sorts();
    let block = build(&rows, 3);
    for order in BOTH {
        let looped: Result<Vec<_>, _> = open(&block, order).collect();
        assert_eq!(looped, walk(&block, order));
    }
}

#[test]
fn the_block_may_be_owned_or_borrowed() {
    let rows = rows_of(&["a", "b"]);
    let block = build(&rows, 1);
    assert_eq!(BlockIteratorV2::new_ascending(&block).unwrap().count(), 2);
    assert_eq!(BlockIteratorV2::new_ascending(block.clone()).unwrap().count(), 2);
    assert_eq!(
        BlockIteratorV2::new_ascending(std::sync::Arc::<[u8]>::from(block))
            .unwrap()
            .count(),
        2
    );
}

#[test]
fn is_empty_is_slatedbs() {
    let block = build(&rows_of(&["a"]), 1);
    let mut ascending = open(&block, IterationOrder::Ascending);
    let mut descending = open(&block, IterationOrder::Descending);
    assert!(!ascending.is_empty() && !descending.is_empty());
    assert!(ascending.next().unwrap().is_some() && descending.next().unwrap().is_some());
    // descending it is known only when the next row is asked for
    assert!(ascending.is_empty() && !descending.is_empty());
    assert_eq!(descending.next(), Ok(None));
    assert!(descending.is_empty());
}
