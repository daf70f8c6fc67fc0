//! Seeks, held to a plain search over the rows.

mod common;

use common::{build, expected, open, rows_of, walk, BOTH};
use slatedb_block::{check, IterationOrder, Refusal, RowEntry};

fn rest(block: &[u8], order: IterationOrder, target: &[u8]) -> Vec<RowEntry> {
    let mut iterator = open(block, order);
    iterator.seek(target).unwrap();
    iterator.collect::<Result<_, _>>().unwrap()
}

const KEYS: [&str; 14] = [
    "b", "bb", "bb", "bbc", "d", "d", "d", "d", "d", "da", "f", "fff", "h", "hz",
];

#[test]
fn present_absent_below_and_above() {
    let rows = rows_of(&KEYS);
    let targets = [
        "", "a", "b", "ba", "bb", "bba", "bbc", "c", "d", "d\0", "da", "e", "fff", "g", "hz", "hzz", "z",
    ];
    for interval in [1, 2, 3, 5, 16] {
        let block = build(&rows, interval);
        assert_eq!(check(&block), Ok(rows.len()));
        for target in targets {
            for order in BOTH {
                let target = target.as_bytes();
                assert_eq!(
                    rest(&block, order, target),
                    expected(&rows, order, target),
                    "{interval} {order:?} {target:?}"
                );
            }
        }
    }
}

#[test]
fn a_target_may_be_longer_than_any_key() {
    let rows = rows_of(&KEYS);
    let block = build(&rows, 2);
    let target = [b'd'; 5000];
    for order in BOTH {
        assert_eq!(rest(&block, order, &target), expected(&rows, order, &target));
    }
}

#[test]
fn cases_8_to_10() {
    let block = build(&rows_of(&["a", "b", "b", "b", "c"]), 2);
    assert_eq!(check(&block), Ok(5));
    let answer = |order, target: &[u8]| {
        let mut iterator = open(&block, order);
        assert_eq!(iterator.seek(target), Ok(2));
        iterator.next().unwrap().map(|row| row.seq)
    };
    assert_eq!(answer(IterationOrder::Ascending, b"b"), Some(3));
    assert_eq!(answer(IterationOrder::Descending, b"b"), Some(1));
    assert_eq!(answer(IterationOrder::Ascending, b"bb"), Some(0));
    assert_eq!(answer(IterationOrder::Descending, b"bb"), Some(1));
    assert_eq!(answer(IterationOrder::Ascending, b"d"), None);
    assert_eq!(answer(IterationOrder::Descending, b""), None);
    assert_eq!(answer(IterationOrder::Ascending, b""), Some(4));
}

#[test]
fn a_seek_starts_afresh() {
    let rows = rows_of(&KEYS);
    let block = build(&rows, 3);
    for order in BOTH {
        let mut iterator = open(&block, order);
        for target in ["h", "b", "zz", "", "d", "d"] {
            iterator.seek(target.as_bytes()).unwrap();
            let first = expected(&rows, order, target.as_bytes()).first().cloned();
            assert_eq!(iterator.next(), Ok(first), "{order:?} {target:?}");
        }
    }
}

#[test]
fn a_seek_brings_an_ended_iterator_back() {
    let rows = rows_of(&KEYS);
    let block = build(&rows, 3);
    for order in BOTH {
        let mut iterator = open(&block, order);
        assert_eq!(iterator.by_ref().count(), rows.len());
        assert!(iterator.is_empty());
        iterator.seek(b"d").unwrap();
        assert!(!iterator.is_empty());
        assert!(iterator.count() < walk(&block, order).unwrap().len());
    }
}

#[test]
fn a_seek_that_finds_nothing_leaves_nothing() {
    let block = build(&rows_of(&KEYS), 3);
    for (order, target) in [(IterationOrder::Ascending, "z"), (IterationOrder::Descending, "a")] {
        let mut iterator = open(&block, order);
        iterator.seek(target.as_bytes()).unwrap();
        assert!(iterator.is_empty());
        assert_eq!(iterator.next(), Ok(None));
    }
}

/// No seek looks at a sequence number, whether the check accepts the block or not.
#[test]
fn equal_keys_with_any_numbers_are_sought_alike() {
    for seqs in [[3, 2, 1], [1, 2, 3], [2, 2, 2], [0, u64::MAX, 0]] {
        let rows = seqs.map(|seq| RowEntry::new_value(b"b", b"", seq));
        for interval in [1, 2, 3] {
            let block = build(&rows, interval);
            for order in BOTH {
                for target in [&b""[..], b"b", b"c"] {
                    assert_eq!(rest(&block, order, target), expected(&rows, order, target));
                }
            }
        }
    }
}

/// Why a seek that must not miss its row needs a checked block.
#[test]
fn where_keys_fall_a_seek_may_pass_over_its_row() {
    let block = build(&rows_of(&["c", "a", "z"]), 1);
    assert_eq!(check(&block), Err(Refusal::KeyFalls));
    let after = rest(&block, IterationOrder::Ascending, b"c");
    assert_eq!(after.iter().map(|row| &row.key[..]).collect::<Vec<_>>(), [b"z"]);
}
