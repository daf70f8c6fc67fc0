//! Which row it is: the region of each row that is read, and its number there.

mod common;

use common::{build, open, rows_of, BOTH};
use slatedb_block::{BlockIteratorV2, IterationOrder, Refusal, RowEntry};

/// The pair of a row that was read.
fn pair(row: &RowEntry) -> (usize, usize) {
    (row.region().unwrap(), row.number().unwrap())
}

/// The pairs of the rows that are left.
fn pairs(iterator: BlockIteratorV2<&[u8]>) -> Vec<(usize, usize)> {
    iterator.map(|row| pair(&row.unwrap())).collect()
}

fn in_order(order: IterationOrder, mut pairs: Vec<(usize, usize)>) -> Vec<(usize, usize)> {
    if order == IterationOrder::Descending {
        pairs.reverse();
    }
    pairs
}

/// With a restart every `interval` rows.
fn expected(rows: usize, interval: usize) -> Vec<(usize, usize)> {
    (0..rows).map(|row| (row / interval, row % interval)).collect()
}

const KEYS: [&str; 9] = ["a", "b", "b", "b", "c", "cc", "ccc", "d", "dd"];

#[test]
fn walks_give_all_pairs_in_order() {
    let rows = rows_of(&KEYS);
    for interval in [1, 2, 3, 4, 9, 16] {
        let block = build(&rows, interval);
        for order in BOTH {
            let all = in_order(order, expected(rows.len(), interval));
            assert_eq!(pairs(open(&block, order)), all, "{interval} {order:?}");
            for most in [1, 2, 5, 20] {
                let (mut iterator, mut given) = (open(&block, order), Vec::new());
                while given.len() < rows.len() {
                    given.extend(iterator.next_rows(most).unwrap().iter().map(pair));
                }
                assert_eq!(given, all, "{interval} {order:?} by {most}");
            }
        }
    }
}

/// The row's region is where it stands, though the cursor has handed over to the next.
#[test]
fn a_hand_over() {
    let block = build(&rows_of(&["a", "b", "c"]), 2);
    let mut iterator = open(&block, IterationOrder::Ascending);
    let place = |iterator: &BlockIteratorV2<&[u8]>| format!("{iterator:?}");
    assert_eq!(pair(&iterator.next().unwrap().unwrap()), (0, 0));
    assert!(place(&iterator).contains("region: 0, at: 13") && place(&iterator).contains("number: 1"));
    assert_eq!(pair(&iterator.next().unwrap().unwrap()), (0, 1));
    assert!(place(&iterator).contains("region: 1, at: 26") && place(&iterator).contains("number: 0"));
    assert_eq!(pair(&iterator.next().unwrap().unwrap()), (1, 0));
    assert!(place(&iterator).contains("region: 1, at: 39") && place(&iterator).contains("number: 1"));
}

#[test]
fn seeks_give_the_pairs_from_there() {
    let rows = rows_of(&KEYS);
    for interval in [1, 2, 3, 4, 16] {
        let block = build(&rows, interval);
        let all = expected(rows.len(), interval);
        for target in ["", "a", "b", "bb", "c", "cc", "cd", "dd", "z"] {
            let first = KEYS.iter().position(|key| *key >= target).unwrap_or(KEYS.len());
            let last = KEYS.iter().rposition(|key| *key <= target).map_or(0, |row| row + 1);
            for order in BOTH {
                let mut iterator = open(&block, order);
                iterator.seek(target.as_bytes()).unwrap();
                let left = match order {
                    IterationOrder::Ascending => all[first..].to_vec(),
                    IterationOrder::Descending => in_order(order, all[..last].to_vec()),
                };
                assert_eq!(pairs(iterator), left, "{interval} {order:?} {target:?}");
            }
        }
    }
}

/// A refused step leaves the cursor, its number too: the next one is refused alike, and what was read before stays numbered.
#[test]
fn a_refused_step_leaves_the_number() {
    let mut block = build(&rows_of(&["a", "b", "c", "d"]), 4);
    // the third row's flags
    block[38] = 16;
    let mut iterator = open(&block, IterationOrder::Ascending);
    assert_eq!(pair(&iterator.next().unwrap().unwrap()), (0, 0));
    assert_eq!(pair(&iterator.next().unwrap().unwrap()), (0, 1));
    let before = format!("{iterator:?}");
    assert!(before.contains("number: 2"));
    for _ in 0..2 {
        assert_eq!(iterator.next(), Err(Refusal::UnknownFlags));
        assert_eq!(iterator.next_rows(3), Err(Refusal::UnknownFlags));
        assert_eq!(iterator.seek(b"d"), Err(Refusal::UnknownFlags));
        assert_eq!(format!("{iterator:?}"), before);
    }
    iterator.seek(b"b").unwrap();
    assert_eq!(pair(&iterator.next().unwrap().unwrap()), (0, 1));
    assert_eq!(format!("{iterator:?}"), before);
}

/// Opening backwards reads the last region, and no other.
#[test]
fn a_last_region_that_cannot_be_read() {
    let rows = rows_of(&["a", "b", "c", "d"]);
    for (row, opens) in [(0, true), (1, true), (2, false), (3, false)] {
        let mut block = build(&rows, 2);
        block[13 * row + 12] = 9;
        let opened = BlockIteratorV2::new(&block, IterationOrder::Descending).err();
        assert_eq!(opened, if opens { None } else { Some(Refusal::TombstoneWithMerge) });
        assert!(BlockIteratorV2::new_ascending(&block).is_ok());
    }
}

/// A row that is made by hand stands nowhere; where a row stood is no part of what it holds, and is shown.
#[test]
fn rows_that_were_not_read() {
    let row = RowEntry::new_value(b"a", b"", 0);
    assert_eq!((row.region(), row.number()), (None, None));
    let block = build(&[row.clone()], 1);
    let read = open(&block, IterationOrder::Ascending).next().unwrap().unwrap();
    assert_eq!(read, row);
    assert_eq!(pair(&read), (0, 0));
    assert!(format!("{read:?}").contains("region: Some(0), number: Some(0)"));
}
