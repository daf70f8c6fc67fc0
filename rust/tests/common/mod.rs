// each test program uses some of these
#![allow(dead_code)]

use std::cell::Cell;

use slatedb_block::{BlockBuilderV2, BlockIteratorV2, IterationOrder, Refusal, RowEntry, ValueDeletable};

pub mod v1;

pub const BOTH: [IterationOrder; 2] = [IterationOrder::Ascending, IterationOrder::Descending];

pub fn build(rows: &[RowEntry], interval: usize) -> Vec<u8> {
    build_within(16_384, rows, interval)
}

pub fn build_within(block_size: usize, rows: &[RowEntry], interval: usize) -> Vec<u8> {
    let mut builder = BlockBuilderV2::new_with_restart_interval(block_size, interval).unwrap();
    for row in rows {
        assert_eq!(builder.would_fit(row), Ok(true));
        assert_eq!(builder.add(row.clone()), Ok(true));
    }
    builder.build().unwrap()
}

/// Rows with these keys, numbered down to 0: among equal keys the newest is first.
pub fn rows_of(keys: &[&str]) -> Vec<RowEntry> {
    let row = |(key, seq): (&&str, u64)| RowEntry::new_value(key.as_bytes(), b"", seq);
    keys.iter().zip((0..keys.len() as u64).rev()).map(row).collect()
}

fn values() -> Vec<ValueDeletable> {
    let long = vec![7; 300];
    vec![
        ValueDeletable::Value(b"v".to_vec()),
        ValueDeletable::Value(Vec::new()),
        ValueDeletable::Merge(long),
        ValueDeletable::Merge(Vec::new()),
        ValueDeletable::Tombstone,
    ]
}

/// Each kind with each pair of times, the keys rising and sharing bytes.
pub fn all_sorts() -> Vec<RowEntry> {
    let times = [None, Some(0), Some(-1), Some(i64::MIN), Some(i64::MAX)];
    let mut rows = Vec::new();
    for value in values() {
        for create_ts in times {
            for expire_ts in times {
                let key = format!("card/{:05}", rows.len()).into_bytes();
                let seq = u64::MAX - rows.len() as u64;
                rows.push(RowEntry::new(key, value.clone(), seq, create_ts, expire_ts));
            }
        }
    }
    rows
}

pub fn reversed(rows: &[RowEntry]) -> Vec<RowEntry> {
    rows.iter().rev().cloned().collect()
}

/// The rows that have to follow a seek.
pub fn expected(rows: &[RowEntry], order: IterationOrder, target: &[u8]) -> Vec<RowEntry> {
    match order {
        IterationOrder::Ascending => rows.iter().filter(|row| &row.key[..] >= target).cloned().collect(),
        IterationOrder::Descending => rows
            .iter()
            .rev()
            .filter(|row| &row.key[..] <= target)
            .cloned()
            .collect(),
    }
}

pub fn open(block: &[u8], order: IterationOrder) -> BlockIteratorV2<&[u8]> {
    BlockIteratorV2::new(block, order).unwrap()
}

/// By slatedb's own `next`, until it says that no row is left.
pub fn walk(block: &[u8], order: IterationOrder) -> Result<Vec<RowEntry>, Refusal> {
    let mut iterator = BlockIteratorV2::new(block, order)?;
    let mut rows = Vec::new();
    while let Some(row) = iterator.next()? {
        rows.push(row);
    }
    assert_eq!(iterator.next(), Ok(None));
    assert!(iterator.is_empty());
    Ok(rows)
}

/// By so many rows a call.
pub fn walk_by(block: &[u8], order: IterationOrder, most: usize) -> Result<Vec<RowEntry>, Refusal> {
    let mut iterator = BlockIteratorV2::new(block, order)?;
    let mut rows = Vec::new();
    loop {
        let given = iterator.next_rows(most)?;
        if given.is_empty() {
            return Ok(rows);
        }
        rows.extend(given);
    }
}

/// Lends its bytes when it is opened, and none later.
pub struct Vanishing {
    bytes: Vec<u8>,
    lent: Cell<bool>,
}

impl Vanishing {
    pub fn new(bytes: Vec<u8>) -> Self {
        let lent = Cell::new(false);
        Self { bytes, lent }
    }
}

impl AsRef<[u8]> for Vanishing {
    fn as_ref(&self) -> &[u8] {
        if self.lent.replace(true) {
            return &[];
        }
        &self.bytes
    }
}
