//! The same of the earlier format.

use slatedb_block::{BlockBuilderV1, BlockIterator, IterationOrder, Refusal, RowEntry};

pub fn build(rows: &[RowEntry]) -> Vec<u8> {
    build_within(16_384, rows)
}

pub fn build_within(block_size: usize, rows: &[RowEntry]) -> Vec<u8> {
    let mut builder = BlockBuilderV1::new(block_size).unwrap();
    for row in rows {
        assert_eq!(builder.would_fit(row), Ok(true));
        assert_eq!(builder.add(row.clone()), Ok(true));
    }
    builder.build().unwrap()
}

pub fn open(block: &[u8], order: IterationOrder) -> BlockIterator<&[u8]> {
    BlockIterator::new(block, order).unwrap()
}

/// By slatedb's own `next`, until it says that no row is left.
pub fn walk(block: &[u8], order: IterationOrder) -> Result<Vec<RowEntry>, Refusal> {
    let mut iterator = BlockIterator::new(block, order)?;
    let mut rows = Vec::new();
    while let Some(row) = iterator.next()? {
        rows.push(row);
    }
    assert!(iterator.is_empty());
    assert_eq!(iterator.next(), Ok(None));
    Ok(rows)
}
