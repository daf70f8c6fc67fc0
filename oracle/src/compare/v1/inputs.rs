//! Blocks of the earlier format that no builder writes: shares shorter than they could be, gaps, overruns.
use crate::inputs::{below, one_in, pick};
use slate_oracle::direct::Row;
use slate_oracle::older;
use slate_oracle::rng::Rng;

/// The bytes of a row that shares so much.
pub fn row_bytes(row: &Row, shared: usize) -> Vec<u8> {
    let suffix = Row { key: row.key[shared..].to_vec(), ..row.clone() };
    older::encode(shared, &suffix).expect("a good row").0
}

/// Rows at these offsets.
pub fn block_of(data: &[u8], offsets: &[usize]) -> Vec<u8> {
    let numbers = offsets.iter().copied().chain([offsets.len()]).flat_map(|number| (number as u16).to_be_bytes());
    data.iter().copied().chain(numbers).collect()
}

/// Good rows whose shares may be shorter than they could be: such a block is accepted if its rows are in order. With `loose`, one
/// row in eight has some bytes after it, or starts some bytes before its offset, or after.
pub fn crafted_block(rng: &mut Rng, rows: &[Row], loose: bool) -> Vec<u8> {
    let (mut data, mut offsets) = (Vec::new(), Vec::new());
    for row in rows {
        let first: &[u8] = if offsets.is_empty() { &[] } else { &rows[0].key };
        let common = first.iter().zip(&row.key).take_while(|(a, b)| a == b).count();
        let shared = if one_in(rng, 3) { below(rng, common + 1) } else { common };
        offsets.push(data.len());
        data.extend(row_bytes(row, shared));
        if loose && one_in(rng, 8) {
            loosen(rng, &mut data, offsets.last_mut().expect("an offset"));
        }
    }
    block_of(&data, &offsets)
}

fn loosen(rng: &mut Rng, data: &mut Vec<u8>, offset: &mut usize) {
    let some = 1 + below(rng, 3);
    match below(rng, 3) {
        0 => data.extend(rng.bytes(some)),
        1 => *offset = offset.saturating_sub(some),
        _ => *offset += some,
    }
}

/// Damage that this format is open to: a length of a row set to an edge. Else any damage.
pub fn damaged(rng: &mut Rng, block: &[u8]) -> Vec<u8> {
    let Some(opened) = super::tables::block(block).filter(|block| !block.offsets.is_empty() && one_in(rng, 3)) else {
        return crate::inputs::damaged(rng, block);
    };
    let at = pick(rng, &opened.offsets) + 2 * below(rng, 2);
    let mut damaged = block.to_vec();
    if at + 1 < opened.data.len() {
        let number: u16 = pick(rng, &[0, 1, 2, 3, 255, 256, 4_095, 4_096, 4_097, 65_535]);
        damaged[at..at + 2].copy_from_slice(&number.to_be_bytes());
    }
    damaged
}
