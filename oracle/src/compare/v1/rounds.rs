//! Rounds of inputs by chance for the earlier format, and the edges by name.
use super::exhaustive::any_block;
use super::{building, inputs, reading, rows};
use crate::exhaustive::plain;
use crate::inputs::{any_key, any_row, below, good_row, newest_first, one_in, pick, renumbered, sorted_rows, target};
use crate::reading::Op;
use crate::Run;
use model::v1::builder::Builder;
use model::v1::MOST_ROWS;
use model::{Key, KEY_LIMIT};
use slate_oracle::direct::Row;
use slate_oracle::older;

pub fn round(run: &mut Run) {
    single_rows(run);
    buffers(run);
    if one_in(&mut run.rng, 20) {
        near_the_last_offset(run);
    }
    blocks(run);
    (0..4).for_each(|_| forged_builder(run));
}

// ---- rows

fn single_rows(run: &mut Run) {
    for _ in 0..3 {
        let row = any_row(&mut run.rng);
        let shared: usize = pick(&mut run.rng, &[0, 0, 1, 2, 255, 256, KEY_LIMIT - 1, KEY_LIMIT, KEY_LIMIT + 1, 65_534, 65_535, 65_536]);
        let first_len = pick(&mut run.rng, &[shared, shared + 1, shared.saturating_sub(1), 0, KEY_LIMIT, 70_000]);
        let size = super::tables::size_of(&row, row.key.len());
        let output_len = pick(&mut run.rng, &[size, size + 1, size + 20, size - 1, 0]);
        rows::write_row(run, first_len, shared, &row, output_len);
        let Ok((mut input, _)) = older::encode(shared, &row) else { continue };
        let after = below(&mut run.rng, 3);
        input.extend(run.pattern(after));
        rows::read_row(run, &input, first_len);
        for _ in 0..4 {
            let damaged = crate::inputs::damaged(&mut run.rng, &input);
            rows::read_row(run, &damaged, first_len);
        }
    }
}

// ---- builders

/// Lent buffers exactly full, one short and empty; block sizes exact and one short.
fn buffers(run: &mut Run) {
    let count = 1 + below(&mut run.rng, 7);
    let rows: Vec<Row> = (0..count).map(|_| any_row(&mut run.rng)).collect();
    let taken: Vec<&Row> = rows.iter().filter(|row| (1..=KEY_LIMIT).contains(&row.key.len()) && row.value.len() <= 65_535).collect();
    let mut builder = older::builder(1 << 20);
    let all = taken.iter().filter(|row| builder.add(row) == Ok(true)).count();
    let exact = builder.build().map_or(0, |block| block.len());
    let any_size = below(&mut run.rng, 300);
    // the last row's own offset is not counted: two bytes less do too
    let sizes = [exact, exact.saturating_sub(1), exact.saturating_sub(2), exact.saturating_sub(3), any_size, 131_072, 0];
    let block_size = pick(&mut run.rng, &sizes).min(131_072);
    let any_len = below(&mut run.rng, exact + 20);
    let data_len = pick(&mut run.rng, &[exact, exact, exact.saturating_sub(1), exact + 9, any_len, 0, exact + 4_000]);
    let offsets_len = pick(&mut run.rng, &[all, all, all.saturating_sub(1), all + 3, 0]);
    building::fill(run, block_size, &rows, data_len, offsets_len);
}

/// Data that ends around 65,535, where no row may start any more, in a block that has room for more; and the block that the Rust
/// builds of the same rows, whose offsets are cut.
fn near_the_last_offset(run: &mut Run) {
    let ends_at = 65_533 + below(&mut run.rng, 6);
    let first = of_size(b"a", ends_at);
    let more = (0..3).map(|_| any_row(&mut run.rng));
    let rows: Vec<Row> = [first].into_iter().chain(more).collect();
    building::fill(run, 131_072, &rows, 140_000, 4);
    let mut builder = older::builder(1 << 20);
    let taken = rows.iter().filter(|row| builder.add(row) == Ok(true)).count();
    let block = builder.build().expect("a block");
    let targets: Vec<Vec<u8>> = rows.iter().take(taken).map(|row| row.key.clone()).collect();
    any_block(run, &block, &targets, 3);
}

/// A first row that takes so many bytes.
fn of_size(key: &[u8], size: usize) -> Row {
    Row { value: vec![b'v'; size - 17 - key.len()], ..plain(key, 9) }
}

fn around(run: &mut Run, most: usize) -> usize {
    let any = run.rng.next() as usize;
    let inside = any % most.saturating_add(1).max(1);
    pick(&mut run.rng, &[0, 1, most, most.wrapping_add(1), most.wrapping_sub(1), inside, inside, inside, any])
}

fn forged_builder(run: &mut Run) {
    let data_len = pick(&mut run.rng, &[0, 12, 13, 14, 17, 40, 100, 1_000, 70_000]);
    let offsets_len = pick(&mut run.rng, &[0, 1, 2, 5, 50, 6_000]);
    let block_size = if one_in(&mut run.rng, 4) { around(run, 131_072) } else { pick(&mut run.rng, &[100, 1_000, 131_072]) };
    let used = around(run, data_len);
    let rows = if one_in(&mut run.rng, 4) { around(run, offsets_len) } else { around(run, (used / 13).min(5_042)) };
    let key = any_key(&mut run.rng);
    let mut first_key = Key::of(&key);
    if one_in(&mut run.rng, 8) {
        first_key.len = around(run, KEY_LIMIT);
    }
    let key = any_key(&mut run.rng);
    let row = good_row(&mut run.rng, key);
    building::forged(run, &Builder { block_size, used, rows, first_key }, data_len, offsets_len, &row);
}

// ---- blocks

/// The same rows as the builder lays them and as others may, then with damage, with another number for one of them, and loosely.
fn blocks(run: &mut Run) {
    let rows = rows_in_order(run);
    let keys: Vec<Vec<u8>> = rows.iter().map(|row| row.key.clone()).collect();
    for block in [built(&rows), inputs::crafted_block(&mut run.rng, &rows, false)] {
        good_block(run, &block, &keys);
        damaged_blocks(run, &block, &keys, 1);
    }
    if let Some(rows) = renumbered(&mut run.rng, &rows) {
        good_block(run, &built(&rows), &keys);
    }
    let loose = inputs::crafted_block(&mut run.rng, &rows, true);
    let targets = targets(run, &keys, 3);
    any_block(run, &loose, &targets, 2);
}

fn rows_in_order(run: &mut Run) -> Vec<Row> {
    let count = if one_in(&mut run.rng, 10) { 30 + below(&mut run.rng, 40) } else { 1 + below(&mut run.rng, 12) };
    let mut rows = sorted_rows(&mut run.rng, count);
    if !one_in(&mut run.rng, 8) {
        newest_first(&mut run.rng, &mut rows);
    }
    if one_in(&mut run.rng, 8) {
        let (a, b) = (below(&mut run.rng, count), below(&mut run.rng, count));
        rows.swap(a, b);
    }
    rows
}

fn built(rows: &[Row]) -> Vec<u8> {
    let mut builder = older::builder(1 << 20);
    for row in rows {
        builder.add(row).expect("a good row");
    }
    builder.build().expect("a good block")
}

fn targets(run: &mut Run, keys: &[Vec<u8>], count: usize) -> Vec<Vec<u8>> {
    (0..count).map(|_| target(&mut run.rng, keys)).collect()
}

fn mixed(run: &mut Run, keys: &[Vec<u8>], count: usize) -> Vec<Op> {
    (0..count).map(|_| match below(&mut run.rng, 6) {
        0 => Op::Seek(target(&mut run.rng, keys)),
        1 => Op::IsEmpty,
        _ => Op::Next,
    }).collect()
}

fn good_block(run: &mut Run, block: &[u8], keys: &[Vec<u8>]) {
    let accepted = reading::check(run, block);
    for order in reading::ORDERS {
        reading::walk(run, "scan (Rust)", block, accepted, order, &vec![Op::Next; keys.len() + 2]);
        let ops = mixed(run, keys, 24);
        reading::walk(run, "mixed walk (Rust)", block, accepted, order, &ops);
        let out_len = pick(&mut run.rng, &[0, 1, 2, 3, 4, 5, 1_024, KEY_LIMIT - 1]);
        reading::walk_with_short_buffers(run, block, accepted, order, keys.len().min(6), out_len);
        let (passed, target) = (around(run, keys.len()), target(&mut run.rng, keys));
        reading::forged(run, block, accepted, order, passed, &target);
    }
}

fn damaged_blocks(run: &mut Run, block: &[u8], keys: &[Vec<u8>], times: usize) {
    for _ in 0..times {
        let mut damaged = inputs::damaged(&mut run.rng, block);
        if one_in(&mut run.rng, 4) {
            damaged = inputs::damaged(&mut run.rng, &damaged);
        }
        let targets = targets(run, keys, 3);
        any_block(run, &damaged, &targets, 2);
    }
}

// ---- edges by name

pub fn edges(run: &mut Run) {
    for block_size in [0, 1, 131_071, 131_072, 131_073, 1 << 32, usize::MAX] {
        building::open(run, block_size);
    }
    one_short(run);
    last_offsets(run);
    lengths(run);
    most_rows(run);
    most_offsets(run);
}

/// "a" and "ab" in a block size that is just enough for both, and in one byte less, which takes the first alone. The second row's own
/// offset is not counted.
fn one_short(run: &mut Run) {
    let rows = [plain(b"a", 1), Row { value: b"x".to_vec(), ..plain(b"ab", 2) }];
    for (size, taken) in [(41, 43), (40, 22), (0, 22)] {
        let block = building::fill(run, size, &rows, 100, 4).expect("a block");
        assert_eq!(block.len(), taken, "the readings' size");
    }
}

/// A row at 65,535 is taken, at 65,536 it is 5; and the blocks that the Rust builds of these rows: the offset is cut to 0, and it
/// gives the first row twice.
fn last_offsets(run: &mut Run) {
    for first in [65_534, 65_535, 65_536, 65_537] {
        let rows = [of_size(b"a", first), plain(b"b", 1), plain(b"c", 1)];
        let keys: Vec<Vec<u8>> = rows.iter().map(|row| row.key.clone()).collect();
        if let Some(block) = building::fill(run, 131_072, &rows, 70_000, 4) {
            good_block(run, &block, &keys);
        }
        any_block(run, &built(&rows), &keys, 4);
    }
}

/// Keys and values at their limits and one past, alone and as rows of a block; in a builder also keys that the Rust asserts against.
fn lengths(run: &mut Run) {
    for key in [0, 1, 1_024, KEY_LIMIT - 1, KEY_LIMIT, KEY_LIMIT + 1, 65_535, 65_536] {
        for (value, kind) in [0, 1, 65_535, 65_536].iter().flat_map(|value| [0, 1, 2].map(|kind| (*value, kind))) {
            let row = Row { kind, value: vec![b'v'; value], ..plain(&vec![b'k'; key], 1) };
            rows::write_row(run, 0, 0, &row, 70_000);
            if let Ok((input, _)) = older::encode(0, &row) {
                rows::read_row(run, &input, 0);
                let targets = [vec![], vec![b'k'; key], vec![b'l']];
                any_block(run, &inputs::block_of(&input, &[0]), &targets, 2);
            }
            building::fill(run, 131_072, &[row.clone(), plain(b"k", 1), row], 300_000, 3);
        }
    }
}

/// As many rows as a block can have: the first takes 14 bytes, the others 13, and the last one starts at 65,534.
fn most_rows(run: &mut Run) {
    let mut builder = older::builder(1 << 20);
    for i in 0..MOST_ROWS as u64 {
        builder.add(&Row { kind: 1, ..plain(b"a", MOST_ROWS as u64 - i) }).expect("a row");
    }
    let block = builder.build().expect("a block");
    let accepted = reading::check(run, &block);
    assert!(accepted, "5,042 rows");
    for order in reading::ORDERS {
        let seeks: Vec<Op> = ["a", "", "b", "aa"].iter().flat_map(|target| [Op::Seek(target.as_bytes().to_vec()), Op::Next, Op::IsEmpty]).collect();
        reading::walk(run, "mixed walk (Rust)", &block, accepted, order, &seeks);
        reading::walk(run, "scan (Rust)", &block, accepted, order, &vec![Op::Next; 40]);
        for passed in [MOST_ROWS - 1, MOST_ROWS, MOST_ROWS + 1] {
            reading::forged(run, &block, accepted, order, passed, b"a");
        }
    }
}

/// As many offsets as the count can say, one byte apart: such a block opens, and few of its rows can be read.
fn most_offsets(run: &mut Run) {
    let row = inputs::row_bytes(&plain(b"a", 0), 0);
    let data: Vec<u8> = row.iter().copied().cycle().take(65_536).collect();
    let offsets: Vec<usize> = (0..65_535).collect();
    any_block(run, &inputs::block_of(&data, &offsets), &[b"a".to_vec(), b"b".to_vec()], 2);
}
