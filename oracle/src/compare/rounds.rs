//! Rounds of inputs by chance, and the edges by name.
use crate::calls::ROW_WORDS;
use crate::inputs::{self, any_row, below, one_in, pick};
use crate::reading::{self, Op};
use crate::{building, forged, refused, rows, Run};
use model::{INTERVAL_LIMIT, KEY_LIMIT, MOST_RESTARTS};
use slate_oracle::direct::{self, Row};

/// Large enough for what the rounds build.
const ROOM: usize = 6_000;

pub fn round(run: &mut Run) {
    single_rows(run);
    buffers(run);
    if one_in(&mut run.rng, 20) {
        near_the_last_restart(run);
    }
    blocks(run);
    for _ in 0..4 {
        forged::builder(run);
        forged::fit_of_lengths(run);
    }
}

/// The same rows as the builder lays them and as others may, then with damage, with another number for one of them, and with
/// varints that may be padded.
fn blocks(run: &mut Run) {
    let rows = rows(run);
    let keys = keys_of(&rows);
    for block in [built(run, &rows), inputs::crafted_block(&mut run.rng, &rows, false)] {
        good_block(run, &block, &keys);
        damaged_blocks(run, &block, &keys, 2);
    }
    if let Some(rows) = inputs::renumbered(&mut run.rng, &rows) {
        let block = built(run, &rows);
        good_block(run, &block, &keys);
    }
    let padded = inputs::crafted_block(&mut run.rng, &rows, true);
    any_block(run, &padded, &keys);
    damaged_blocks(run, &padded, &keys, 1);
}

/// Rows as the check wants them; seldom with any numbers, or with two of them swapped.
fn rows(run: &mut Run) -> Vec<Row> {
    let count = if one_in(&mut run.rng, 10) { 30 + below(&mut run.rng, 40) } else { 1 + below(&mut run.rng, 12) };
    let mut rows = inputs::sorted_rows(&mut run.rng, count);
    if !one_in(&mut run.rng, 8) {
        inputs::newest_first(&mut run.rng, &mut rows);
    }
    if one_in(&mut run.rng, 8) {
        let (a, b) = (below(&mut run.rng, count), below(&mut run.rng, count));
        rows.swap(a, b);
    }
    rows
}

fn keys_of(rows: &[Row]) -> Vec<Vec<u8>> {
    rows.iter().map(|row| row.key.clone()).collect()
}

fn built(run: &mut Run, rows: &[Row]) -> Vec<u8> {
    let interval = pick(&mut run.rng, &[1, 2, 3, 4, 16, INTERVAL_LIMIT]);
    let mut builder = direct::Builder::new(131_072, interval);
    for row in rows {
        builder.add(row).expect("a good row");
    }
    builder.build().expect("a good block")
}

// ---- rows

fn single_rows(run: &mut Run) {
    for _ in 0..3 {
        let row = any_row(&mut run.rng);
        let shared: usize = pick(&mut run.rng, &[0, 0, 1, 2, 127, 128, 1_024, KEY_LIMIT - 1, KEY_LIMIT, KEY_LIMIT + 1, 9_000]);
        let previous_len = pick(&mut run.rng, &[shared, shared + 1, shared.saturating_sub(1), 0, KEY_LIMIT, 70_000]);
        let size = direct::encode(shared as u32, &row).expect("a size").1;
        let output_len = pick(&mut run.rng, &[size, size + 1, size + 20, size - 1, 0]);
        rows::write_row(run, previous_len, shared, &row, output_len);
        let (mut input, _) = direct::encode(shared as u32, &row).expect("bytes");
        let after = below(&mut run.rng, 3);
        input.extend(run.pattern(after));
        rows::read_row(run, &input, previous_len);
        for _ in 0..4 {
            let damaged = inputs::damaged(&mut run.rng, &input);
            rows::read_row(run, &damaged, previous_len);
        }
    }
}

// ---- builders

/// Lent buffers exactly full, one short and empty; block sizes exact and one short.
fn buffers(run: &mut Run) {
    let count = 1 + below(&mut run.rng, 7);
    let rows: Vec<Row> = (0..count).map(|_| any_row(&mut run.rng)).collect();
    let interval = pick(&mut run.rng, &[1, 1, 2, 3, 16, INTERVAL_LIMIT]);
    let taken: Vec<&Row> = rows.iter().filter(|row| (1..=KEY_LIMIT).contains(&row.key.len()) && row.value.len() <= 65_535).collect();
    // room for all: the Rust reserves as many bytes
    let mut builder = direct::Builder::new(1 << 20, interval);
    let all = taken.iter().filter(|row| builder.add(row) == Ok(true)).count();
    let exact = builder.build().map_or(0, |block| block.len());
    let restarts = all.div_ceil(interval);
    let any_size = below(&mut run.rng, 300);
    let block_size = pick(&mut run.rng, &[exact, exact.saturating_sub(1), exact + 1, any_size, 131_072, 0]).min(131_072);
    let any_len = below(&mut run.rng, exact + 20);
    let data_len = pick(&mut run.rng, &[exact, exact, exact.saturating_sub(1), exact + 9, any_len, 0, exact + 4_000]);
    let restarts_len = pick(&mut run.rng, &[restarts, restarts, restarts.saturating_sub(1), restarts + 3, 0]);
    building::fill(run, block_size, interval, &rows, data_len, restarts_len);
}

/// Data that ends around 65,535, where no restart may lie any more, in a block that has room for more.
fn near_the_last_restart(run: &mut Run) {
    let ends_at = 65_533 + below(&mut run.rng, 6);
    // share, suffix, three bytes of value length, the key and 9
    let first = plain(b"a", ends_at - 15);
    let more = (0..3).map(|_| any_row(&mut run.rng));
    let rows: Vec<Row> = [first].into_iter().chain(more).collect();
    let interval = pick(&mut run.rng, &[1, 2, 3]);
    building::fill(run, 131_072, interval, &rows, 140_000, 4);
}

// ---- blocks

fn targets(run: &mut Run, keys: &[Vec<u8>], count: usize) -> Vec<Vec<u8>> {
    (0..count).map(|_| inputs::target(&mut run.rng, keys)).collect()
}

fn ops(run: &mut Run, keys: &[Vec<u8>], count: usize) -> Vec<Op> {
    (0..count).map(|_| match below(&mut run.rng, 6) {
        0 => Op::Seek(inputs::target(&mut run.rng, keys)),
        1 => Op::IsEmpty,
        _ => Op::Next,
    }).collect()
}

fn good_block(run: &mut Run, block: &[u8], keys: &[Vec<u8>]) {
    let accepted = reading::check(run, block) == 0;
    for order in [0, 1] {
        let mixed = ops(run, keys, 24);
        let rest = vec![Op::Next; keys.len() + 2];
        if accepted {
            reading::walk_accepted(run, "scan (Rust)", block, order, &rest);
            reading::walk_accepted(run, "mixed walk (Rust)", block, order, &mixed);
            let some = below(&mut run.rng, keys.len() + 2) as u64;
            reading::walks_accepted(run, block, order, &[some, keys.len() as u64, u64::MAX]);
        }
        let out_len = pick(&mut run.rng, &[0, 1, 2, 3, 4, 5, 1_024, KEY_LIMIT - 1]);
        reading::walk_any(run, block, order, &mixed, out_len);
        many_rows(run, block, order, keys);
        let (steps, target) = (below(&mut run.rng, keys.len() + 2), inputs::target(&mut run.rng, keys));
        forged::numbers_on_the_way(run, block, order, steps, None);
        forged::numbers_on_the_way(run, block, order, 0, Some(&target));
    }
    if !accepted {
        let targets = targets(run, keys, 4);
        refused::compare(run, block, &targets);
    }
    forge(run, block, keys, 8);
}

/// Many rows in a call from the opening, and from where a seek lands: all of them, and as many as some buffers hold.
fn many_rows(run: &mut Run, block: &[u8], order: u64, keys: &[Vec<u8>]) {
    let Ok(mut cursor) = reading::open(run, block, order) else { return };
    let all: usize = keys.iter().map(Vec::len).sum();
    cursor.next_rows(run, block, all, ROW_WORDS * (keys.len() + 1));
    let target = inputs::target(&mut run.rng, keys);
    cursor.seek(run, block, &target);
    for _ in 0..3 {
        let (keys_len, words) = (below(&mut run.rng, all + 2), below(&mut run.rng, ROW_WORDS * (keys.len() + 2)));
        cursor.next_rows(run, block, keys_len, words);
    }
}

/// The places where the rows of a block start, as far as they can be read.
fn starts(block: &[u8]) -> Vec<usize> {
    let mut starts = vec![0];
    if let Ok(mut cursor) = model::cursor::Cursor::open(block, model::cursor::Order::Ascending) {
        while let Ok(Some(given)) = cursor.next(block, &mut [0; KEY_LIMIT]) {
            starts.push(given.row.next);
        }
    }
    starts
}

fn forge(run: &mut Run, block: &[u8], keys: &[Vec<u8>], times: usize) {
    let starts = starts(block);
    let targets = targets(run, keys, 1);
    forged::cursors(run, block, &starts, &targets, times);
}

fn damaged_blocks(run: &mut Run, block: &[u8], keys: &[Vec<u8>], times: usize) {
    for _ in 0..times {
        let mut damaged = inputs::damaged(&mut run.rng, block);
        if one_in(&mut run.rng, 4) {
            damaged = inputs::damaged(&mut run.rng, &damaged);
        }
        any_block(run, &damaged, keys);
    }
}

fn any_block(run: &mut Run, block: &[u8], keys: &[Vec<u8>]) {
    let accepted = reading::check(run, block) == 0;
    let targets = targets(run, keys, 3);
    for order in [0, 1] {
        let mixed = ops(run, keys, 8);
        if accepted {
            reading::walk_accepted(run, "damage that is accepted (Rust)", block, order, &mixed);
            reading::walks_accepted(run, block, order, &[u64::MAX]);
        } else {
            reading::walk_any(run, block, order, &mixed, KEY_LIMIT);
        }
    }
    if !accepted {
        refused::compare(run, block, &targets);
    }
    forge(run, block, keys, 4);
}

// ---- edges by name

fn plain(key: &[u8], value_len: usize) -> Row {
    Row { key: key.to_vec(), kind: 0, value: vec![b'v'; value_len], seq: 1, expire: None, create: None }
}

pub fn edges(run: &mut Run) {
    case_11(run);
    lengths(run);
    settings(run);
    past_32_bits(run);
    forged::most_restarts(run);
    most_restarts(run);
    most_offsets(run);
    long_block(run);
    cases_1_to_4(run);
}

/// The rows of 01's cases 1 to 4, in block sizes that are just enough for both, and in one byte less, which takes the first alone.
fn cases_1_to_4(run: &mut Run) {
    let rows = [plain(b"a", 0), Row { seq: 2, value: b"x".to_vec(), ..plain(b"ab", 0) }];
    for (size, interval, taken) in [(31, 16, 31), (30, 16, 17), (34, 1, 34), (33, 1, 17)] {
        let block = building::fill(run, size, interval, &rows, ROOM, 4).expect("a block");
        assert_eq!(block.len(), taken, "01's size");
    }
}

/// "A restart at 65,535 is taken; at 65,536 it answers 5."
fn case_11(run: &mut Run) {
    for (first, timed) in [(65_534, false), (65_535, false), (65_536, false), (65_536, true)] {
        // share, suffix, three bytes of value length, the key and 9
        let mut row = plain(b"a", first - 15);
        if timed {
            row = Row { expire: Some(1), ..plain(b"a", first - 23) };
        }
        let rows = [row, plain(b"b", 0), plain(b"c", 1)];
        for interval in [1, 2] {
            if let Some(block) = building::fill(run, 131_072, interval, &rows, 70_000, 4) {
                good_block(run, &block, &keys_of(&rows));
            }
        }
    }
}

/// Keys and values at their limits and one past, alone and as rows of a block.
fn lengths(run: &mut Run) {
    for key in [0, 1, 1_023, 1_024, 1_025, KEY_LIMIT - 1, KEY_LIMIT, KEY_LIMIT + 1] {
        for value in [0, 1, 65_535, 65_536] {
            for kind in [0, 1, 2] {
                let row = Row { kind, ..plain(&vec![b'k'; key], value) };
                rows::write_row(run, 0, 0, &row, 70_000);
                let input = direct::encode(0, &row).expect("bytes").0;
                rows::read_row(run, &input, 0);
                if let Some(block) = building::fill(run, 131_072, 16, &[row], 70_000, 1) {
                    good_block(run, &block, &[vec![b'k'; key]]);
                }
            }
        }
    }
}

fn settings(run: &mut Run) {
    for block_size in [0, 1, 131_071, 131_072, 131_073, 1 << 32, usize::MAX] {
        for interval in [0, 1, 2, 16, INTERVAL_LIMIT - 1, INTERVAL_LIMIT, INTERVAL_LIMIT + 1, (1 << 32) + 1, usize::MAX] {
            building::open(run, block_size, interval);
        }
    }
}

/// As many restarts as a block can have: 13 bytes each up to 65,535, and one of them past. Twenty rows have one key.
fn most_restarts(run: &mut Run) {
    let mut builder = direct::Builder::new(131_072, 1);
    let row = |i: usize| Row { seq: (MOST_RESTARTS - i) as u64, ..plain(&[(i / 20) as u8], 0) };
    let rows: Vec<Row> = (0..MOST_RESTARTS).map(row).collect();
    for row in &rows {
        builder.add(row).expect("13 bytes each");
    }
    let block = builder.build().expect("a block");
    reading::check(run, &block);
    for order in [0, 1] {
        let ops = [Op::Seek(vec![7]), Op::Next, Op::Seek(vec![251]), Op::Next, Op::Seek(vec![252, 1]), Op::Next, Op::IsEmpty];
        reading::walk_accepted(run, "mixed walk (Rust)", &block, order, &ops);
    }
}

/// Lengths that would be small if they were cut to 32 bits: they are refused before.
fn past_32_bits(run: &mut Run) {
    for shared in [1 << 32, (1 << 32) + 1, usize::MAX] {
        for previous_len in [0, 1, 1 << 32, usize::MAX] {
            rows::write_row(run, previous_len, shared, &plain(b"", 0), 40);
            rows::write_row(run, previous_len, shared, &plain(b"a", 0), 40);
        }
    }
    for previous_len in [1 << 32, usize::MAX] {
        rows::read_row(run, &[1, 0, 0, 0, 0, 0, 0, 0, 0, 0, 1, 0], previous_len);
    }
}

/// As many offsets as the count can say, one byte apart: such a block opens, and few of its restarts can be read.
fn most_offsets(run: &mut Run) {
    let row = direct::encode(0, &plain(b"a", 0)).expect("bytes").0;
    let data = row.iter().copied().cycle().take(65_536);
    let offsets = (0..u16::MAX).chain([u16::MAX]).flat_map(u16::to_be_bytes);
    let block: Vec<u8> = data.chain(offsets).collect();
    let keys = [b"a".to_vec()];
    reading::check(run, &block);
    for order in [0, 1] {
        let mixed = ops(run, &keys, 12);
        reading::walk_any(run, &block, order, &mixed, KEY_LIMIT);
    }
}

/// Longer than any block that a builder gives: there is no upper length on reading. And a target longer than any key.
fn long_block(run: &mut Run) {
    let mut builder = direct::Builder::new(1 << 20, 16);
    let keys = [b"a".to_vec(), b"ab".to_vec(), b"b".to_vec(), vec![b'b'; KEY_LIMIT]];
    for key in &keys {
        builder.add(&plain(key, 65_535)).expect("a good row");
    }
    let block = builder.build().expect("a block");
    good_block(run, &block, &keys);
    for order in [0, 1] {
        let ops = [Op::Seek(vec![b'a'; 100_000]), Op::Next, Op::Seek(vec![b'b'; KEY_LIMIT + 1]), Op::Next, Op::Next];
        reading::walk_accepted(run, "mixed walk (Rust)", &block, order, &ops);
    }
}
