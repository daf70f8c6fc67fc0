//! All small inputs: varints at every edge, all blocks of up to four rows over few keys, equal keys with all of few numbers, a few
//! small blocks with every cursor, with keys read at every place and with each byte damaged.
use crate::calls::{bytes_of, ROW_WORDS};
use crate::reading::{self, Arrays, Op};
use crate::{building, forged, refused, rows, Run};
use model::row::Place;
use model::KEY_LIMIT;
use slate_oracle::direct::{self, Row};

pub const LETTERS: [u8; 2] = [b'a', b'b'];
const LONGEST_KEY: usize = 2;
const LONGEST_TARGET: usize = 3;
const MOST_ROWS: usize = 4;
const INTERVALS: [usize; 3] = [1, 2, 3];

pub fn all(run: &mut Run) {
    varints(run);
    wrong_words(run);
    for block in small_blocks() {
        every_key(run, &block);
        every_cursor(run, &block);
        every_damage(run, &block);
    }
    moved_offsets(run);
    let keys: Vec<Vec<u8>> = words(LONGEST_KEY).into_iter().filter(|word| !word.is_empty()).collect();
    let targets = words(LONGEST_TARGET);
    let mut blocks = vec![Vec::new()];
    for _ in 0..MOST_ROWS {
        blocks = blocks.iter().flat_map(|block: &Vec<Vec<u8>>| keys.iter().map(|key| [&block[..], &[key.clone()]].concat())).collect();
        for block in &blocks {
            for rows in numbered(block) {
                INTERVALS.iter().for_each(|interval| one_block(run, *interval, &rows, &targets));
            }
        }
    }
    equal_keys(run);
}

pub fn plain(key: &[u8], seq: u64) -> Row {
    Row { key: key.to_vec(), kind: 0, value: Vec::new(), seq, expire: None, create: None }
}

/// Rows of these keys with falling numbers; where the keys never fall and some are equal, also with rising ones, and with one for all.
pub fn numbered(keys: &[Vec<u8>]) -> Vec<Vec<Row>> {
    let count = keys.len() as u64;
    let mut numbers: Vec<Vec<u64>> = vec![(0..count).rev().collect()];
    if keys.is_sorted() && keys.windows(2).any(|pair| pair[0] == pair[1]) {
        numbers.extend([(0..count).collect(), vec![7; keys.len()]]);
    }
    let rows = |numbers: Vec<u64>| keys.iter().zip(numbers).map(|(key, seq)| plain(key, seq)).collect();
    numbers.into_iter().map(rows).collect()
}

/// Up to three rows over two keys that never fall, with all of these numbers, with a restart at each place and at none.
fn equal_keys(run: &mut Run) {
    const NUMBERS: [u64; 4] = [0, 1, 1 << 63, u64::MAX];
    let choices: Vec<Row> = LETTERS.iter().flat_map(|letter| NUMBERS.map(|number| plain(&[*letter], number))).collect();
    let targets = words(1);
    let mut blocks: Vec<Vec<Row>> = vec![Vec::new()];
    for _ in 0..3 {
        let longer = blocks.iter().flat_map(|rows| choices.iter().map(|row| [&rows[..], &[row.clone()]].concat()));
        blocks = longer.filter(|rows| rows.is_sorted_by_key(|row| row.key[0])).collect();
        for rows in &blocks {
            INTERVALS.iter().for_each(|interval| one_block(run, *interval, rows, &targets));
        }
    }
}

/// All words over the letters, the empty one too.
pub fn words(longest: usize) -> Vec<Vec<u8>> {
    let mut all: Vec<Vec<u8>> = vec![Vec::new()];
    let mut from = 0;
    for _ in 0..longest {
        let to = all.len();
        for i in from..to {
            let word = all[i].clone();
            all.extend(LETTERS.map(|letter| [&word[..], &[letter]].concat()));
        }
        from = to;
    }
    all
}

fn one_block(run: &mut Run, interval: usize, offered: &[Row], targets: &[Vec<u8>]) {
    let Some(block) = building::fill(run, 4096, interval, offered, 100, 4) else { return };
    if reading::check(run, &block) == 0 {
        accepted(run, &block, offered.len(), targets);
    } else {
        refused::compare(run, &block, targets);
        for order in [0, 1] {
            let ops: Vec<Op> = targets.iter().flat_map(|target| [Op::Seek(target.clone()), Op::Next]).collect();
            reading::walk_any(run, &block, order, &ops, 2);
        }
    }
}

// ---- small blocks

/// The row of key "a" with this number, which is 1 in 01's case 1.
const fn row_a(seq: u8) -> [u8; 13] {
    [0, 1, 0, 0x61, 0, 0, 0, 0, 0, 0, 0, seq, 0]
}

/// The blocks of 01's cases 2, 4 and 8, and one with times, a tombstone and a merge.
fn small_blocks() -> Vec<Vec<u8>> {
    let row = |key: &[u8], kind, value: &[u8], time| Row { kind, value: value.to_vec(), expire: time, create: time, ..plain(key, 2) };
    let case_2 = [row(b"a", 0, b"", None), row(b"ab", 0, b"x", None)];
    let case_8 = [(b"a", 4), (b"b", 3), (b"b", 2), (b"b", 1), (b"c", 0)].map(|(key, seq)| plain(key, seq));
    let kinds = [row(b"a", 1, b"", Some(-1)), row(b"aa", 2, b"xy", None), row(b"ab", 0, b"z", Some(5))];
    [(16, &case_2[..]), (1, &case_2), (2, &case_8), (2, &kinds), (16, &kinds)].map(|(interval, rows)| built(interval, rows)).to_vec()
}

fn built(interval: usize, rows: &[Row]) -> Vec<u8> {
    let mut builder = direct::Builder::new(4096, interval);
    for row in rows {
        assert_eq!(builder.add(row), Ok(true));
    }
    builder.build().expect("a block")
}

/// The key alone of a row at every place, with region ends and lengths of the key before around what the bytes there ask for.
fn every_key(run: &mut Run, block: &[u8]) {
    for at in (0..block.len() + 2).chain([usize::MAX]) {
        let after = |bytes| at.saturating_add(bytes);
        for region_end in [0, at, after(3), after(4), after(5), block.len(), usize::MAX] {
            for (previous_len, restart) in [(0, 0), (1, 0), (2, 0), (usize::MAX, 0), (0, 1), (1, 1), (usize::MAX, 1)] {
                let place = Place { data: block, at, previous_len, restart: restart == 1, region_end };
                rows::read_key_at(run, &place, restart, 3);
            }
        }
    }
}

/// Words of parts that are not as many as they must be, or stand for no case: 254 before all else.
fn wrong_words(run: &mut Run) {
    for input in [&row_a(1)[..], &[]] {
        for words in 0..5 {
            rows::read_varint_at(run, input, 0, words);
            for restart in [0, 1, 2, 256, 1 << 32, u64::MAX] {
                let place = Place { data: input, at: 0, previous_len: 0, restart: restart == 1, region_end: input.len() };
                rows::read_key_at(run, &place, restart, words);
            }
        }
    }
}

/// Every direction, region, position and mark, some keys and numbers: with the true number all of them, with others a few.
fn every_cursor(run: &mut Run, block: &[u8]) {
    const LIMIT: u64 = KEY_LIMIT as u64;
    let count = u16::from_be_bytes([block[block.len() - 2], block[block.len() - 1]]) as u64;
    for (at, region) in (0..block.len() as u64 + 2).flat_map(|at| (0..=count).map(move |region| (at, region))) {
        let numbers = forged::numbers(block, region, at);
        let cursor = |order, key_len, done, number| Arrays { cursor: bytes_of(&[order, region, at, key_len, done, number]), key: vec![b'a'; KEY_LIMIT] };
        for order in [0, 1] {
            for (key_len, done) in [(0, 0), (1, 0), (2, 0), (LIMIT, 0), (LIMIT + 1, 0), (0, 1), (LIMIT + 1, 1)] {
                every_call(run, block, cursor(order, key_len, done, numbers[0]));
            }
            for (number, (key_len, done)) in numbers[1..].iter().flat_map(|number| [(0, 0), (1, 0), (0, 1)].map(|rest| (*number, rest))) {
                let forged = cursor(order, key_len, done, number);
                forged.clone().next(run, block, 2);
                forged.next_rows(run, block, 5, 3 * ROW_WORDS);
                forged.is_empty(run, block);
            }
        }
    }
}

fn every_call(run: &mut Run, block: &[u8], cursor: Arrays) {
    for out_len in [1, 2] {
        cursor.clone().next(run, block, out_len);
    }
    for (keys_len, words) in [(0, ROW_WORDS), (1, ROW_WORDS - 1), (3, 2 * ROW_WORDS), (5, 3 * ROW_WORDS), (9, 6 * ROW_WORDS + 2)] {
        cursor.next_rows(run, block, keys_len, words);
    }
    cursor.is_empty(run, block);
}

/// Each byte set to what means something somewhere, and each cut at the front and at the end.
fn every_damage(run: &mut Run, block: &[u8]) {
    const BYTES: [u8; 16] = [0, 1, 2, 3, 4, 8, 9, 12, 13, 14, 15, 16, 26, 127, 128, 255];
    let mut blocks: Vec<Vec<u8>> = (0..=block.len()).flat_map(|at| [block[..at].to_vec(), block[at..].to_vec()]).collect();
    for (at, byte) in (0..block.len()).flat_map(|at| BYTES.map(|byte| (at, byte))) {
        let mut damaged = block.to_vec();
        damaged[at] = byte;
        blocks.push(damaged);
    }
    let targets = ["", "a", "ab", "b", "bb", "c"].map(|target| target.as_bytes().to_vec());
    for block in blocks {
        any_block(run, &block, &targets);
    }
}

/// Three rows of 13 bytes, in order, with all offsets of interest: rising or not, at rows and inside them.
fn moved_offsets(run: &mut Run) {
    const OFFSETS: [u8; 6] = [0, 1, 13, 26, 38, 39];
    let targets = [vec![], b"a".to_vec(), b"b".to_vec()];
    for a in OFFSETS {
        for (b, c) in OFFSETS.into_iter().flat_map(|b| OFFSETS.map(|c| (b, c))) {
            let block = [&row_a(3)[..], &row_a(2), &row_a(1), &[0, a, 0, b, 0, c, 0, 3]].concat();
            any_block(run, &block, &targets);
            for at in [0, 1, 12, 13, 14, 26, 39, 40] {
                for (order, region) in [0, 1].into_iter().flat_map(|order| (0..=3).map(move |region| (order, region))) {
                    for number in forged::numbers(&block, region, at) {
                        let words = bytes_of(&[order, region, at, 1, 0, number]);
                        Arrays { cursor: words, key: vec![b'a'; KEY_LIMIT] }.next(run, &block, 1);
                    }
                }
            }
        }
    }
}

/// A block of any bytes, checked, scanned and sought in, both ways.
fn any_block(run: &mut Run, block: &[u8], targets: &[Vec<u8>]) {
    let accepted = reading::check(run, block) == 0;
    let seeks = targets.iter().flat_map(|target| [Op::Seek(target.clone()), Op::Next]);
    let ops: Vec<Op> = vec![Op::Next; 6].into_iter().chain(seeks).collect();
    for order in [0, 1] {
        if accepted {
            reading::walk_accepted(run, "damage that is accepted (Rust)", block, order, &ops);
            reading::walks_accepted(run, block, order, &[u64::MAX]);
        } else {
            reading::walk_any(run, block, order, &ops, KEY_LIMIT);
        }
    }
    if !accepted {
        refused::compare(run, block, targets);
    }
}

/// Scans and seeks to the end and one step on, asking all along whether the cursor is empty.
fn accepted(run: &mut Run, block: &[u8], rows: usize, targets: &[Vec<u8>]) {
    for order in [0, 1] {
        let rest: Vec<Op> = (0..rows + 2).flat_map(|_| [Op::IsEmpty, Op::Next]).collect();
        reading::walk_accepted(run, "scan (Rust)", block, order, &rest);
        let limits: Vec<u64> = (0..=rows as u64 + 1).chain([u64::MAX]).collect();
        reading::walks_accepted(run, block, order, &limits);
        reading::rows_in_short_buffers(run, block, order, rows, LONGEST_KEY * rows);
        for target in targets {
            let ops = [&[Op::Seek(target.clone())][..], &rest].concat();
            reading::walk_accepted(run, "seek (Rust)", block, order, &ops);
        }
    }
}

fn varints(run: &mut Run) {
    for width in 0..=32u32 {
        let edge = 1u64 << width;
        for number in edge.saturating_sub(2)..edge + 2 {
            if let Ok(number) = u32::try_from(number) {
                (0..=6).for_each(|output_len| rows::write_varint(run, number, output_len));
            }
        }
    }
    const LAST: [u8; 10] = [0, 1, 15, 16, 127, 128, 129, 143, 144, 255];
    const GOING_ON: [u8; 2] = [128, 255];
    rows::read_varint(run, &[]);
    let mut starts = vec![Vec::new()];
    for _ in 0..6 {
        for input in starts.iter().flat_map(|start: &Vec<u8>| LAST.map(|last| [&start[..], &[last]].concat())) {
            rows::read_varint(run, &input);
            varint_at_a_place(run, &input);
            varint_in_a_row(run, &input);
        }
        starts = starts.iter().flat_map(|start| GOING_ON.map(|byte| [&start[..], &[byte]].concat())).collect();
    }
}

/// With other bytes before it, one place late, at the input's end, past it, and where a place can't be.
fn varint_at_a_place(run: &mut Run, spelled: &[u8]) {
    let input = [&[128, 1], spelled].concat();
    let end = input.len() as u64;
    for at in [2, 3, end, end + 1, 1 << 32, u64::MAX] {
        rows::read_varint_at(run, &input, at, 2);
    }
}

/// Each of a row's three numbers spelled so.
fn varint_in_a_row(run: &mut Run, spelled: &[u8]) {
    let rest = [0x61, 0, 0, 0, 0, 0, 0, 0, 1, 0];
    for place in 0..3 {
        let mut numbers = [vec![0], vec![1], vec![0]];
        numbers[place] = spelled.to_vec();
        rows::read_row(run, &[&numbers.concat()[..], &rest].concat(), 1_000);
    }
}
