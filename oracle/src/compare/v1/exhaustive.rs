//! All small inputs of the earlier format: rows cut and damaged everywhere, all blocks of up to four rows over few keys, equal keys
//! with all of few numbers, all kinds with all times, small blocks with every cursor and with each byte damaged.
use super::{building, inputs, reading, rows, tables};
use crate::exhaustive::{numbered, plain, words, LETTERS};
use crate::reading::Op;
use crate::Run;
use model::v1::row::Place;
use slate_oracle::direct::Row;
use slate_oracle::older;

const LONGEST_KEY: usize = 2;
const LONGEST_TARGET: usize = 3;
const MOST_ROWS: usize = 4;
/// What means something somewhere.
const BYTES: [u8; 18] = [0, 1, 2, 3, 4, 8, 9, 12, 13, 14, 15, 16, 17, 18, 26, 127, 128, 255];

pub fn all(run: &mut Run) {
    every_row(run);
    for block in small_blocks() {
        every_place(run, &block);
        every_cursor(run, &block);
        every_damage(run, &block);
    }
    moved_offsets(run);
    let keys: Vec<Vec<u8>> = words(LONGEST_KEY).into_iter().filter(|word| !word.is_empty()).collect();
    let targets = words(LONGEST_TARGET);
    let mut blocks = vec![Vec::new()];
    for _ in 0..MOST_ROWS {
        blocks = blocks.iter().flat_map(|block: &Vec<Vec<u8>>| keys.iter().map(|key| [&block[..], &[key.clone()]].concat())).collect();
        for block in &blocks {
            numbered(block).iter().for_each(|rows| one_block(run, rows, &targets));
        }
    }
    equal_keys(run);
    kinds(run);
}

fn one_block(run: &mut Run, offered: &[Row], targets: &[Vec<u8>]) {
    let Some(block) = building::fill(run, 4_096, offered, 200, 4) else { return };
    let accepted = reading::check(run, &block);
    let rest: Vec<Op> = (0..offered.len() + 2).flat_map(|_| [Op::IsEmpty, Op::Next]).collect();
    for order in reading::ORDERS {
        reading::walk(run, "scan (Rust)", &block, accepted, order, &rest);
        for target in targets {
            reading::walk(run, "seek (Rust)", &block, accepted, order, &[&[Op::Seek(target.clone())][..], &rest].concat());
        }
        reading::walk_with_short_buffers(run, &block, accepted, order, offered.len() + 1, LONGEST_KEY - 1);
    }
}

/// Up to three rows over two keys that never fall, with all of these numbers.
fn equal_keys(run: &mut Run) {
    const NUMBERS: [u64; 4] = [0, 1, 1 << 63, u64::MAX];
    let choices: Vec<Row> = LETTERS.iter().flat_map(|letter| NUMBERS.map(|number| plain(&[*letter], number))).collect();
    let targets = words(1);
    let mut blocks: Vec<Vec<Row>> = vec![Vec::new()];
    for _ in 0..3 {
        let longer = blocks.iter().flat_map(|rows| choices.iter().map(|row| [&rows[..], &[row.clone()]].concat()));
        blocks = longer.filter(|rows| rows.is_sorted_by_key(|row| row.key[0])).collect();
        blocks.iter().for_each(|rows| one_block(run, rows, &targets));
    }
}

/// The three kinds, with and without a value and each time.
fn all_kinds(key: &[u8], seq: u64) -> Vec<Row> {
    let mut all = Vec::new();
    for kind in 0..3 {
        for (expire, create) in [(None, None), (Some(-1), None), (None, Some(5)), (Some(i64::MAX), Some(i64::MIN))] {
            all.extend([&b""[..], b"xy"].map(|value| Row { kind, value: value.to_vec(), expire, create, ..plain(key, seq) }));
        }
    }
    all
}

/// Two rows, the second of which shares nothing, a part, or all, of all kinds.
fn kinds(run: &mut Run) {
    let targets = [vec![], b"ab".to_vec(), b"b".to_vec()];
    for first in all_kinds(b"ab", 2) {
        for second in [&b"ab"[..], b"ac", b"b"].iter().flat_map(|key| all_kinds(key, 1)) {
            one_block(run, &[first.clone(), second], &targets);
        }
    }
}

// ---- single rows

/// Rows of all kinds, written into every room up to theirs and one more, and read whole, cut everywhere and with each byte changed.
fn every_row(run: &mut Run) {
    for row in all_kinds(b"ab", 3) {
        for (first_len, shared) in [(0, 0), (1, 0), (1, 1), (0, 1), (2, 2), (4_096, 4_094), (4_096, 4_095), (70_000, 65_533), (70_000, 65_534)] {
            let size = tables::size_of(&row, row.key.len());
            (0..=size + 1).for_each(|output_len| rows::write_row(run, first_len, shared, &row, output_len));
            let Ok((bytes, _)) = older::encode(shared, &row) else { continue };
            (0..=bytes.len()).for_each(|cut| rows::read_row(run, &bytes[..cut], first_len));
            rows::read_row(run, &[&bytes[..], b"more"].concat(), first_len);
        }
        let bytes = older::encode(1, &row).expect("bytes").0;
        for (at, byte) in (0..bytes.len()).flat_map(|at| BYTES.map(|byte| (at, byte))) {
            let mut damaged = bytes.clone();
            damaged[at] = byte;
            [0, 1, usize::MAX].iter().for_each(|first_len| rows::read_row(run, &damaged, *first_len));
        }
    }
    every_flag(run);
}

/// All 256 flags, with as many bytes after them as the longest row needs, and with none.
fn every_flag(run: &mut Run) {
    for flags in 0..=255 {
        let head = [&[0, 0, 0, 1, b'a', 0, 0, 0, 0, 0, 0, 0, 1, flags][..]].concat();
        rows::read_row(run, &head, 0);
        rows::read_row(run, &[&head[..], &[0; 20]].concat(), 0);
    }
}

// ---- small blocks

fn small_blocks() -> Vec<Vec<u8>> {
    let timed = |key: &[u8], kind, value: &[u8], time| Row { kind, value: value.to_vec(), expire: time, create: time, ..plain(key, 2) };
    let three = [plain(b"a", 2), Row { value: b"x".to_vec(), ..plain(b"ab", 2) }, plain(b"b", 2)];
    let kinds = [timed(b"ab", 1, b"", Some(-1)), timed(b"abc", 2, b"xy", None), timed(b"b", 0, b"z", Some(5))];
    let equal = [plain(b"b", 3), plain(b"b", 2), Row { kind: 1, ..plain(b"b", 1) }, plain(b"c", 0)];
    let one = [Row { kind: 1, ..plain(b"a", 1) }];
    [&three[..], &kinds, &equal, &one].map(built).to_vec()
}

fn built(rows: &[Row]) -> Vec<u8> {
    let mut builder = older::builder(4_096);
    rows.iter().for_each(|row| assert_eq!(builder.add(row), Ok(true)));
    builder.build().expect("a block")
}

/// Rows and keys alone read at every place, with next offsets and first keys around what the bytes there ask for.
fn every_place(run: &mut Run, block: &[u8]) {
    for at in (0..block.len() + 2).chain([usize::MAX]) {
        for next in [None, Some(0), Some(at), Some(at.saturating_add(5)), Some(at.saturating_add(18)), Some(block.len()), Some(usize::MAX)] {
            for (first_len, row_0) in [(0, false), (1, false), (2, false), (usize::MAX, false), (0, true), (2, true)] {
                let place = Place { data: block, at, first_len, row_0, next };
                rows::read_key(run, &place);
                rows::read_row_at(run, &place);
            }
        }
    }
}

/// Counts around and above the count of rows.
fn every_cursor(run: &mut Run, block: &[u8]) {
    let count = tables::block(block).expect("a block").offsets.len();
    for order in reading::ORDERS {
        for passed in (0..count + 3).chain([255, 256, 65_535, 65_536, 1 << 32, (1 << 32) + 1, usize::MAX - 1, usize::MAX]) {
            for target in ["", "a", "b", "c"] {
                reading::forged(run, block, true, order, passed, target.as_bytes());
            }
        }
    }
}

/// Each byte set to what means something somewhere, and each cut at the front and at the end.
fn every_damage(run: &mut Run, block: &[u8]) {
    let mut blocks: Vec<Vec<u8>> = (0..=block.len()).flat_map(|at| [block[..at].to_vec(), block[at..].to_vec()]).collect();
    for (at, byte) in (0..block.len()).flat_map(|at| BYTES.map(|byte| (at, byte))) {
        let mut damaged = block.to_vec();
        damaged[at] = byte;
        blocks.push(damaged);
    }
    let targets = ["", "a", "ab", "b", "bb", "c"].map(|target| target.as_bytes().to_vec());
    for block in blocks {
        any_block(run, &block, &targets, 5);
    }
}

/// Three rows with all offsets of interest: rising or not, at rows and inside them.
fn moved_offsets(run: &mut Run) {
    const OFFSETS: [usize; 7] = [0, 1, 18, 19, 36, 53, 54];
    let rows: Vec<u8> = [3, 2, 1].iter().flat_map(|seq| inputs::row_bytes(&plain(b"a", *seq), 0)).collect();
    let targets = [vec![], b"a".to_vec(), b"b".to_vec()];
    for a in OFFSETS {
        for (b, c) in OFFSETS.into_iter().flat_map(|b| OFFSETS.map(|c| (b, c))) {
            any_block(run, &inputs::block_of(&rows, &[a, b, c]), &targets, 5);
        }
    }
}

/// A block of any bytes: checked, scanned from every count, and sought in, both ways.
pub fn any_block(run: &mut Run, block: &[u8], targets: &[Vec<u8>], counts: usize) {
    let accepted = reading::check(run, block);
    let kind = if accepted { "damage that is accepted (Rust)" } else { "a refused block (Rust)" };
    let seeks: Vec<Op> = targets.iter().flat_map(|target| [Op::Seek(target.clone()), Op::Next]).collect();
    for order in reading::ORDERS {
        reading::walk(run, kind, block, accepted, order, &[Op::Next, Op::IsEmpty, Op::Next, Op::Next, Op::Next, Op::IsEmpty, Op::Next]);
        reading::walk(run, kind, block, accepted, order, &seeks);
        for passed in 0..counts {
            reading::forged(run, block, accepted, order, passed, &targets[passed % targets.len()]);
        }
    }
}
