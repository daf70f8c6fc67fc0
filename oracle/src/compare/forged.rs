//! States and words that no call gave: the library and the model only.
use crate::building::{self, scramble};
use crate::calls::{bytes_of, bytes_of_halves, words_of, Arg, Function, CURSOR_WORDS, DONE_MARK, NUMBER, ROW_WORDS, SINGLE_WORDS};
use crate::inputs::{any_key, below, good_row, one_in, pick, short_key};
use crate::reading::{self, Arrays, Op};
use crate::{regions, rows, Run};
use model::{INTERVAL_LIMIT, KEY_LIMIT, MOST_RESTARTS};
use slate_oracle::direct::Row;

/// A number at an edge of 0..=most, one off, or any.
fn around(run: &mut Run, most: u64) -> u64 {
    let any = run.rng.next();
    let inside = any % most.saturating_add(1).max(1);
    pick(&mut run.rng, &[0, 1, most, most.wrapping_add(1), most.wrapping_sub(1), inside, inside, inside, any])
}

fn key_bytes(run: &mut Run, len: u64) -> Vec<u8> {
    let mut key = short_key(&mut run.rng).into_iter().cycle().take(KEY_LIMIT).collect::<Vec<u8>>();
    scramble(run, &mut key, len);
    key
}

/// A length that is seldom another than it must be.
fn length(run: &mut Run, right: usize) -> usize {
    if one_in(&mut run.rng, 12) { pick(&mut run.rng, &[0, right - 1, right + 1, 2 * right, SINGLE_WORDS, ROW_WORDS]) } else { right }
}

fn resized(run: &mut Run, bytes: &[u8], right: usize, unit: usize) -> Vec<u8> {
    let len = length(run, right) * unit;
    bytes.iter().copied().cycle().take(len).collect()
}

// ---- cursors

/// Cursors of any words on this block, whose rows start at these places.
pub fn cursors(run: &mut Run, block: &[u8], starts: &[usize], targets: &[Vec<u8>], times: usize) {
    for _ in 0..times {
        let mut cursor = cursor(run, block, starts);
        let op = pick(&mut run.rng, &[Op::Next, Op::Next, Op::Next, Op::IsEmpty, Op::Seek(pick_target(targets))]);
        let out_len = pick(&mut run.rng, &[0, 1, 2, 5, KEY_LIMIT]);
        if one_in(&mut run.rng, 6) {
            wrong_words(run, block, &cursor, out_len);
        } else {
            let words = below(&mut run.rng, 5 * ROW_WORDS);
            cursor.next_rows(run, block, 2 * out_len, words);
            cursor.apply(run, block, &op, out_len);
        }
    }
}

fn pick_target(targets: &[Vec<u8>]) -> Vec<u8> {
    targets.first().cloned().unwrap_or_default()
}

/// Numbers for a cursor at this place, the one that the tables count first: then its neighbours, none, a twelfth of the bytes
/// passed and one more, and huge ones, of which 12 times are no more than 64 bits can say, more, or small again.
pub fn numbers(block: &[u8], region: u64, at: u64) -> Vec<u64> {
    let known = usize::try_from(region).ok().and_then(|region| regions::region_of(block, region));
    let (right, passed) = known.map_or((0, at), |region| (region.ended_by(at as usize) as u64, at.saturating_sub(region.start as u64)));
    let twelfth = passed / 12;
    let wrapping = 1 << 62 | right;
    let mut numbers = vec![right];
    for number in [right.saturating_sub(1), right + 1, 0, twelfth, twelfth + 1, wrapping, u64::MAX / 12 + 1, u64::MAX] {
        if !numbers.contains(&number) {
            numbers.push(number);
        }
    }
    numbers
}

fn cursor(run: &mut Run, block: &[u8], starts: &[usize]) -> Arrays {
    let count = block.len().checked_sub(2).map_or(0, |at| u16::from_be_bytes([block[at], block[at + 1]])) as u64;
    let start = if starts.is_empty() { 0 } else { pick(&mut run.rng, starts) as u64 };
    let anywhere = around(run, block.len() as u64);
    let any = run.rng.next();
    const LIMIT: u64 = KEY_LIMIT as u64;
    let key_len = pick(&mut run.rng, &[0, 0, 1, 2, 5, LIMIT - 1, LIMIT, LIMIT + 1, any]);
    let region = if one_in(&mut run.rng, 4) { around(run, count) } else { below(&mut run.rng, count.max(1) as usize) as u64 };
    let at = if one_in(&mut run.rng, 3) { anywhere } else { start };
    let numbers = numbers(block, region, at);
    let number = if one_in(&mut run.rng, 3) { pick(&mut run.rng, &numbers) } else { numbers[0] };
    let mut words = [run.rng.next() % 2, region, at, key_len, one_in(&mut run.rng, 12) as u64, number];
    if one_in(&mut run.rng, 15) {
        // right, were it cut to 32 bits
        words[pick(&mut run.rng, &[1, 2, 3, NUMBER])] |= 1 << 32;
    }
    Arrays { cursor: bytes_of(&words), key: key_bytes(run, key_len) }
}

/// A cursor that was opened and stepped so often, or sought with, and then given every such number: one step, and steps that count
/// on from it.
pub fn numbers_on_the_way(run: &mut Run, block: &[u8], order: u64, steps: usize, target: Option<&[u8]>) {
    let Ok(mut cursor) = reading::open(run, block, order) else { return };
    if let Some(target) = target {
        cursor.seek(run, block, target);
    }
    for _ in 0..steps {
        cursor.next(run, block, KEY_LIMIT);
    }
    let mut words = words_of(&cursor.cursor);
    for number in numbers(block, words[1], words[2]) {
        words[NUMBER] = number;
        let mut forged = Arrays { cursor: bytes_of(&words), ..cursor.clone() };
        forged.next_rows(run, block, KEY_LIMIT, 3 * ROW_WORDS);
        forged.next(run, block, KEY_LIMIT);
        forged.is_empty(run, block);
    }
}

/// Wrong numbers of words and key bytes, and words that stand for no case: 254.
fn wrong_words(run: &mut Run, block: &[u8], cursor: &Arrays, out_len: usize) {
    let mut words = words_of(&cursor.cursor);
    let any = run.rng.next();
    let place = pick(&mut run.rng, &[0, DONE_MARK]);
    words[place] = pick(&mut run.rng, &[0, 1, 2, 3, 256, u64::MAX, any]);
    let words = resized(run, &bytes_of(&words), CURSOR_WORDS, 8);
    let key = resized(run, &cursor.key, KEY_LIMIT, 1);
    let row_words = length(run, ROW_WORDS) * 8;
    let (out, row) = (run.pattern(out_len), run.pattern(row_words));
    let block = Arg::Read(block.to_vec());
    let lent = |bytes: &[u8]| Arg::Written(bytes.to_vec());
    let args = vec![block.clone(), lent(&words), lent(&key), lent(&out), lent(&row)];
    run.call("words that are no state", Function::Next, args.clone());
    run.call("words that are no state", Function::NextByValue, args.clone());
    run.call("words that are no state", Function::NextRows, [&args[..], &[lent(&bytes_of(&[1]))]].concat());
    run.call("words that are no state", Function::Seek, vec![block.clone(), Arg::Read(out), lent(&words), lent(&key), lent(&bytes_of(&[1]))]);
    run.call("words that are no state", Function::IsEmpty, vec![block.clone(), Arg::Read(words.clone()), lent(&bytes_of(&[1]))]);
    let order = pick(&mut run.rng, &[0, 1, 2, any]);
    run.call("words that are no state", Function::Open, vec![block.clone(), Arg::Number(order), lent(&words)]);
    let sums_words = length(run, 2) * 8;
    let sums = run.pattern(sums_words);
    for function in [Function::WalkByValue, Function::WalkInPlace] {
        run.call("words that are no state", function, vec![block.clone(), Arg::Number(order), Arg::Number(any), lent(&sums)]);
    }
}

// ---- builders

/// A builder of any words, near those that could be, and every call on it.
pub fn builder(run: &mut Run) {
    let data_len = pick(&mut run.rng, &[0, 12, 13, 17, 40, 100, 1_000]);
    let restarts_len = pick(&mut run.rng, &[0, 1, 2, 5, 50]);
    let words = builder_words(run, data_len, restarts_len);
    let key = key_bytes(run, words[5]);
    let arrays = building::Arrays { builder: bytes_of(&words), key, data: run.pattern(data_len), restarts: run.pattern(2 * restarts_len) };
    let key = any_key(&mut run.rng);
    let row = good_row(&mut run.rng, key);
    builder_calls(run, arrays, &row);
}

fn builder_words(run: &mut Run, data_len: usize, restarts_len: usize) -> [u64; 6] {
    let mut words = [131_072, 1, 0, 0, 0, 0];
    words[0] = if one_in(&mut run.rng, 4) { around(run, 131_072) } else { pick(&mut run.rng, &[100, 1_000, 131_072]) };
    words[1] = if one_in(&mut run.rng, 6) { around(run, INTERVAL_LIMIT as u64) } else { pick(&mut run.rng, &[1, 2, 3, 16]) };
    words[2] = around(run, data_len as u64);
    words[4] = around(run, words[2] / 12);
    let right = if words[1] == 0 { 0 } else { words[4].div_ceil(words[1]) };
    words[3] = if one_in(&mut run.rng, 4) { around(run, restarts_len as u64) } else { right };
    words[5] = around(run, KEY_LIMIT as u64);
    words
}

fn builder_calls(run: &mut Run, mut arrays: building::Arrays, row: &Row) {
    if one_in(&mut run.rng, 6) {
        wrong_builder_words(run, &arrays, row);
    }
    arrays.is_empty(run);
    arrays.would_fit(run, row);
    let _ = arrays.build(run);
    if arrays.add(run, row) == 0 {
        // what came back is a state to go on with
        arrays.would_fit(run, row);
        let _ = arrays.build(run);
    }
}

/// The fit question takes lengths alone: these may be any numbers.
pub fn fit_of_lengths(run: &mut Run) {
    let (data_len, restarts_len) = (around(run, u64::MAX), around(run, MOST_RESTARTS as u64));
    let used = around(run, data_len);
    let rows = around(run, used / 12);
    let interval = pick(&mut run.rng, &[1, 2, INTERVAL_LIMIT as u64]);
    let words = [131_072, interval, used, rows.div_ceil(interval), rows, 3];
    let key = key_bytes(run, 3);
    let state = [Arg::Read(bytes_of(&words)), Arg::Read(key), Arg::Number(data_len), Arg::Number(restarts_len)];
    let row = [Arg::Read(b"ab".to_vec()), Arg::Read(Vec::new()), Arg::Read(bytes_of(&[0, 1, 0, 0, 0, 0]))];
    run.call("fit question of a forged builder", Function::WouldFit, [&state[..], &row].concat());
}

fn wrong_builder_words(run: &mut Run, arrays: &building::Arrays, row: &Row) {
    let kind = "words that are no state";
    let builder = resized(run, &arrays.builder, 6, 8);
    let key = resized(run, &arrays.key, KEY_LIMIT, 1);
    let fields = fields_words(run, row);
    let row_args = [Arg::Read(row.key.clone()), Arg::Read(row.value.clone()), Arg::Read(fields.clone())];
    let lent = |bytes: &[u8]| Arg::Written(bytes.to_vec());
    let read = |bytes: &[u8]| Arg::Read(bytes.to_vec());
    let state = [lent(&builder), lent(&key), lent(&arrays.data), lent(&arrays.restarts)];
    for function in [Function::Add, Function::AddByValue] {
        run.call(kind, function, [&state[..], &row_args].concat());
    }
    let numbers = [Arg::Number(arrays.data.len() as u64), Arg::Number(arrays.restarts.len() as u64 / 2)];
    run.call(kind, Function::WouldFit, [&[read(&builder), read(&key)][..], &numbers, &row_args].concat());
    run.call(kind, Function::BuilderIsEmpty, vec![read(&builder), lent(&bytes_of(&[4]))]);
    run.call(kind, Function::Build, vec![read(&builder), lent(&arrays.data), read(&arrays.restarts), lent(&bytes_of(&[4]))]);
    run.call(kind, Function::BuilderNew, [&[lent(&builder)][..], &numbers].concat());
    let output = run.pattern(200);
    let head = [lent(&output), Arg::Number(3), Arg::Number(2)];
    run.call(kind, Function::Encode, [&head[..], &row_args, &[lent(&bytes_of(&[4]))]].concat());
    let row_words = length(run, SINGLE_WORDS) * 8;
    let words = run.pattern(row_words);
    run.call(kind, Function::Decode, vec![read(&arrays.data), Arg::Number(3), lent(&words)]);
}

/// Fields with a word that has no meaning, or too many or few of them.
fn fields_words(run: &mut Run, row: &Row) -> Vec<u8> {
    let mut words = crate::calls::fields_words(&rows::fields(row));
    let any = run.rng.next();
    let place = pick(&mut run.rng, &[0, 2, 4]);
    words[place] = pick(&mut run.rng, &[0, 1, 2, 3, 256, u64::MAX, any]);
    resized(run, &bytes_of(&words), 6, 8)
}

/// A state that passes 18 with as many restarts as a block can have: add takes one more, and what comes back passes no longer.
pub fn most_restarts(run: &mut Run) {
    let restarts = MOST_RESTARTS as u64;
    let used = 12 * restarts;
    let words = [131_072, 1, used, restarts, restarts, 1];
    let key = key_bytes(run, 1);
    let halves: Vec<u16> = (0..MOST_RESTARTS as u16 + 1).collect();
    let arrays = building::Arrays { builder: bytes_of(&words), key, data: run.pattern(used as usize + 12_000), restarts: bytes_of_halves(&halves) };
    let row = Row { key: b"a".to_vec(), kind: 0, value: Vec::new(), seq: 1, expire: None, create: None };
    builder_calls(run, arrays, &row);
}
