//! Inputs by chance, around every limit; blocks as they are built, blocks that no builder writes, and damage to both.
use model::KEY_LIMIT;
use slate_oracle::direct::Row;
use slate_oracle::rng::Rng;
use std::collections::BTreeSet;

pub fn below(rng: &mut Rng, bound: usize) -> usize {
    (rng.next() % bound as u64) as usize
}

pub fn one_in(rng: &mut Rng, bound: usize) -> bool {
    below(rng, bound) == 0
}

pub fn pick<T: Clone>(rng: &mut Rng, from: &[T]) -> T {
    from[below(rng, from.len())].clone()
}

/// Few letters, so that keys share bytes, are equal, or lie next to each other.
fn letter(rng: &mut Rng) -> u8 {
    pick(rng, &[b'a', b'a', b'b', b'b', b'c', 0, 255])
}

pub fn short_key(rng: &mut Rng) -> Vec<u8> {
    (0..1 + below(rng, 5)).map(|_| letter(rng)).collect()
}

/// A key of exactly this length; long ones share nearly all their bytes.
pub fn key_of_length(rng: &mut Rng, length: usize) -> Vec<u8> {
    let mut key = vec![b'k'; length];
    let changed = below(rng, 4).min(length);
    for byte in &mut key[length - changed..] {
        *byte = letter(rng);
    }
    key
}

/// A key within the limits.
pub fn good_key(rng: &mut Rng) -> Vec<u8> {
    if one_in(rng, 12) {
        let length = pick(rng, &[1, 126, 127, 128, 129, 255, 256, 1_023, 1_024, 1_025, KEY_LIMIT - 1, KEY_LIMIT]);
        key_of_length(rng, length)
    } else {
        short_key(rng)
    }
}

/// A key of any length around the limits.
pub fn any_key(rng: &mut Rng) -> Vec<u8> {
    let length = pick(rng, &[0, 0, 1, 2, 1_023, 1_024, 1_025, KEY_LIMIT - 2, KEY_LIMIT - 1, KEY_LIMIT, KEY_LIMIT + 1, KEY_LIMIT + 2, 9_000]);
    if one_in(rng, 3) { key_of_length(rng, length) } else { good_key(rng) }
}

fn time(rng: &mut Rng) -> Option<i64> {
    let any = rng.next() as i64;
    pick(rng, &[None, None, None, None, Some(0), Some(-1), Some(i64::MIN), Some(i64::MAX), Some(any)])
}

/// A sequence number, often one with an edge beside it.
fn seq(rng: &mut Rng) -> u64 {
    let any = rng.next();
    pick(rng, &[0, 1, 2, 255, 256, u64::MAX, 1 << 63, any])
}

pub fn row_of(rng: &mut Rng, key: Vec<u8>, value_length: usize) -> Row {
    let kind = pick(rng, &[0, 0, 0, 1, 2]);
    let seq = seq(rng);
    let value = rng.bytes(value_length);
    Row { key, kind, value, seq, expire: time(rng), create: time(rng) }
}

/// A row within the limits.
pub fn good_row(rng: &mut Rng, key: Vec<u8>) -> Row {
    let length = if one_in(rng, 10) { pick(rng, &[16, 127, 128, 129, 300]) } else { below(rng, 3) };
    row_of(rng, key, length)
}

/// A row of any lengths around the limits, seldom with a large value.
pub fn any_row(rng: &mut Rng) -> Row {
    let key = any_key(rng);
    if one_in(rng, 40) {
        let length = pick(rng, &[65_534, 65_535, 65_536, 65_537, 70_000]);
        row_of(rng, key, length)
    } else {
        good_row(rng, key)
    }
}

/// Rows of rising keys, few or many of them equal, with any numbers.
pub fn sorted_rows(rng: &mut Rng, count: usize) -> Vec<Row> {
    let equal = pick(rng, &[0, 2, 6]);
    let mut keys: Vec<Vec<u8>> = Vec::new();
    while keys.len() < count {
        let again = keys.last().filter(|_| below(rng, 8) < equal).cloned();
        keys.push(again.unwrap_or_else(|| good_key(rng)));
    }
    keys.sort();
    keys.into_iter().map(|key| good_row(rng, key)).collect()
}

/// Numbers rows of equal keys anew, the newest first: so the check wants them.
pub fn newest_first(rng: &mut Rng, rows: &mut [Row]) {
    for equal in rows.chunk_by_mut(|one, next| one.key == next.key) {
        let mut numbers = BTreeSet::new();
        while numbers.len() < equal.len() {
            numbers.insert(seq(rng));
        }
        equal.iter_mut().zip(numbers.into_iter().rev()).for_each(|(row, number)| row.seq = number);
    }
}

/// The same rows, but for the number of one whose key is that of the row before: that row's number, one beside it, an extreme or any.
/// None: no two such rows.
pub fn renumbered(rng: &mut Rng, rows: &[Row]) -> Option<Vec<Row>> {
    let places: Vec<usize> = (1..rows.len()).filter(|&at| rows[at].key == rows[at - 1].key).collect();
    let at = if places.is_empty() { return None } else { pick(rng, &places) };
    let (mut rows, before, any) = (rows.to_vec(), rows[at - 1].seq, rng.next());
    rows[at].seq = pick(rng, &[before, before.wrapping_add(1), before.wrapping_sub(1), before.wrapping_sub(1), 0, u64::MAX, any]);
    Some(rows)
}

/// A target near the block's keys: one of them, with a byte more, less or changed, or any.
pub fn target(rng: &mut Rng, keys: &[Vec<u8>]) -> Vec<u8> {
    let mut target = if keys.is_empty() { Vec::new() } else { pick(rng, keys) };
    match below(rng, 8) {
        0 => target.push(letter(rng)),
        1 => drop(target.pop()),
        2 => target = short_key(rng),
        3 => target = if one_in(rng, 4) { vec![255; 1_500] } else { Vec::new() },
        4 => if let Some(last) = target.last_mut() { *last = last.wrapping_add(1) },
        _ => (),
    }
    target
}

// ---- blocks that no builder writes

/// A varint; where it may be padded, seldom with more bytes than it needs, so that rows before it are read.
fn spelled(rng: &mut Rng, number: usize, padded: bool) -> Vec<u8> {
    let mut bytes = model::varint::write(number as u32);
    let mut more = padded && one_in(rng, 24);
    while more && bytes.len() < 5 {
        *bytes.last_mut().expect("a byte") |= 0x80;
        bytes.push(0);
        more = one_in(rng, 2);
    }
    bytes
}

fn crafted_row(rng: &mut Rng, row: &Row, shared: usize, padded: bool) -> Vec<u8> {
    let mut bytes = Vec::new();
    for number in [shared, row.key.len() - shared, row.value.len()] {
        bytes.extend(spelled(rng, number, padded));
    }
    bytes.extend(&row.key[shared..]);
    // a tombstone's value bytes are written here too: a reader drops them
    bytes.extend(&row.value);
    bytes.extend(row.seq.to_be_bytes());
    bytes.push([0, 1, 8][row.kind as usize] | (row.expire.is_some() as u8) << 1 | (row.create.is_some() as u8) << 2);
    for time in [row.expire, row.create].into_iter().flatten() {
        bytes.extend(time.to_be_bytes());
    }
    bytes
}

/// Good rows with restarts anywhere, shares shorter than they could be and tombstones with value bytes; but for varints that may be padded.
pub fn crafted_block(rng: &mut Rng, rows: &[Row], padded: bool) -> Vec<u8> {
    let (mut data, mut offsets) = (Vec::new(), Vec::new());
    let mut previous: &[u8] = &[];
    for row in rows {
        let restart = data.is_empty() || data.len() < 65_536 && one_in(rng, 3);
        let common = previous.iter().zip(&row.key).take_while(|(a, b)| a == b).count();
        let shared = match restart {
            true => 0,
            false if one_in(rng, 3) => below(rng, common + 1),
            false => common,
        };
        if restart {
            offsets.push(data.len() as u16);
        }
        data.extend(crafted_row(rng, row, shared, padded));
        previous = &row.key;
    }
    let count = offsets.len() as u16;
    data.extend(offsets.iter().chain([&count]).flat_map(|offset| offset.to_be_bytes()));
    data
}

// ---- damage

/// One piece of damage: a flipped bit, a changed, lost or doubled byte, a cut, or a moved offset or count.
pub fn damaged(rng: &mut Rng, block: &[u8]) -> Vec<u8> {
    let mut block = block.to_vec();
    if block.is_empty() {
        return block;
    }
    let at = below(rng, block.len());
    match below(rng, 9) {
        0 | 1 => block[at] ^= 1 << below(rng, 8),
        2 => block[at] = pick(rng, &[0, 1, 9, 15, 16, 127, 128, 255]),
        3 => drop(block.remove(at)),
        4 => block.insert(at, block[at]),
        5 => block.truncate(at),
        6 => drop(block.drain(..at)),
        _ => move_offset(rng, &mut block),
    }
    block
}

/// Sets one of the trailer's numbers a little off, to an edge, or to that of another place.
fn move_offset(rng: &mut Rng, block: &mut [u8]) {
    let Some(count_at) = block.len().checked_sub(2) else { return };
    let count = u16::from_be_bytes([block[count_at], block[count_at + 1]]) as usize;
    let places = (count + 1).min(block.len() / 2);
    let at = block.len() - 2 * (1 + below(rng, places));
    let old = u16::from_be_bytes([block[at], block[at + 1]]);
    let any = below(rng, block.len()) as u16;
    let new = pick(rng, &[0, 1, old.wrapping_add(1), old.wrapping_sub(1), old.wrapping_add(13), any, block.len() as u16, u16::MAX]);
    block[at..at + 2].copy_from_slice(&new.to_be_bytes());
}
