//! 01's cases 1 to 11, and edges of 01 and 02 that are easily got wrong. Expected values come from these and the readings, none
//! from the model itself.
use crate::block::{Block, Region};
use crate::builder::Builder;
use crate::check::check;
use crate::cursor::{Cursor, Given, Order, Order::*};
use crate::row::{self, Fields, Kind, Place};
use crate::seek::Sought;
use crate::{varint, Key, Refusal, INTERVAL_LIMIT, KEY_LIMIT};
use std::collections::BTreeSet;

/// Case 1's row.
const R: [u8; 13] = [0, 1, 0, 0x61, 0, 0, 0, 0, 0, 0, 0, 1, 0];
/// Case 2's second row.
const AB: [u8; 14] = [1, 1, 1, 0x62, 0x78, 0, 0, 0, 0, 0, 0, 0, 2, 0];
/// The same row as a restart (case 4).
const AB_RESTART: [u8; 15] = [0, 2, 1, 0x61, 0x62, 0x78, 0, 0, 0, 0, 0, 0, 0, 2, 0];

fn plain(seq: u64) -> Fields {
    Fields { kind: Kind::Value, seq, expire: None, create: None }
}

fn of_kind(kind: Kind) -> Fields {
    Fields { kind, ..plain(1) }
}

/// Rows, then the offsets, then the count.
fn block_of(rows: &[&[u8]], offsets: &[u16]) -> Vec<u8> {
    let mut block = rows.concat();
    for number in offsets.iter().chain([&(offsets.len() as u16)]) {
        block.extend(number.to_be_bytes());
    }
    block
}

/// Case 1's row with this sequence number.
fn numbered(seq: u8) -> [u8; 13] {
    let mut row = R;
    row[11] = seq;
    row
}

fn off(x: u16, y: u16, z: u16) -> Vec<u8> {
    block_of(&[&numbered(3), &numbered(2), &R], &[x, y, z])
}

fn b2() -> Vec<u8> {
    block_of(&[&R, &AB], &[0])
}

fn b4() -> Vec<u8> {
    block_of(&[&R, &AB_RESTART], &[0, 13])
}

/// A block built of these keys and sequence numbers, with empty values.
fn built_of(interval: usize, rows: &[(&[u8], u64)]) -> Vec<u8> {
    let (mut data, mut restarts) = (vec![0; 200_000], vec![0; 10_000]);
    let mut builder = Builder::with_interval(131_072, interval).unwrap();
    for (key, seq) in rows {
        builder.add(&mut data, &mut restarts, key, b"", &plain(*seq)).unwrap();
    }
    let end = builder.build(&mut data, &restarts).unwrap();
    data.truncate(end);
    data
}

/// A row's seq is how many rows stand after it, so that equal keys are in order.
fn built(interval: usize, keys: &[&[u8]]) -> Vec<u8> {
    let seqs = (0..keys.len() as u64).rev();
    built_of(interval, &keys.iter().copied().zip(seqs).collect::<Vec<_>>())
}

/// Rows in order: by key, and "equal keys stand with the larger sequence number first".
fn in_order<K: Ord>(rows: &[(K, u64)]) -> bool {
    rows.windows(2).all(|pair| pair[0].0 < pair[1].0 || pair[0].0 == pair[1].0 && pair[0].1 > pair[1].1)
}

fn cursor(order: Order, region: usize, at: usize, number: usize, key: &[u8]) -> Cursor {
    Cursor { order, region, at, number, key: Key::of(key), done: false }
}

/// One step with a big key buffer: the key given, or "done". A refused step must change nothing.
fn step(cursor: &mut Cursor, block: &[u8]) -> Result<Option<Vec<u8>>, Refusal> {
    let (mut out, before) = ([0xEE; 2 * KEY_LIMIT], cursor.clone());
    let answer = cursor.next(block, &mut out);
    if !matches!(answer, Ok(Some(_))) {
        assert!(out.iter().all(|byte| *byte == 0xEE));
    }
    if answer.is_err() {
        assert_eq!(*cursor, before);
    }
    let end = out.iter().position(|byte| *byte == 0xEE).unwrap();
    Ok(answer?.map(|_| out[..end].to_vec()))
}

fn step_from(block: &[u8], order: Order, region: usize, at: usize, number: usize, key: &[u8]) -> Result<Option<Vec<u8>>, Refusal> {
    step(&mut cursor(order, region, at, number, key), block)
}

fn gives(key: &[u8]) -> Result<Option<Vec<u8>>, Refusal> {
    Ok(Some(key.to_vec()))
}

/// The seqs of all rows, in the order they come.
fn walk(block: &[u8], mut cursor: Cursor) -> Result<Vec<u64>, Refusal> {
    let (mut seqs, mut out) = (Vec::new(), [0; KEY_LIMIT]);
    while let Some(given) = cursor.next(block, &mut out)? {
        seqs.push(given.row.fields.seq);
    }
    Ok(seqs)
}

/// The keys and seqs of all rows.
fn entries(block: &[u8]) -> Vec<(Vec<u8>, u64)> {
    let mut cursor = Cursor::open(block, Ascending).unwrap();
    let (mut entries, mut out) = (Vec::new(), [0; KEY_LIMIT]);
    while let Some(Given { row, .. }) = cursor.next(block, &mut out).unwrap() {
        entries.push((out[..row.shared + row.suffix_len].to_vec(), row.fields.seq));
    }
    entries
}

/// The seq of the row a seek lands on, and the number of restart keys read.
fn seek(block: &[u8], order: Order, target: &[u8]) -> Result<(Option<u64>, usize), Refusal> {
    // A seek starts afresh: everything but the direction is forged.
    let mut cursor = Cursor { order, region: usize::MAX, at: usize::MAX, number: usize::MAX, key: Key::of(&[7; 3_000]), done: true };
    let before = cursor.clone();
    let sought = cursor.seek(block, target).inspect_err(|_| assert_eq!(cursor, before))?;
    let given = cursor.next(block, &mut [0; KEY_LIMIT])?;
    assert_eq!(given.is_some(), sought.found);
    Ok((given.map(|given| given.row.fields.seq), sought.reads))
}

// ---- the eleven cases

#[test]
fn case_1_one_row() {
    let mut output = [0xEE; 20];
    assert_eq!(row::encode(&mut output, 0, 0, b"a", b"", &plain(1)), Ok(13));
    assert_eq!(output[..13], R);
    assert_eq!(output[13..], [0xEE; 7]);
    assert_eq!(row::size(0, 1, b"", &plain(1)), Ok(13));
    let row = row::decode(&R, 0).unwrap();
    assert_eq!((row.start, row.next, row.shared, row.suffix_at, row.suffix_len), (0, 13, 0, 3, 1));
    assert_eq!((row.value_at, row.value_len, row.fields), (4, 0, plain(1)));
}

#[test]
fn case_2_whole_block() {
    let (mut data, mut restarts) = ([0xEE; 40], [0xEEEE; 3]);
    let mut builder = Builder::new(4_096).unwrap();
    builder.add(&mut data, &mut restarts, b"a", b"", &plain(1)).unwrap();
    assert_eq!((&data[..13], &data[13..]), (&R[..], &[0xEE; 27][..]));
    builder.add(&mut data, &mut restarts, b"ab", b"x", &plain(2)).unwrap();
    assert_eq!((&data[13..27], &data[27..]), (&AB[..], &[0xEE; 13][..]));
    let before = builder.clone();
    assert_eq!(builder.build(&mut data, &restarts), Ok(31));
    assert_eq!(builder, before);
    assert_eq!((&data[..31], &data[31..]), (&b2()[..], &[0xEE; 9][..]));
    assert_eq!(restarts, [0, 0xEEEE, 0xEEEE]);
    assert_eq!(data[27..31], [0, 0, 0, 1]);
    assert_eq!(check(&b2()), Ok(2));
}

#[test]
fn case_3_block_size() {
    for (block_size, answer) in [(31, Ok(())), (30, Err(4))] {
        let (mut data, mut restarts) = ([0; 40], [0; 3]);
        let mut builder = Builder::new(block_size).unwrap();
        builder.add(&mut data, &mut restarts, b"a", b"", &plain(1)).unwrap();
        let before = (builder.clone(), data, restarts);
        assert_eq!(builder.would_fit(40, 3, b"ab", b"x", &plain(2)), answer.map(|()| 14));
        assert_eq!(builder.add(&mut data, &mut restarts, b"ab", b"x", &plain(2)), answer);
        assert_eq!((builder, data, restarts) == before, answer.is_err());
    }
}

#[test]
fn case_4_interval_1() {
    let (mut data, mut restarts) = ([0; 40], [0; 3]);
    let mut builder = Builder::with_interval(4_096, 1).unwrap();
    builder.add(&mut data, &mut restarts, b"a", b"", &plain(1)).unwrap();
    assert_eq!(builder.would_fit(40, 3, b"ab", b"x", &plain(2)), Ok(15));
    builder.add(&mut data, &mut restarts, b"ab", b"x", &plain(2)).unwrap();
    assert_eq!(builder.build(&mut data, &restarts), Ok(34));
    assert_eq!(data[..34], b4());
}

#[test]
fn case_5_varints() {
    let spelled: [(u32, &[u8]); 4] = [(127, &[0x7F]), (128, &[0x80, 1]), (16_383, &[0xFF, 0x7F]), (16_384, &[0x80, 0x80, 1])];
    for (number, bytes) in spelled {
        assert_eq!(varint::write(number), bytes);
        assert_eq!(varint::len(number), bytes.len());
        assert_eq!(varint::read(bytes, 0), Ok((number, bytes.len())));
    }
}

#[test]
fn case_6_fifth_byte() {
    assert_eq!(varint::read(&[0xFF, 0xFF, 0xFF, 0xFF, 0x0F], 0), Ok((4_294_967_295, 5)));
    assert_eq!(varint::read(&[0xFF, 0xFF, 0xFF, 0xFF, 0x10], 0), Err(10));
}

#[test]
fn case_7_flags() {
    assert_eq!(row::decode(&flagged(9), 0), Err(12));
    assert_eq!(row::decode(&flagged(16), 0), Err(11));
}

/// Case 1's row with these flags, and 16 bytes for times after it.
fn flagged(flags: u8) -> Vec<u8> {
    [&R[..12], &[flags], &[1; 8], &[2; 8]].concat()
}

const CASE_8_KEYS: [&[u8]; 5] = [b"a", b"b", b"b", b"b", b"c"];

/// "Case 8 gets falling sequence numbers": 4, 3, 2, 1, 0.
fn case_8_block() -> Vec<u8> {
    built(2, &CASE_8_KEYS)
}

#[test]
fn case_8_run_of_equal_keys() {
    assert_eq!(check(&case_8_block()), Ok(5));
    assert_eq!(seek(&case_8_block(), Ascending, b"b"), Ok((Some(3), 2)));
    assert_eq!(seek(&case_8_block(), Descending, b"b"), Ok((Some(1), 2)));
}

/// As it was before: refused, and read all the same. "Seeks still look at keys alone."
#[test]
fn case_8_with_other_numbers() {
    for seqs in [[0, 1, 2, 3, 4], [1; 5], [4, 3, 2, 2, 0], [4, 2, 3, 1, 0], [4, 3, 1, 2, 0]] {
        let rows: Vec<_> = CASE_8_KEYS.into_iter().zip(seqs).collect();
        for interval in [1, 2, 3, 16] {
            assert_eq!(check(&built_of(interval, &rows)), Err(17));
        }
        let block = built_of(2, &rows);
        assert_eq!(seek(&block, Ascending, b"b"), Ok((Some(seqs[1]), 2)));
        assert_eq!(seek(&block, Descending, b"b"), Ok((Some(seqs[3]), 2)));
        assert_eq!(walk(&block, Cursor::open(&block, Ascending).unwrap()), Ok(seqs.to_vec()));
    }
}

#[test]
fn case_9_between() {
    assert_eq!(seek(&case_8_block(), Ascending, b"bb").unwrap().0, Some(0));
    assert_eq!(seek(&case_8_block(), Descending, b"bb").unwrap().0, Some(1));
}

#[test]
fn case_10_done() {
    let block = case_8_block();
    assert_eq!(seek(&block, Ascending, b"d").unwrap().0, None);
    assert_eq!(seek(&block, Descending, b"").unwrap().0, None);
    assert_eq!(seek(&block, Ascending, b"").unwrap().0, Some(4));
}

#[test]
fn case_11_last_restart() {
    // Row 0: varints 1 + 1 + 3, key 1, value, 9.
    for (value_len, answer) in [(65_520, Ok(())), (65_521, Err(5))] {
        let (mut data, mut restarts) = (vec![0; 70_000], [0; 2]);
        let mut builder = Builder::with_interval(131_072, 1).unwrap();
        builder.add(&mut data, &mut restarts, b"a", &vec![1; value_len], &plain(1)).unwrap();
        assert_eq!(builder.used, value_len + 15);
        // The fit question stops after 4.
        assert_eq!(builder.would_fit(70_000, 2, b"b", b"", &plain(2)), Ok(13));
        assert_eq!(builder.add(&mut data, &mut restarts, b"b", b"", &plain(2)), answer);
        assert_eq!(restarts[1], if answer.is_ok() { 65_535 } else { 0 });
    }
}

// ---- a row on the wire

#[test]
fn varint_edges() {
    for bits in 0..32 {
        for number in [(1u32 << bits) - 1, 1 << bits, u32::MAX >> bits] {
            let bytes = varint::write(number);
            assert_eq!(bytes.len(), varint::len(number));
            assert_eq!(varint::read(&bytes, 0), Ok((number, bytes.len())));
        }
    }
    assert_eq!((varint::len(0), varint::write(0)), (1, vec![0]));
    assert_eq!(varint::len(u32::MAX), 5);
    assert_eq!(varint::read(&[0], 0), Ok((0, 1)));
    assert_eq!(varint::read(&[0x80, 0], 0), Err(10));
    assert_eq!(varint::read(&[0x80, 0x80, 0x80, 0x80, 0], 0), Err(10));
    assert_eq!(varint::read(&[0xFF, 0x80, 0], 0), Err(10));
    assert_eq!(varint::read(&[0xFF, 0xFF, 0xFF, 0xFF, 0], 0), Err(10));
    assert_eq!(varint::read(&[0x81, 0x80, 0x80, 0x80, 0, 99], 0), Err(10));
    for fifth in 16..=255 {
        assert_eq!(varint::read(&[0x80, 0x80, 0x80, 0x80, fifth, 0], 0), Err(10));
    }
    assert_eq!(varint::read(&[0x80, 0x80, 0x80, 0x80], 0), Err(9));
    assert_eq!(varint::read(&[], 0), Err(9));
    assert_eq!(varint::read(&[0], 1), Err(9));
    assert_eq!(varint::read(&[0], usize::MAX), Err(9));
}

#[test]
fn all_flags() {
    let (one, two) = (0x0101_0101_0101_0101, 0x0202_0202_0202_0202);
    for flags in 0..=255u8 {
        let answer = row::decode(&flagged(flags), 0);
        match flags {
            16..=255 => assert_eq!(answer, Err(11)),
            9 | 11 | 13 | 15 => assert_eq!(answer, Err(12)),
            _ => {
                let kind = [Kind::Value, Kind::Tombstone, Kind::Merge][usize::from(flags & 1 | flags >> 3 << 1)];
                // The expire time comes first.
                let (expire, create) = match flags & 6 {
                    0 => (None, None),
                    2 => (Some(one), None),
                    4 => (None, Some(one)),
                    _ => (Some(one), Some(two)),
                };
                let row = answer.unwrap();
                assert_eq!(row.fields, Fields { kind, seq: 1, expire, create });
                assert_eq!(row.next, 13 + 4 * (flags & 6).count_ones() as usize * 2);
                let bytes = row::bytes(0, b"a", b"", &row.fields);
                assert_eq!(bytes, flagged(flags)[..row.next]);
                assert_eq!(row::size(0, 1, b"", &row.fields), Ok(row.next));
            }
        }
    }
}

#[test]
fn times_are_signed_and_high_byte_first() {
    let fields = Fields { kind: Kind::Merge, seq: 0x0102_0304_0506_0708, expire: Some(-2), create: Some(i64::MIN) };
    let bytes = row::bytes(0, b"k", b"v", &fields);
    assert_eq!(bytes[..14], [0, 1, 1, b'k', b'v', 1, 2, 3, 4, 5, 6, 7, 8, 14]);
    assert_eq!(bytes[14..22], [255, 255, 255, 255, 255, 255, 255, 254]);
    assert_eq!(bytes[22..], [128, 0, 0, 0, 0, 0, 0, 0]);
    assert_eq!(row::decode(&bytes, 0).unwrap().fields, fields);
}

#[test]
fn a_tombstone_has_no_value() {
    let tombstone = of_kind(Kind::Tombstone);
    let offered = vec![7; 70_000];
    // Ignored for size and for 3; value length 0 is written.
    assert_eq!(row::size(0, 1, &offered, &tombstone), Ok(13));
    let mut output = [0; 13];
    assert_eq!(row::encode(&mut output, 0, 0, b"a", &offered, &tombstone), Ok(13));
    assert_eq!(output[..4], [0, 1, 0, b'a']);
    let mut builder = Builder::new(100).unwrap();
    assert_eq!(builder.would_fit(17, 1, b"a", &offered, &tombstone), Ok(13));
    assert_eq!(builder.add(&mut [0; 17], &mut [0; 1], b"a", &offered, &tombstone), Ok(()));
    // Value bytes read are dropped, but passed over.
    let read = row::decode(&[0, 1, 2, b'a', 9, 9, 0, 0, 0, 0, 0, 0, 0, 1, 1], 0).unwrap();
    assert_eq!((read.next, read.value_at, read.value_len, read.fields), (15, 0, 0, tombstone));
    // A value length over the limit is 3 whatever the flags would be.
    let mut long = vec![0, 1, 0x80, 0x80, 4, b'a'];
    long.resize(6 + 65_536 + 8, 0);
    long.push(1);
    assert_eq!(row::decode(&long, 0), Err(3));
    // Missing value bytes are missing, whatever the flags would be.
    assert_eq!(row::decode(&[0, 1, 2, b'a', 0, 0, 0, 0, 0, 0, 0, 1, 1], 0), Err(9));
}

#[test]
fn limits_of_size_and_encoding() {
    let plain = plain(1);
    assert_eq!(row::size(0, 0, b"", &plain), Err(1));
    assert_eq!(row::size(1, 0, b"", &plain), Ok(12));
    assert_eq!(row::size(KEY_LIMIT - 24, 24, b"", &plain), Ok(2 + 1 + 1 + 24 + 9));
    assert_eq!(row::size(KEY_LIMIT - 24, 25, b"", &plain), Err(2));
    assert_eq!(row::size(usize::MAX, usize::MAX, b"", &plain), Err(2));
    assert_eq!(row::size(usize::MAX, 1, b"", &plain), Err(2));
    assert_eq!(row::size(1 << 32, 0, b"", &plain), Err(2));
    assert_eq!(row::size(0, 1, &[0; 65_535], &plain), Ok(1 + 1 + 3 + 1 + 65_535 + 9));
    assert_eq!(row::size(0, 1, &[0; 65_536], &plain), Err(3));
    assert_eq!(row::size(0, 0, &[0; 65_536], &plain), Err(1));
    assert_eq!(row::size(0, KEY_LIMIT + 1, &[0; 65_536], &of_kind(Kind::Merge)), Err(2));
    let encode = |previous_len, shared, suffix: &[u8], value: &[u8]| row::encode(&mut [], previous_len, shared, suffix, value, &plain);
    // 13, 1, 2, 3, 6.
    assert_eq!(encode(0, 1, b"", &[0; 65_536]), Err(13));
    assert_eq!(encode(0, usize::MAX, &[1; KEY_LIMIT + 1], b""), Err(13));
    assert_eq!(encode(0, 0, b"", &[0; 65_536]), Err(1));
    assert_eq!(encode(KEY_LIMIT + 1, KEY_LIMIT + 1, b"", b""), Err(2));
    assert_eq!(encode(usize::MAX, usize::MAX, b"aa", b""), Err(2));
    assert_eq!(encode(1, 1, b"", &[0; 65_536]), Err(3));
    assert_eq!(encode(1, 1, b"", b""), Err(6));
    let mut output = [0xEE; 12];
    assert_eq!(row::encode(&mut output, 0, 0, b"a", b"", &plain), Err(6));
    assert_eq!(output, [0xEE; 12]);
    // A share shorter than the common prefix is as good; so is one with no suffix.
    assert_eq!(row::encode(&mut output, 5, 5, b"", b"", &plain), Ok(12));
    assert_eq!(output, [5, 0, 0, 0, 0, 0, 0, 0, 0, 0, 1, 0]);
    // Beyond the limits nothing is asked, but nothing breaks.
    row::bytes(usize::MAX, &[0; 3_000], &[0; 70_000], &plain);
}

#[test]
fn order_of_a_row_read() {
    let five = [0xFF, 0xFF, 0xFF, 0xFF];
    let varint_over = |rest: &[u8]| [&five[..], &[16], rest].concat();
    // Varints as met, before what they say.
    assert_eq!(row::decode(&[9], 0), Err(9));
    assert_eq!(row::decode(&[9, 0], 0), Err(9));
    assert_eq!(row::decode(&[9, 0, 0x80], 0), Err(9));
    assert_eq!(row::decode(&varint_over(&[]), 0), Err(10));
    assert_eq!(row::decode(&[&[9, 0], &varint_over(&[])[..]].concat(), 0), Err(10));
    // 13 before 1 and 2, those before 3, that before missing bytes.
    assert_eq!(row::decode(&[1, 0, 0], 0), Err(13));
    assert_eq!(row::decode(&[1, 0x80, 0x10, 0], 0), Err(13));
    assert_eq!(row::decode(&[0, 0, 0x80, 0x80, 4], 0), Err(1));
    assert_eq!(row::decode(&[0, 0x81, 0x20, 0x80, 0x80, 4], 0), Err(2));
    assert_eq!(row::decode(&[1, 0x80, 0x20, 0x80, 0x80, 4], 1), Err(2));
    assert_eq!(row::decode(&[0, 0x80, 0x20, 0x80, 0x80, 4], 0), Err(3));
    assert_eq!(row::decode(&[0, 0x80, 8, 0xFF, 0xFF, 3], 0), Err(9));
    // Two lengths of 4,294,967,295 do not wrap round.
    assert_eq!(row::decode(&[&five[..], &[15], &five[..], &[15, 0]].concat(), usize::MAX), Err(2));
    assert_eq!(row::decode(&[&[0][..], &five[..], &[15], &five[..], &[15]].concat(), 0), Err(2));
    // Every shorter input ends inside the row; bytes after it are allowed.
    let whole = row::bytes(1, b"bc", b"value", &Fields { expire: Some(1), create: Some(2), ..plain(1) });
    for end in 0..whole.len() {
        assert_eq!(row::decode(&whole[..end], 1), Err(9));
    }
    assert_eq!(row::decode(&[&whole[..], &[255; 9]].concat(), 1).unwrap().next, whole.len());
    // Flags before the times.
    assert_eq!(row::decode(&[&R[..12], &[11]].concat(), 0), Err(12));
    assert_eq!(row::decode(&[&R[..12], &[18]].concat(), 0), Err(11));
    assert_eq!(row::decode(&[&R[..12], &[2]].concat(), 0), Err(9));
}

#[test]
fn region_end_comes_last() {
    let read = |data: &[u8], at, region_end| row::read(&Place { data, at, previous_len: 0, restart: false, region_end });
    assert_eq!(read(&R, 0, 12), Err(16));
    assert_eq!(read(&R, 0, 13).unwrap().next, 13);
    assert_eq!(read(&R[..12], 0, 0), Err(9));
    assert_eq!(read(&flagged(16), 0, 12), Err(11));
    assert_eq!(read(&flagged(9), 0, 12), Err(12));
    assert_eq!(read(&flagged(2)[..20], 0, 12), Err(9));
    // The position is only ever held against the data's end.
    assert_eq!(read(&R, 13, usize::MAX), Err(9));
    assert_eq!(read(&R, usize::MAX, 0), Err(9));
    // At a restart any share is 13, also one that the previous key would allow.
    let at_restart = Place { data: &AB, at: 0, previous_len: 9, restart: true, region_end: 14 };
    assert_eq!(row::read(&at_restart), Err(13));
    assert_eq!(row::read_key(&at_restart), Err(13));
    assert!(row::read(&Place { restart: false, ..at_restart }).is_ok());
}

#[test]
fn key_only_read() {
    let part = row::decode_key(&[0, 1, 0xFF, 0xFF, 0xFF, 0xFF, 0x0F, 0x61], 0).unwrap();
    assert_eq!((part.shared, part.suffix_at, part.suffix_len, part.end), (0, 7, 1, 8));
    assert_eq!(part.value_len, 4_294_967_295);
    assert_eq!(row::decode_key(&[0, 1, 0xFF, 0xFF, 0xFF, 0xFF, 0x10, 0x61], 0), Err(10));
    assert_eq!(row::decode_key(&[0, 1], 0), Err(9));
    assert_eq!(row::decode_key(&[0, 2, 0, 0x61], 0), Err(9));
    assert_eq!(row::decode_key(&[1, 0, 0], 0), Err(13));
    assert_eq!(row::decode_key(&[0, 0, 0], 0), Err(1));
    assert_eq!(row::decode_key(&[0, 0x81, 0x20, 0], 0), Err(2));
    assert_eq!(row::decode_key(&[1, 0, 0], 1).unwrap().end, 3);
    // 16 is the suffix's end, and comes after what is missing.
    let read_key = |data: &[u8], region_end| row::read_key(&Place { data, at: 0, previous_len: 0, restart: true, region_end });
    assert_eq!(read_key(&R, 4).unwrap().end, 4);
    assert_eq!(read_key(&R, 3), Err(16));
    assert_eq!(read_key(&R[..3], 0), Err(9));
}

#[test]
fn full_keys() {
    assert_eq!(row::full_key(&AB, b"abc", 2, 3, 2), b"abbx");
    assert_eq!(row::full_key(&AB, b"abc", usize::MAX, usize::MAX, usize::MAX), b"abc");
    assert_eq!(row::full_key(b"xyz", b"", 0, 1, usize::MAX), b"yz");
}

// ---- the builder

#[test]
fn settings() {
    for (block_size, interval, good) in [
        (0, 1, true),
        (131_072, INTERVAL_LIMIT, true),
        (131_073, 16, false),
        (usize::MAX, 16, false),
        (0, 0, false),
        (0, INTERVAL_LIMIT + 1, false),
        (0, usize::MAX, false),
    ] {
        let answer = Builder::with_interval(block_size, interval);
        assert_eq!(answer.map(|builder| builder.is_empty()), if good { Ok(true) } else { Err(8) });
    }
    assert_eq!(Builder::new(131_073), Err(8));
    assert_eq!(Builder::new(0).unwrap().interval, 16);
}

#[test]
fn a_first_row_of_any_allowed_size() {
    let mut builder = Builder::new(0).unwrap();
    let (mut data, mut restarts) = (vec![0; 70_000], [0; 1]);
    assert_eq!(builder.would_fit(0, 0, &[1; KEY_LIMIT], &[1; 65_535], &plain(1)), Ok(1 + 2 + 3 + KEY_LIMIT + 65_535 + 9));
    assert_eq!(builder.would_fit(0, 0, b"", &[1; 65_536], &plain(1)), Err(1));
    assert_eq!(builder.would_fit(0, 0, &[1; KEY_LIMIT + 1], &[1; 65_536], &plain(1)), Err(2));
    assert_eq!(builder.would_fit(0, 0, &[1; KEY_LIMIT], &[1; 65_536], &plain(1)), Err(3));
    assert_eq!(builder.add(&mut data, &mut restarts, &[1; KEY_LIMIT], &[1; 65_535], &plain(1)), Ok(()));
    assert_eq!(builder.add(&mut data, &mut restarts, b"a", b"", &plain(1)), Err(4));
    assert_eq!(builder.add(&mut data, &mut restarts, b"", b"", &plain(1)), Err(1));
}

#[test]
fn a_lent_buffer_holds_rows_and_whole_trailer() {
    // Case 1's row needs 13 + 2 + 2.
    for (data_len, places, answer) in [(17, 1, Ok(())), (16, 1, Err(6)), (17, 0, Err(6)), (0, 0, Err(6))] {
        let mut builder = Builder::new(0).unwrap();
        let (mut data, mut restarts) = (vec![0xEE; data_len], vec![0xEE; places]);
        assert_eq!(builder.add(&mut data, &mut restarts, b"a", b"", &plain(1)), answer);
        if answer.is_err() {
            assert_eq!((builder, data, restarts), (Builder::new(0).unwrap(), vec![0xEE; data_len], vec![0xEE; places]));
        }
    }
    // The second row of case 4 needs a place of its own, and two bytes more in the trailer; that of case 2 does not.
    for (interval, data_len, places, answer) in
        [(1, 34, 2, Ok(())), (1, 33, 2, Err(6)), (1, 34, 1, Err(6)), (2, 31, 1, Ok(())), (2, 30, 1, Err(6))]
    {
        let mut builder = Builder::with_interval(100, interval).unwrap();
        let (mut data, mut restarts) = (vec![0; data_len], vec![0; places]);
        builder.add(&mut data, &mut restarts, b"a", b"", &plain(1)).unwrap();
        assert_eq!(builder.add(&mut data, &mut restarts, b"ab", b"x", &plain(2)), answer);
    }
}

/// After case 1.
fn one_row() -> Builder {
    Builder { block_size: 100, interval: 16, used: 13, restarts: 1, rows: 1, last_key: Key::of(b"a") }
}

#[test]
fn building() {
    for (data_len, answer) in [(12, Err(18)), (13, Err(6)), (16, Err(6)), (17, Ok(17)), (20, Ok(17))] {
        let mut data = vec![0xEE; data_len];
        assert_eq!(one_row().build(&mut data, &[0x1234]), answer);
        let written = data.iter().filter(|byte| **byte != 0xEE).count();
        assert_eq!(written, if answer.is_ok() { 4 } else { 0 });
        if answer.is_ok() {
            // What the restart buffer holds is not looked at.
            assert_eq!(data[13..17], [0x12, 0x34, 0, 1]);
        }
    }
    assert_eq!(one_row().build(&mut [0; 17], &[]), Err(18));
    assert_eq!(Builder::new(9).unwrap().build(&mut [], &[]), Err(7));
    assert_eq!(Builder { interval: 0, ..Builder::new(9).unwrap() }.build(&mut [], &[]), Err(18));
}

#[test]
fn states_of_a_builder() {
    let fit = |builder: Builder| builder.would_fit(usize::MAX, usize::MAX, b"b", b"", &plain(1));
    let one = one_row();
    assert_eq!(fit(one.clone()), Ok(13));
    assert_eq!(fit(Builder { block_size: 131_073, ..one.clone() }), Err(18));
    assert_eq!(fit(Builder { interval: 0, ..one.clone() }), Err(18));
    assert_eq!(fit(Builder { interval: INTERVAL_LIMIT + 1, ..one.clone() }), Err(18));
    assert_eq!(fit(Builder { restarts: 0, ..one.clone() }), Err(18));
    assert_eq!(fit(Builder { restarts: 2, ..one.clone() }), Err(18));
    assert_eq!(fit(Builder { rows: 17, used: 1_000, ..one.clone() }), Err(18));
    assert_eq!(fit(Builder { rows: usize::MAX, ..one.clone() }), Err(18));
    assert_eq!(fit(Builder { rows: 2, used: 23, ..one.clone() }), Err(18));
    assert_eq!(fit(Builder { rows: 2, used: 24, ..one.clone() }), Ok(13));
    assert_eq!(fit(Builder { rows: 0, restarts: 0, ..one.clone() }), Err(18));
    assert_eq!(fit(Builder { last_key: Key { len: KEY_LIMIT + 1, ..one.last_key.clone() }, ..one.clone() }), Err(18));
    assert_eq!(fit(Builder { last_key: Key { len: usize::MAX, ..one.last_key.clone() }, ..one.clone() }), Err(18));
    // Rows with an empty last key, and data beyond the block size, pass; the sum does not overflow.
    assert_eq!(fit(Builder { last_key: Key::none(), ..one.clone() }), Ok(13));
    assert_eq!(fit(Builder { used: 101, ..one.clone() }), Err(4));
    assert_eq!(fit(Builder { used: usize::MAX, ..one.clone() }), Err(4));
    // 18 before 1.
    let over = Builder { used: 14, ..one.clone() };
    assert_eq!(over.would_fit(13, 1, b"", b"", &plain(1)), Err(18));
    assert_eq!(over.would_fit(14, 0, b"", b"", &plain(1)), Err(18));
    assert_eq!(over.would_fit(14, 1, b"", b"", &plain(1)), Err(1));
    // is_empty says rows = 0 of any state.
    assert!(Builder { rows: 0, ..one.clone() }.is_empty() && !one.is_empty());
    // 5,042 restarts pass, 5,043 do not.
    let many = |count| Builder { block_size: 131_072, interval: 1, used: 12 * count, restarts: count, rows: count, last_key: Key::of(b"a") };
    assert_eq!(fit(many(5_043)), Err(18));
    let mut forged = many(5_042);
    assert_eq!(forged.add(&mut vec![0; 131_072], &mut vec![0; 6_000], b"a", b"", &plain(1)), Ok(()));
    assert_eq!(forged.restarts, 5_043);
}

#[test]
fn order_of_adding() {
    // A restart past 65,535 in a buffer that is too short and a block that is too small: 4, then 5, then 6. At 65,536 the block
    // would be 65,536 + 2 + 2, the row's 13, and 2 for its restart.
    let forged = |block_size, used| Builder { block_size, interval: 1, used, ..one_row() };
    let add = |mut builder: Builder| builder.add(&mut vec![0; 65_540], &mut [0; 1], b"b", b"", &plain(1));
    assert_eq!(add(forged(65_554, 65_536)), Err(4));
    assert_eq!(add(forged(65_555, 65_536)), Err(5));
    assert_eq!(add(forged(65_554, 65_535)), Err(6));
    // A row that is no restart may lie there.
    let mut plain_row = Builder { interval: 2, block_size: 131_072, used: 65_536, ..one_row() };
    assert_eq!(plain_row.add(&mut vec![0; 70_000], &mut [0; 1], b"b", b"", &plain(1)), Ok(()));
}

#[test]
fn a_refused_row_leaves_its_key_unshared() {
    let (mut data, mut restarts) = ([0; 45], [0; 1]);
    let mut builder = Builder::new(45).unwrap();
    builder.add(&mut data, &mut restarts, b"a", b"", &plain(1)).unwrap();
    assert_eq!(builder.add(&mut data, &mut restarts, b"abcdef", &[0; 50], &plain(2)), Err(4));
    builder.add(&mut data, &mut restarts, b"abcd", b"", &plain(3)).unwrap();
    assert_eq!(data[13..19], [1, 3, 0, b'b', b'c', b'd']);
}

#[test]
fn keys_may_arrive_out_of_order() {
    let block = built(16, &[b"b", b"abc", b"ab", b"ab"]);
    assert_eq!(check(&block), Err(17));
    assert_eq!(walk(&block, Cursor::open(&block, Ascending).unwrap()), Ok(vec![3, 2, 1, 0]));
    assert_eq!(walk(&block, Cursor::open(&block, Descending).unwrap()), Ok(vec![0, 1, 2, 3]));
    assert_eq!(check(&built(16, &[b"ab", b"ab", b"abc", b"b"])), Ok(4));
    // So may their numbers.
    let block = built_of(16, &[(b"ab", 1), (b"ab", 1), (b"ab", 2)]);
    assert_eq!(check(&block), Err(17));
    assert_eq!(walk(&block, Cursor::open(&block, Descending).unwrap()), Ok(vec![2, 1, 1]));
}

#[test]
fn most_restarts() {
    // Rows of 13 bytes, each a restart, from 0 to 65,533: 5,042 of them; the next would lie at 65,546.
    let keys = vec![&b"a"[..]; 5_042];
    assert_eq!(check(&built(1, &keys)), Ok(5_042));
    let (mut data, mut restarts) = (vec![0; 100_000], vec![0; 6_000]);
    let mut builder = Builder::with_interval(131_072, 1).unwrap();
    for _ in 0..5_042 {
        builder.add(&mut data, &mut restarts, b"a", b"", &plain(1)).unwrap();
    }
    assert_eq!(builder.add(&mut data, &mut restarts, b"a", b"", &plain(1)), Err(5));
}

// ---- trailer, offsets and the check

#[test]
fn trailers() {
    for block in [&[][..], &[1], &[0, 0], &[0, 1], &[0, 0, 1], &[9, 9, 9, 0, 0], &[0, 0, 0, 2], &[0; 17], &[255; 100]] {
        assert_eq!(check(block), Err(14));
        assert_eq!(Block::new(block).err(), Some(14));
        for order in [Ascending, Descending] {
            assert_eq!(Cursor::open(block, order), Err(14));
            let mut wrong = Cursor { done: true, ..cursor(order, 9, 9, 9, &[1; KEY_LIMIT + 1]) };
            assert_eq!(step(&mut wrong, block), Err(14));
            assert_eq!(wrong.is_empty(block), Err(14));
            assert_eq!(wrong.seek(block, b""), Err(14));
        }
    }
    // No data: 15, not 14.
    assert_eq!(check(&[0, 0, 0, 1]), Err(15));
    assert_eq!(Cursor::open(&[0, 0, 0, 1], Ascending), Err(15));
    assert_eq!(seek(&[0, 0, 0, 1], Ascending, b"a"), Err(15));
}

#[test]
fn offsets() {
    let bytes = off(0, 13, 26);
    let block = Block::new(&bytes).unwrap();
    assert_eq!((block.restarts(), block.data.len()), (3, 39));
    assert_eq!(block.region(0), Ok(Region { start: 0, end: 13 }));
    assert_eq!(block.region(2), Ok(Region { start: 26, end: 39 }));
    assert_eq!((block.is_last(1), block.is_last(2), block.is_last(3), block.is_last(usize::MAX)), (false, true, false, false));
    assert_eq!((block.region(3), block.region(usize::MAX)), (Err(18), Err(18)));
    assert_eq!(block.restart_key(usize::MAX), Err(18));
    assert_eq!(check(&bytes), Ok(3));
    for wrong in [off(1, 13, 26), off(0, 13, 13), off(0, 26, 13), off(0, 13, 39), off(0, 0, 13), off(0, 13, 65_535)] {
        assert_eq!(Block::new(&wrong).unwrap().test_all_offsets(), Err(15));
        assert_eq!(check(&wrong), Err(15));
        assert_eq!(Cursor::open(&wrong, Descending), Err(15));
    }
    // The row that starts one byte early or late is another matter.
    assert_eq!(check(&off(0, 12, 26)), Err(16));
    assert!(check(&off(0, 14, 26)).is_err());
}

#[test]
fn the_check_answers_the_first_refusal() {
    // 15 before any row; a row's own refusal before its 17; the first row met before a later one.
    let flags_9 = flagged(9)[..13].to_vec();
    assert_eq!(check(&block_of(&[&flags_9, &R], &[0, 99])), Err(15));
    assert_eq!(check(&block_of(&[&AB_RESTART, &flags_9], &[0])), Err(12));
    assert_eq!(check(&block_of(&[&AB_RESTART, &R, &flags_9], &[0])), Err(17));
    // 17 across restarts, for a key that falls, and for one that stays with a number that does not fall.
    assert_eq!(check(&block_of(&[&AB_RESTART, &R], &[0, 15])), Err(17));
    for (first, second, answer) in [(2, 1, Ok(2)), (1, 1, Err(17)), (1, 2, Err(17))] {
        assert_eq!(check(&block_of(&[&numbered(first), &numbered(second)], &[0, 13])), answer);
        assert_eq!(check(&block_of(&[&numbered(first), &numbered(second)], &[0])), answer);
    }
    assert_eq!(check(&block_of(&[&R, &flags_9], &[0])), Err(12));
    assert_eq!(check(&block_of(&[&R, &R, &flags_9], &[0])), Err(17));
    // 16 before 17; 13 at a restart though the key before would do.
    assert_eq!(check(&block_of(&[&AB_RESTART, &R, &R], &[0, 15, 27])), Err(16));
    assert_eq!(check(&block_of(&[&R, &R, &R], &[0, 13, 25])), Err(16));
    assert_eq!(check(&block_of(&[&R, &AB], &[0, 13])), Err(13));
    // Bytes left over are the start of a row that is missing.
    assert_eq!(check(&block_of(&[&R, &[0]], &[0])), Err(9));
    // It knows no interval, and takes short shares and tombstones with value bytes, but no long spellings.
    let tombstone = [0, 1, 1, b'a', 9, 0, 0, 0, 0, 0, 0, 0, 4, 1];
    let long = [0x80, 0, 0x81, 0, 0, b'a', 0, 0, 0, 0, 0, 0, 0, 3, 0];
    let [six, five, three, two] = [6, 5, 3, 2].map(numbered);
    assert_eq!(check(&block_of(&[&six, &five, &tombstone, &long, &two, &R], &[0, 13, 55])), Err(10));
    assert_eq!(check(&block_of(&[&six, &five, &tombstone, &three, &two, &R], &[0, 13, 53])), Ok(6));
}

/// "Unsigned 64 bits; equal is refused", next to a restart and inside a region; "before the first row stands no row".
#[test]
fn numbers_of_equal_keys() {
    const TOP: u64 = 1 << 63;
    for first in [0, 1, u64::MAX] {
        assert_eq!(check(&built_of(1, &[(b"a", first)])), Ok(1));
    }
    let numbers = [0, 1, 255, 256, u64::from(u32::MAX), 1 << 32, TOP - 1, TOP, u64::MAX - 1, u64::MAX];
    for (first, second) in numbers.iter().flat_map(|first| numbers.map(|second| (*first, second))) {
        let answer = if first > second { Ok(2) } else { Err(17) };
        for interval in [1, 2] {
            assert_eq!(check(&built_of(interval, &[(b"a", first), (b"a", second)])), answer);
            // The numbers of other keys do not matter.
            assert_eq!(check(&built_of(interval, &[(b"a", first), (b"b", second)])), Ok(2));
            assert_eq!(check(&built_of(interval, &[(b"b", first), (b"a", second)])), Err(17));
            assert_eq!(check(&built_of(interval, &[(b"a", first), (b"aa", second)])), Ok(2));
            assert_eq!(check(&built_of(interval, &[(b"aa", first), (b"a", second)])), Err(17));
        }
    }
}

/// "A finished block is accepted exactly when its rows are in this order": all of up to four rows.
#[test]
fn finished_blocks_are_accepted_in_order_only() {
    let keys: [&[u8]; 2] = [b"a", b"b"];
    let row = |n: usize| (keys[n / 3], [0, 1, u64::MAX][n % 3]);
    for count in 1..=4 {
        for number in 0..6usize.pow(count) {
            let rows: Vec<_> = (0..count).map(|place| row(number / 6usize.pow(place) % 6)).collect();
            let answer = if in_order(&rows) { Ok(rows.len()) } else { Err(17) };
            for interval in [1, 2, 3] {
                assert_eq!(check(&built_of(interval, &rows)), answer);
            }
        }
    }
}

// ---- the cursor

#[test]
fn opening() {
    let block = b4();
    assert_eq!(Cursor::open(&block, Ascending), Ok(cursor(Ascending, 0, 0, 0, b"")));
    assert_eq!(Cursor::open(&block, Descending), Ok(cursor(Descending, 1, 28, 1, b"")));
    // Opening ascending reads no row.
    assert!(Cursor::open(&block_of(&[&[255; 9]], &[0]), Ascending).is_ok());
}

/// "Opening backwards now reads the last region and may give its row refusals."
#[test]
fn opening_backwards() {
    let flags_9 = flagged(9)[..13].to_vec();
    let b_row = [&[0, 1, 0, b'b'], &R[4..]].concat();
    let opened = |rows: &[&[u8]], offsets: &[u16]| Cursor::open(&block_of(rows, offsets), Descending).map(|cursor| cursor.number);
    // All rows of the last region count, and no others.
    assert_eq!(opened(&[&R, &AB], &[0]), Ok(2));
    assert_eq!(opened(&[&R, &AB_RESTART], &[0, 13]), Ok(1));
    assert_eq!(opened(&[&R, &AB, &R, &AB], &[0, 27]), Ok(2));
    assert_eq!(Cursor::open(&built(1_024, &[&b"k"[..]; 300]), Descending).unwrap().number, 300);
    // Its rows are read as a step would read them, the first fault first; those of other regions are not read.
    assert_eq!(opened(&[&R, &flags_9], &[0, 13]), Err(12));
    assert_eq!(opened(&[&R, &flags_9, &R], &[0]), Err(12));
    assert_eq!(opened(&[&R, &flagged(16)[..13], &flags_9], &[0]), Err(11));
    assert_eq!(opened(&[&flags_9, &R], &[0, 13]), Ok(1));
    assert_eq!(opened(&[&R, &AB], &[0, 13]), Err(13));
    assert_eq!(opened(&[&R, &[0x80, 0]], &[0]), Err(10));
    assert_eq!(opened(&[&[255; 9]], &[0]), Err(10));
    assert_eq!(opened(&[&R, &b_row, &[0]], &[0, 13]), Err(9));
    // It asks for no order, and 15 comes first.
    assert_eq!(opened(&[&b_row, &R], &[0]), Ok(2));
    assert_eq!(opened(&[&R, &flags_9], &[0, 13, 13]), Err(15));
    assert_eq!(opened(&[&flags_9], &[1]), Err(15));
    // The key is any allowed one: no buffer is lent, so never 19.
    assert_eq!(Cursor::open(&built(16, &[&[b'k'; KEY_LIMIT]]), Descending).unwrap().number, 1);
}

#[test]
fn ascending_steps() {
    // One region: the key is carried, and stays after the last row and after "done".
    let mut one = Cursor::open(&b2(), Ascending).unwrap();
    assert_eq!(step(&mut one, &b2()), gives(b"a"));
    assert_eq!(one, cursor(Ascending, 0, 13, 1, b"a"));
    assert_eq!(step(&mut one, &b2()), gives(b"ab"));
    assert_eq!(one, cursor(Ascending, 0, 27, 2, b"ab"));
    assert_eq!(one.is_empty(&b2()), Ok(true));
    for _ in 0..2 {
        assert_eq!(step(&mut one, &b2()), Ok(None));
        assert_eq!(one, Cursor { done: true, ..cursor(Ascending, 0, 27, 2, b"ab") });
    }
    // Two regions: handed over at once, then with no key.
    let mut two = Cursor::open(&b4(), Ascending).unwrap();
    assert_eq!(step(&mut two, &b4()), gives(b"a"));
    assert_eq!(two, cursor(Ascending, 1, 13, 0, b""));
    assert_eq!(step(&mut two, &b4()), gives(b"ab"));
    assert_eq!(two, cursor(Ascending, 1, 28, 1, b"ab"));
    assert_eq!(step(&mut two, &b4()), Ok(None));
}

#[test]
fn descending_steps() {
    // The key is neither used nor changed; a region's start stays in its region until the next step.
    let mut back = Cursor { key: Key::of(b"zzz"), ..Cursor::open(&b4(), Descending).unwrap() };
    assert_eq!(step(&mut back, &b4()), gives(b"ab"));
    assert_eq!(back, cursor(Descending, 1, 13, 0, b"zzz"));
    assert_eq!(step(&mut back, &b4()), gives(b"a"));
    assert_eq!(back, cursor(Descending, 0, 0, 0, b"zzz"));
    assert_eq!(back.is_empty(&b4()), Ok(false));
    for _ in 0..2 {
        assert_eq!(step(&mut back, &b4()), Ok(None));
        assert_eq!(back, Cursor { done: true, ..cursor(Descending, 0, 0, 0, b"zzz") });
    }
    assert_eq!(back.is_empty(&b4()), Ok(true));
    let mut in_one = Cursor::open(&b2(), Descending).unwrap();
    let Given { row, .. } = in_one.next(&b2(), &mut [0; 2]).unwrap().unwrap();
    assert_eq!((row.start, row.next, row.shared, row.suffix_at, row.value_at, row.value_len), (13, 27, 1, 16, 17, 1));
    assert_eq!(in_one, cursor(Descending, 0, 13, 1, b""));
}

#[test]
fn the_two_places_of_18() {
    // Region number and key before 15; the position after it.
    let wrong_first = off(1, 13, 26);
    assert_eq!(step_from(&wrong_first, Ascending, 0, 99, 1, b""), Err(15));
    assert_eq!(step_from(&wrong_first, Ascending, 3, 0, 0, b""), Err(18));
    assert_eq!(step_from(&wrong_first, Descending, 0, 99, 1, &[1; KEY_LIMIT + 1]), Err(18));
    assert_eq!(step_from(&wrong_first, Descending, 0, 99, 1, &[1; KEY_LIMIT]), Err(15));
    assert_eq!(step_from(&wrong_first, Ascending, usize::MAX, usize::MAX, 0, b""), Err(18));
    // A marked cursor: after 14 and the first 18, before any 15.
    for (region, key, answer) in [(0, &b""[..], Ok(None)), (3, b"", Err(18)), (0, &[1; KEY_LIMIT + 1], Err(18))] {
        for order in [Ascending, Descending] {
            let mut marked = Cursor { done: true, ..cursor(order, region, 99, 99, key) };
            let before = marked.clone();
            assert_eq!(step(&mut marked, &wrong_first), answer);
            assert_eq!(marked, before);
        }
    }
}

#[test]
fn offsets_as_they_are_used() {
    // Only the pair; no look at the left neighbour.
    assert_eq!(step_from(&off(0, 26, 13), Ascending, 2, 13, 0, b""), gives(b"a"));
    assert_eq!(step_from(&off(0, 26, 13), Ascending, 1, 26, 0, b""), Err(15));
    // Handing over does not use the next region.
    let block = off(0, 13, 39);
    let mut on = cursor(Ascending, 0, 0, 0, b"");
    assert_eq!(step(&mut on, &block), gives(b"a"));
    assert_eq!(on, cursor(Ascending, 1, 13, 0, b""));
    assert_eq!(step(&mut on, &block), Err(15));
    // The offset next to the region used must itself be below the data length.
    assert_eq!(step_from(&off(0, 39, 13), Ascending, 0, 0, 0, b""), Err(15));
    // Descending at a region's start: the pair of r, the position, then the pair of r - 1.
    assert_eq!(step_from(&off(1, 13, 26), Descending, 1, 13, 0, b""), Err(15));
    assert_eq!(step_from(&off(1, 13, 26), Descending, 1, 12, 0, b""), Err(18));
    assert_eq!(step_from(&off(1, 13, 26), Descending, 2, 26, 0, b""), gives(b"a"));
    assert_eq!(step_from(&off(0, 13, 39), Descending, 1, 13, 0, b""), Err(15));
    // Region 0's start: offsets tested, then "done".
    assert_eq!(step_from(&off(1, 13, 26), Descending, 0, 0, 0, b""), Err(15));
    assert_eq!(step_from(&off(0, 13, 26), Descending, 0, 0, 0, b""), Ok(None));
}

#[test]
fn right_positions() {
    assert_eq!(step_from(&b4(), Ascending, 0, 13, 1, b""), Err(18));
    assert_eq!(step_from(&b4(), Ascending, 1, 12, 0, b""), Err(18));
    assert_eq!(step_from(&b4(), Ascending, 1, 28, 1, b""), Ok(None));
    assert_eq!(step_from(&b4(), Ascending, 1, 29, 1, b""), Err(18));
    assert_eq!(step_from(&b4(), Ascending, 1, usize::MAX, 1, b""), Err(18));
    assert_eq!(step_from(&b4(), Descending, 0, 13, 1, b""), gives(b"a"));
    assert_eq!(step_from(&b4(), Descending, 0, 14, 1, b""), Err(18));
    assert_eq!(step_from(&b4(), Descending, 1, 12, 0, b""), Err(18));
    assert_eq!(step_from(&b4(), Descending, 1, 14, 1, b""), Err(18));
    assert_eq!(step_from(&b4(), Descending, 1, usize::MAX, 1, b""), Err(18));
    // Ascending, row boundaries are not tested, and the carried key is what it says.
    assert_eq!(step_from(&b2(), Ascending, 0, 13, 1, b"z"), gives(b"zb"));
    assert_eq!(step_from(&b2(), Ascending, 0, 13, 1, b""), Err(13));
    // At a restart it is unused.
    assert_eq!(step_from(&b2(), Ascending, 0, 0, 0, b"z"), gives(b"a"));
    assert_eq!(step_from(&block_of(&[&AB], &[0]), Ascending, 0, 0, 0, b"z"), Err(13));
    // Bytes past the length of a carried key change no answer.
    let mut bytes = [b'!'; KEY_LIMIT];
    bytes[0] = b'z';
    let mut stale = Cursor { key: Key { len: 1, bytes }, ..cursor(Ascending, 0, 13, 1, b"") };
    assert_eq!(step(&mut stale, &b2()), gives(b"zb"));
}

#[test]
fn rows_tested_on_the_way_back() {
    let flags_9 = flagged(9)[..13].to_vec();
    // The row that straddles the position is read, and its own refusal beats 18.
    let block = block_of(&[&R, &flags_9, &R], &[0]);
    assert_eq!(step_from(&block, Descending, 0, 20, 1, b""), Err(12));
    assert_eq!(step_from(&off(0, 13, 26), Descending, 1, 20, 1, b""), Err(18));
    // Rows from the position on are not.
    assert_eq!(step_from(&block, Descending, 0, 13, 1, b""), gives(b"a"));
    assert_eq!(step_from(&block, Descending, 0, 39, 3, b""), Err(12));
    // Outside the region no row is read.
    assert_eq!(step_from(&block_of(&[&flags_9], &[0]), Descending, 0, 14, 1, b""), Err(18));
    assert_eq!(step_from(&block_of(&[&R, &flags_9], &[0, 13]), Descending, 1, 12, 0, b""), Err(18));
    assert_eq!(step_from(&block_of(&[&R, &flags_9], &[0, 13]), Descending, 1, 25, 1, b""), Err(12));
    // A row that runs into the next region reads its flags there; 16 is last.
    let over = [0, 1, 0, b'a', 0, 0, 0, 0, 0, 0, 0, 0];
    assert_eq!(step_from(&block_of(&[&over, &[9], &R], &[0, 12]), Ascending, 0, 0, 0, b""), Err(12));
    assert_eq!(step_from(&block_of(&[&over, &R], &[0, 12]), Ascending, 0, 0, 0, b""), Err(16));
    assert_eq!(step_from(&block_of(&[&over, &R], &[0, 12]), Descending, 0, 12, 1, b""), Err(16));
    assert_eq!(step_from(&block_of(&[&over, &R], &[0, 12]), Descending, 1, 12, 0, b""), Err(16));
}

#[test]
fn the_lent_key_buffer() {
    let mut out = [0xEE; 3];
    let mut on = cursor(Ascending, 0, 13, 1, b"a");
    assert_eq!(on.next(&b2(), &mut out[..1]), Err(19));
    assert_eq!((on.clone(), out), (cursor(Ascending, 0, 13, 1, b"a"), [0xEE; 3]));
    assert!(on.next(&b2(), &mut out).unwrap().is_some());
    assert_eq!(out, [b'a', b'b', 0xEE]);
    // "Done" needs no buffer; row tests come before 19.
    assert_eq!(on.next(&b2(), &mut []), Ok(None));
    assert_eq!(cursor(Ascending, 0, 0, 0, b"").next(&block_of(&[&flagged(9)], &[0]), &mut []), Err(12));
    // Only the key that is given counts.
    let block = built(16, &[b"aaaaaaaaa", b"b"]);
    let mut back = Cursor::open(&block, Descending).unwrap();
    let mut small = [0; 1];
    assert!(back.next(&block, &mut small).unwrap().is_some());
    assert_eq!(small, *b"b");
    assert_eq!(back.next(&block, &mut small), Err(19));
}

#[test]
fn is_empty_follows_position_and_mark() {
    let block = b2();
    let marked = |order, at| Cursor { done: true, ..cursor(order, 99, at, 99, &[0; 5_000]) };
    assert_eq!(marked(Ascending, 0).is_empty(&block), Ok(true));
    assert_eq!(marked(Descending, 0).is_empty(&block), Ok(true));
    assert_eq!(cursor(Ascending, 99, 26, 2, b"").is_empty(&block), Ok(false));
    assert_eq!(cursor(Ascending, 0, 27, 2, b"").is_empty(&block), Ok(true));
    assert_eq!(cursor(Ascending, 0, usize::MAX, 2, b"").is_empty(&block), Ok(true));
    for at in [0, 27, usize::MAX] {
        assert_eq!(cursor(Descending, 0, at, 0, b"").is_empty(&block), Ok(false));
    }
}

// ---- which row is this?

/// The cursor before each step, and after it the pair that its answer carries, until "done": what stands in the cursors is their
/// region, position and number.
fn named(block: &[u8], mut cursor: Cursor) -> (Vec<(usize, usize, usize)>, Vec<(usize, usize)>) {
    let (mut cursors, mut pairs) = (vec![(cursor.region, cursor.at, cursor.number)], Vec::new());
    while let Some(given) = cursor.next(block, &mut [0; KEY_LIMIT]).unwrap() {
        cursors.push((cursor.region, cursor.at, cursor.number));
        pairs.push((given.region, given.number));
    }
    // "A "done" sets only the mark", and says it again.
    assert_eq!(cursors.last(), Some(&(cursor.region, cursor.at, cursor.number)));
    assert_eq!(cursor.next(block, &mut []), Ok(None));
    assert_eq!(cursors.last(), Some(&(cursor.region, cursor.at, cursor.number)));
    (cursors, pairs)
}

fn reversed<T: Clone>(list: &[T]) -> Vec<T> {
    list.iter().rev().cloned().collect()
}

const CASE_8_PAIRS: [(usize, usize); 5] = [(0, 0), (0, 1), (1, 0), (1, 1), (2, 0)];

#[test]
fn case_8_with_every_pair_and_number() {
    let block = case_8_block();
    let (up, pairs) = named(&block, Cursor::open(&block, Ascending).unwrap());
    assert_eq!(pairs, CASE_8_PAIRS);
    // Handed over with 0; at the data's end the last region's row count.
    assert_eq!(up, [(0, 0, 0), (0, 13, 1), (1, 26, 0), (1, 39, 1), (2, 51, 0), (2, 64, 1)]);
    let (down, pairs) = named(&block, Cursor::open(&block, Descending).unwrap());
    assert_eq!(pairs, reversed(&CASE_8_PAIRS));
    assert_eq!(down, [(2, 64, 1), (2, 51, 0), (1, 39, 1), (1, 26, 0), (0, 13, 1), (0, 0, 0)]);
}

#[test]
fn case_8_sought_with_every_pair() {
    let block = case_8_block();
    let after = |order, target: &[u8]| {
        let mut cursor = cursor(order, 77, 77, 77, b"old");
        cursor.seek(&block, target).unwrap();
        let (cursors, pairs) = named(&block, cursor);
        (cursors[0], pairs)
    };
    for (target, landed, first) in [(&b""[..], (0, 0, 0), 0), (b"b", (0, 13, 1), 1), (b"bb", (2, 51, 0), 4), (b"d", (2, 64, 1), 5)] {
        assert_eq!(after(Ascending, target), (landed, CASE_8_PAIRS[first..].to_vec()));
    }
    for (target, landed, rows) in [(&b""[..], (0, 0, 0), 0), (b"a", (0, 13, 1), 1), (b"b", (1, 51, 2), 4), (b"bb", (1, 51, 2), 4), (b"d", (2, 64, 1), 5)] {
        assert_eq!(after(Descending, target), (landed, reversed(&CASE_8_PAIRS[..rows])));
    }
}

/// One region of three rows that start at 0, 13 and 25; the data has 39 bytes.
fn three_rows() -> Vec<u8> {
    block_of(&[&R, &[1, 0, 0, 0, 0, 0, 0, 0, 0, 0, 0, 0], &AB], &[0])
}

/// What a step answers: the pair and the number of the moved cursor.
fn counted(block: &[u8], order: Order, region: usize, at: usize, number: usize) -> Result<Option<(usize, usize, usize)>, Refusal> {
    let mut cursor = cursor(order, region, at, number, b"a");
    let before = cursor.clone();
    let answer = cursor.next(block, &mut [0; KEY_LIMIT]);
    if !matches!(answer, Ok(Some(_))) {
        assert_eq!((cursor.number, cursor.at, cursor.region), (before.number, before.at, before.region));
    }
    Ok(answer?.map(|given| (given.region, given.number, cursor.number)))
}

/// Of the last two 12 times are 0 and 12, were they cut to 64 bits.
const HUGE: [usize; 5] = [usize::MAX, usize::MAX / 12, usize::MAX / 12 + 1, 1 << 62, (1 << 62) + 1];

/// "One that is 0 past the region's start or above a twelfth of the bytes passed there."
#[test]
fn wrong_numbers_ascending() {
    let block = three_rows();
    // At the start only 0.
    assert_eq!(counted(&block, Ascending, 0, 0, 0), Ok(Some((0, 0, 1))));
    assert_eq!(counted(&block, Ascending, 0, 0, 1), Err(18));
    // Past it not 0, and at most a twelfth: positions inside rows are right ascending, so every edge can be asked for.
    for at in 1..39 {
        for number in (0..6).chain(HUGE) {
            let wrong = number == 0 || number > at / 12;
            assert_eq!(counted(&block, Ascending, 0, at, number) == Err(18), wrong, "{number} at {at}");
        }
    }
    assert_eq!(counted(&block, Ascending, 0, 25, 2), Ok(Some((0, 2, 3))));
    // A plausible wrong one is handed on and counted from.
    let mut one_off = cursor(Ascending, 0, 25, 1, b"a");
    assert_eq!(one_off.next(&block, &mut [0; 9]).unwrap().map(|given| (given.region, given.number)), Some((0, 1)));
    assert_eq!(one_off, cursor(Ascending, 0, 39, 2, b"ab"));
    // At the data's end too, where it is told before "done", which leaves it.
    for (number, answer) in [(0, Err(18)), (1, Ok(None)), (2, Ok(None)), (3, Ok(None)), (4, Err(18)), (usize::MAX, Err(18))] {
        assert_eq!(counted(&block, Ascending, 0, 39, number), answer);
    }
    // Only bytes of its own region count; a hand-over sets 0, whatever came.
    let two = block_of(&[&three_rows()[..39], &R], &[0, 39]);
    assert_eq!(counted(&two, Ascending, 1, 39, 0), Ok(Some((1, 0, 1))));
    assert_eq!(counted(&two, Ascending, 1, 39, 1), Err(18));
    assert_eq!(counted(&two, Ascending, 1, 52, 1), Ok(None));
    assert_eq!(counted(&two, Ascending, 1, 52, 2), Err(18));
    for number in [1, 2] {
        assert_eq!(counted(&two, Ascending, 0, 25, number), Ok(Some((0, number, 0))));
    }
}

/// "Descending after the rows read for it."
#[test]
fn wrong_numbers_descending() {
    let block = three_rows();
    for (at, right) in [(13, 1), (25, 2), (39, 3)] {
        for number in (0..6).chain(HUGE) {
            let answer = if number == right { Ok(Some((0, right - 1, right - 1))) } else { Err(18) };
            assert_eq!(counted(&block, Descending, 0, at, number), answer);
        }
    }
    // "At a region's start, where none are read, the number must be 0 before the region before is used, and in region 0 before
    // "done" is said."
    assert_eq!(counted(&block, Descending, 0, 0, 0), Ok(None));
    for number in [1, 3].into_iter().chain(HUGE) {
        assert_eq!(counted(&block, Descending, 0, 0, number), Err(18));
        assert_eq!(counted(&off(1, 13, 26), Descending, 1, 13, number), Err(18));
    }
    assert_eq!(counted(&off(1, 13, 26), Descending, 1, 13, 0), Err(15));
    // The region before is entered with all its rows.
    let two = block_of(&[&three_rows()[..39], &R], &[0, 39]);
    assert_eq!(counted(&two, Descending, 1, 39, 0), Ok(Some((0, 2, 2))));
    assert_eq!(counted(&two, Descending, 1, 39, 3), Err(18));
}

#[test]
fn where_the_number_is_tested() {
    let flags_9 = flagged(9)[..13].to_vec();
    let block = block_of(&[&R, &flags_9, &R], &[0]);
    // Ascending before the row, descending after the rows, which beat it; then 19.
    assert_eq!(counted(&block, Ascending, 0, 13, 1), Err(12));
    assert_eq!(counted(&block, Ascending, 0, 13, 0), Err(18));
    assert_eq!(counted(&block, Ascending, 0, 13, 2), Err(18));
    for number in [0, 1, 2, 3, usize::MAX] {
        assert_eq!(counted(&block, Descending, 0, 26, number), Err(12));
        assert_eq!(counted(&block, Descending, 0, 13, number).is_ok(), number == 1);
        assert_eq!(counted(&off(1, 13, 26), Ascending, 0, 13, number), Err(15));
    }
    for (order, at, number, answer) in [(Ascending, 0, 0, 19), (Ascending, 0, 1, 18), (Descending, 13, 1, 19), (Descending, 13, 2, 18)] {
        assert_eq!(cursor(order, 0, at, number, b"").next(&block, &mut []), Err(answer));
    }
    // "A marked cursor's number is untested"; `is_empty` looks at none, and a seek takes none.
    for order in [Ascending, Descending] {
        for number in [0, 1, 7, usize::MAX] {
            let mut marked = Cursor { done: true, ..cursor(order, 0, 13, number, b"") };
            assert_eq!(step(&mut marked, &block), Ok(None));
            assert_eq!(marked.number, number);
            assert_eq!(cursor(order, 0, 13, number, b"").is_empty(&block), Ok(false));
            let mut sought = cursor(order, 0, 13, number, b"");
            assert_eq!(sought.seek(&b2(), b"ab"), Ok(Sought { found: true, reads: 1 }));
            assert_eq!(sought.number, if order == Ascending { 1 } else { 2 });
            assert_eq!(sought.seek(&block, b"b"), Err(12));
            assert_eq!(sought.number, if order == Ascending { 1 } else { 2 });
        }
    }
}

/// How many rows of region `region` end at or before `at`, of rows given by where they end.
fn truly(ends: &[Vec<usize>], region: usize, at: usize) -> usize {
    ends[region].iter().filter(|end| **end <= at).count()
}

/// "True after opening, steps and seeks in both directions", refused calls in between; and the pair names its row.
#[test]
fn the_number_is_true() {
    let mut chance = Chance(4);
    for _ in 0..300 {
        let interval = 1 + chance.below(5);
        let mut keys: Vec<Vec<u8>> = (0..1 + chance.below(20)).map(|_| chance.key()).collect();
        keys.sort();
        let block = built(interval, &keys.iter().map(Vec::as_slice).collect::<Vec<_>>());
        // Where each row ends, by a walk that asks for no number.
        let (mut ends, mut cursor) = (vec![Vec::new(); keys.len().div_ceil(interval)], Cursor::open(&block, Ascending).unwrap());
        for row in 0..keys.len() {
            ends[row / interval].push(cursor.next(&block, &mut [0; KEY_LIMIT]).unwrap().unwrap().row.next);
        }
        let mut on = Cursor::open(&block, chance.order()).unwrap();
        assert_eq!(on.number, truly(&ends, on.region, on.at));
        for _ in 0..40 {
            let room = [0, 1, 2, KEY_LIMIT][chance.below(4)];
            if chance.below(5) == 0 {
                on.seek(&block, &chance.key()).unwrap();
            } else if let Ok(Some(given)) = on.next(&block, &mut vec![0; room]) {
                assert_eq!(ends[given.region][given.number], given.row.next);
            }
            assert_eq!(on.number, truly(&ends, on.region, on.at));
        }
    }
}

// ---- the seek

#[test]
fn where_a_seek_leaves_the_cursor() {
    let block = case_8_block();
    let data_len = Block::new(&block).unwrap().data.len();
    let sought = |order, target: &[u8]| {
        let mut cursor = Cursor { done: true, ..cursor(order, 77, 77, 77, b"old") };
        cursor.seek(&block, target).unwrap();
        cursor
    };
    // Rows take 13 bytes, 12 when the whole key is shared (row 3).
    assert_eq!(sought(Ascending, b"b"), cursor(Ascending, 0, 13, 1, b"a"));
    assert_eq!(sought(Ascending, b"bb"), cursor(Ascending, 2, 51, 0, b""));
    assert_eq!(sought(Ascending, b""), cursor(Ascending, 0, 0, 0, b""));
    assert_eq!(sought(Ascending, b"d"), Cursor { done: true, ..cursor(Ascending, 2, data_len, 1, b"") });
    assert_eq!(sought(Descending, b"b"), cursor(Descending, 1, 51, 2, b""));
    assert_eq!(sought(Descending, b"a"), cursor(Descending, 0, 13, 1, b""));
    assert_eq!(sought(Descending, b"z"), cursor(Descending, 2, data_len, 1, b""));
    assert_eq!(sought(Descending, b""), Cursor { done: true, ..cursor(Descending, 0, 0, 0, b"") });
    assert_eq!(data_len, 64);
    let mut any = cursor(Descending, 0, 0, 0, b"");
    assert_eq!(any.seek(&block, &[255; 5_000]), Ok(Sought { found: true, reads: 2 }));
}

#[test]
fn a_run_of_equal_restarts() {
    let block = built(1, &[b"a", b"b", b"b", b"b", b"c"]);
    // The span 0..5: reads 2, 1, 0; the run adds nothing.
    assert_eq!(seek(&block, Descending, b"b"), Ok((Some(1), 3)));
    assert_eq!(seek(&block, Ascending, b"b"), Ok((Some(3), 3)));
    let to_the_end = built(1, &[b"b", b"b", b"b"]);
    assert_eq!(seek(&to_the_end, Descending, b"b"), Ok((Some(0), 2)));
    assert_eq!(seek(&to_the_end, Ascending, b"b"), Ok((Some(2), 2)));
}

#[test]
fn descending_takes_the_last_at_or_below() {
    assert_eq!(seek(&built(16, &[b"a", b"z", b"b"]), Descending, b"c"), Ok((Some(0), 1)));
    assert_eq!(seek(&built(16, &[b"z", b"a"]), Descending, b"c"), Ok((Some(0), 1)));
}

#[test]
fn what_a_seek_reads() {
    let flags_9 = flagged(9)[..13].to_vec();
    let b_row = [&[0, 1, 0, b'b'], &R[4..]].concat();
    // Restart keys only in the search; the row landed on is read whole.
    let block = block_of(&[&flags_9, &b_row], &[0, 13]);
    assert_eq!(seek(&block, Ascending, b"a"), Err(12));
    assert_eq!(seek(&block, Descending, b"b"), Ok((Some(1), 2)));
    assert_eq!(seek(&block, Ascending, b"b"), Err(12));
    // Descending reads its whole region, past the row that it takes.
    let block = block_of(&[&R, &b_row, &flags_9], &[0]);
    assert_eq!(seek(&block, Descending, b"a"), Err(12));
    assert_eq!(seek(&block, Ascending, b"a"), Ok((Some(1), 1)));
    // Only the offsets used: opening refuses this block. Middle 1 uses 13 and 26, then 0 and 13.
    let block = off(0, 13, 26);
    let wrong_last = block_of(&[&R, &R, &R], &[0, 13, 26, 7]);
    assert_eq!(Cursor::open(&wrong_last, Ascending), Err(15));
    let mut on = cursor(Ascending, 0, 0, 0, b"");
    assert_eq!(on.seek(&wrong_last, b"a"), Err(15));
    assert_eq!(on.seek(&block, b"a"), Ok(Sought { found: true, reads: 2 }));
    let unused = block_of(&[&R, &R, &R, &R, &R], &[0, 13, 26, 39, 7]);
    assert_eq!(Cursor::open(&unused, Ascending), Err(15));
    assert_eq!(seek(&unused, Ascending, b"a"), Ok((Some(1), 3)));
    // The run of equal restarts meets it.
    assert_eq!(seek(&unused, Descending, b"a"), Err(15));
    // A restart inside a row is read as what stands there: here a share of 0x61.
    assert_eq!(seek(&block_of(&[&R, &R], &[0, 3]), Ascending, b"a"), Err(13));
    // A restart's suffix past its region is 16, its row's end is not looked at.
    let inside = block_of(&[&[0, 2, 0], &AB_RESTART], &[0, 3]);
    assert_eq!(Block::new(&inside).unwrap().restart_key(0), Err(16));
    let row_past = block_of(&[&R[..5], &AB_RESTART], &[0, 5]);
    assert_eq!(Block::new(&row_past).unwrap().restart_key(0), Ok(&b"a"[..]));
}

// ---- against plain lists, and against chance

/// A small generator (the multiplier is Knuth's), so that every run is the same.
struct Chance(u64);

impl Chance {
    fn below(&mut self, bound: usize) -> usize {
        self.0 = self.0.wrapping_mul(6_364_136_223_846_793_005).wrapping_add(1_442_695_040_888_963_407);
        (self.0 >> 33) as usize % bound
    }

    fn key(&mut self) -> Vec<u8> {
        (0..1 + self.below(4)).map(|_| b'a' + self.below(3) as u8).collect()
    }

    /// Small numbers, lengths near the limits, and the greatest.
    fn number(&mut self) -> usize {
        let edges = [0, 1, 12, 13, 16, INTERVAL_LIMIT, INTERVAL_LIMIT + 1, KEY_LIMIT, KEY_LIMIT + 1, 5_042, 5_043, 65_535, 65_536, 131_072, usize::MAX / 12, usize::MAX - 1, usize::MAX];
        match self.below(3) {
            0 => edges[self.below(edges.len())],
            _ => self.below(80),
        }
    }

    /// Few numbers, so that equal keys come with falling, equal and rising ones; the extremes among them.
    fn seq(&mut self) -> u64 {
        [0, 1, 2, 3, 1 << 63, u64::MAX][self.below(6)]
    }

    fn order(&mut self) -> Order {
        [Ascending, Descending][self.below(2)]
    }
}

#[test]
fn finished_blocks_read_back() {
    let mut chance = Chance(1);
    let mut accepted = 0;
    for _ in 0..600 {
        let mut rows: Vec<(Vec<u8>, u64)> = (0..1 + chance.below(30)).map(|_| (chance.key(), chance.seq())).collect();
        // As they come; by key, with any numbers; or in order, and none twice.
        let sorted = chance.below(4) > 0;
        if sorted {
            rows.sort_by(|one, other| one.0.cmp(&other.0).then(other.1.cmp(&one.1)));
            rows.dedup();
        }
        if sorted && chance.below(2) == 0 {
            rows.iter_mut().for_each(|row| row.1 = chance.seq());
        }
        let interval = 1 + chance.below(6);
        let block = built_of(interval, &rows.iter().map(|(key, seq)| (key.as_slice(), *seq)).collect::<Vec<_>>());
        assert_eq!(check(&block), if in_order(&rows) { Ok(rows.len()) } else { Err(17) });
        accepted += usize::from(in_order(&rows));
        let seqs: Vec<u64> = rows.iter().map(|row| row.1).collect();
        assert_eq!(walk(&block, Cursor::open(&block, Ascending).unwrap()).unwrap(), seqs);
        let back: Vec<u64> = seqs.iter().rev().copied().collect();
        assert_eq!(walk(&block, Cursor::open(&block, Descending).unwrap()).unwrap(), back);
        // "Row number k of region r": r times the interval rows stand before that region.
        let pairs: Vec<(usize, usize)> = (0..rows.len()).map(|row| (row / interval, row % interval)).collect();
        assert_eq!(named(&block, Cursor::open(&block, Ascending).unwrap()).1, pairs);
        assert_eq!(named(&block, Cursor::open(&block, Descending).unwrap()).1, reversed(&pairs));
        if sorted {
            seeks_like_a_list(&block, &rows, &mut chance);
        }
    }
    assert!((200..400).contains(&accepted), "{accepted} of 600 are accepted");
}

/// Keys alone count, so the numbers may be any.
fn seeks_like_a_list(block: &[u8], rows: &[(Vec<u8>, u64)], chance: &mut Chance) {
    for _ in 0..20 {
        let target = if chance.below(8) == 0 { Vec::new() } else { chance.key() };
        let first = rows.iter().position(|row| row.0 >= target);
        let last = rows.iter().rposition(|row| row.0 <= target);
        assert_eq!(seek(block, Ascending, &target).unwrap().0, first.map(|i| rows[i].1));
        assert_eq!(seek(block, Descending, &target).unwrap().0, last.map(|i| rows[i].1));
        // From there the walk goes on to the end.
        let mut on = cursor(Ascending, 0, 0, 0, b"");
        on.seek(block, &target).unwrap();
        assert_eq!(walk(block, on).unwrap().len(), rows.len() - first.unwrap_or(rows.len()));
        let mut back = cursor(Descending, 0, 0, 0, b"");
        back.seek(block, &target).unwrap();
        assert_eq!(walk(block, back).unwrap().len(), last.map_or(0, |i| i + 1));
    }
}

#[test]
fn no_input_breaks_a_reader() {
    let mut chance = Chance(2);
    for round in 0..20_000 {
        let mut block = [b2(), b4(), case_8_block(), off(0, 13, 26), vec![0; 40]][round % 5].clone();
        for _ in 0..chance.below(5) {
            let at = chance.below(block.len());
            block[at] = [0, 1, 2, 13, 127, 128, 255][chance.below(7)];
        }
        block.truncate(block.len() - [0, 0, 1, 9][chance.below(4)]);
        let (key, len) = (chance.key(), chance.number());
        let key = Key { len: if round % 2 == 0 { key.len() } else { len }, ..Key::of(&key) };
        let (at, number, done) = (chance.number(), chance.number(), chance.below(9) == 0);
        let forged = Cursor { order: chance.order(), region: chance.below(5), at, number, key, done };
        let _ = check(&block);
        let _ = forged.is_empty(&block);
        let mut stepped = forged.clone();
        for _ in 0..4 {
            let _ = step(&mut stepped, &block);
        }
        let target = chance.key();
        let mut sought = forged.clone();
        if let Err(refusal) = sought.seek(&block, &target) {
            assert!(refusal != 18 && refusal != 19);
            assert_eq!(sought, forged);
        }
        // An accepted block opens, and is walked to its end both ways; no key stands in it twice with one number.
        if let Ok(rows) = check(&block) {
            for order in [Ascending, Descending] {
                assert_eq!(walk(&block, Cursor::open(&block, order).unwrap()).unwrap().len(), rows);
            }
            let entries = entries(&block);
            let different: BTreeSet<_> = entries.iter().collect();
            assert_eq!((entries.len(), different.len()), (rows, rows));
            assert!(in_order(&entries));
        }
        let _ = row::decode(&block, chance.number());
        let _ = row::decode_key(&block, chance.number());
        let place = Place { data: &block, at: chance.number(), previous_len: chance.number(), restart: false, region_end: chance.number() };
        let _ = (row::read(&place), row::read_key(&place));
        if let Ok(block) = Block::new(&block) {
            let region = Region { start: chance.number(), end: chance.number() };
            let _ = (block.row(region, chance.number(), b"abc"), block.restart_key(chance.number()), block.region(chance.number()));
        }
    }
}

#[test]
fn no_state_breaks_a_builder() {
    let mut chance = Chance(3);
    for _ in 0..20_000 {
        let (interval, rows) = (1 + chance.below(3), chance.below(6));
        let restarts = if chance.below(4) == 0 { chance.number() } else { rows.div_ceil(interval) };
        let interval = if chance.below(9) == 0 { chance.number() } else { interval };
        let rows = if chance.below(9) == 0 { chance.number() } else { rows };
        let last_key = Key { len: chance.number(), ..Key::of(b"abc") };
        let mut builder = Builder { block_size: chance.number(), interval, used: chance.number(), restarts, rows, last_key };
        let mut data = vec![0xEE; chance.below(200)];
        let mut places = vec![0xEEEE; chance.below(5)];
        let before = (builder.clone(), data.clone(), places.clone());
        let key = chance.key();
        let _ = builder.would_fit(chance.number(), chance.number(), &key, b"v", &plain(1));
        let fit = builder.would_fit(data.len(), places.len(), &key, b"v", &plain(1));
        let answer = builder.add(&mut data, &mut places, &key, b"v", &plain(1));
        match (fit, answer) {
            (Ok(size), Ok(())) => assert_eq!(builder.used, before.0.used + size),
            (Ok(_), Err(refusal)) => assert!(refusal == 5 || refusal == 6),
            (Err(refusal), answer) => assert_eq!(answer, Err(refusal)),
        }
        if answer.is_err() {
            assert_eq!((builder.clone(), data.clone(), places.clone()), before);
        }
        let before = data.clone();
        if builder.build(&mut data, &places).is_err() {
            assert_eq!(data, before);
        }
    }
}
