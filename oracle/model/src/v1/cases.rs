//! Edges of the earlier format that are easily got wrong. Expected values come from the readings, none from the model itself.
use super::builder::Builder;
use super::check::check;
use super::cursor::{Cursor, Given};
use super::row::{self, KeyPart, Place};
use super::{LEAST_ROW, MOST_ROWS};
use crate::cursor::Order::{self, *};
use crate::row::{Fields, Kind};
use crate::seek::Sought;
use crate::{Key, Refusal, KEY_LIMIT, VALUE_LIMIT};

/// Share, suffix length, "a", seq 1, flags, value length.
const A: [u8; 18] = [0, 0, 0, 1, 0x61, 0, 0, 0, 0, 0, 0, 0, 1, 0, 0, 0, 0, 0];
/// The same as a tombstone: no value length at all.
const DEAD_A: [u8; 14] = [0, 0, 0, 1, 0x61, 0, 0, 0, 0, 0, 0, 0, 1, 1];
/// And as a later tombstone of the first key, which it shares whole.
const DEAD_LATER: [u8; 13] = [0, 1, 0, 0, 0, 0, 0, 0, 0, 0, 0, 1, 1];
/// "ab" after "a", value "x", seq 2.
const AB: [u8; 19] = [0, 1, 0, 1, 0x62, 0, 0, 0, 0, 0, 0, 0, 2, 0, 0, 0, 0, 1, 0x78];
/// "b", a merge of "yz", seq 3, created at 5.
const B: [u8; 28] = [0, 0, 0, 1, 0x62, 0, 0, 0, 0, 0, 0, 0, 3, 12, 0, 0, 0, 0, 0, 0, 0, 5, 0, 0, 0, 2, 0x79, 0x7A];

fn plain(seq: u64) -> Fields {
    Fields { kind: Kind::Value, seq, expire: None, create: None }
}

fn dead(seq: u64) -> Fields {
    Fields { kind: Kind::Tombstone, ..plain(seq) }
}

fn merge_at_5() -> Fields {
    Fields { kind: Kind::Merge, create: Some(5), ..plain(3) }
}

/// Rows, then the offsets, then the count.
fn block_of(rows: &[&[u8]], offsets: &[u16]) -> Vec<u8> {
    let mut block = rows.concat();
    for number in offsets.iter().chain([&(offsets.len() as u16)]) {
        block.extend(number.to_be_bytes());
    }
    block
}

/// The rows one after another, with the offsets that they have.
fn laid(rows: &[&[u8]]) -> Vec<u8> {
    let offsets: Vec<u16> = rows.iter().scan(0, |at, row| Some(std::mem::replace(at, *at + row.len() as u16))).collect();
    block_of(rows, &offsets)
}

fn three() -> Vec<u8> {
    laid(&[&A, &AB, &B])
}

fn with_flags(row: &[u8], at: usize, flags: u8) -> Vec<u8> {
    let mut row = row.to_vec();
    row[at] = flags;
    row
}

/// One step with a large key buffer: the row's number and key, or "done". A refused step, and "done", change nothing.
fn step(cursor: &mut Cursor, block: &[u8]) -> Result<Option<(usize, Vec<u8>)>, Refusal> {
    let (mut out, before) = ([0xEE; 2 * KEY_LIMIT], *cursor);
    let answer = cursor.next(block, &mut out);
    if !matches!(answer, Ok(Some(_))) {
        assert!(out.iter().all(|byte| *byte == 0xEE));
        assert_eq!(*cursor, before);
    }
    Ok(answer?.map(|Given { number, row }| (number, out[..row.shared + row.suffix_len].to_vec())))
}

fn step_from(block: &[u8], order: Order, passed: usize) -> Result<Option<(usize, Vec<u8>)>, Refusal> {
    step(&mut Cursor { order, passed }, block)
}

fn gives(number: usize, key: &[u8]) -> Result<Option<(usize, Vec<u8>)>, Refusal> {
    Ok(Some((number, key.to_vec())))
}

/// Where a seek leaves the cursor, and what it says; the count that came is forged.
fn seek(block: &[u8], order: Order, target: &[u8]) -> Result<(usize, bool, usize), Refusal> {
    let mut cursor = Cursor { order, passed: usize::MAX };
    let answer = cursor.seek(block, target);
    if answer.is_err() {
        assert_eq!(cursor, Cursor { order, passed: usize::MAX });
    }
    let Sought { found, reads } = answer?;
    Ok((cursor.passed, found, reads))
}

// ---- one row

#[test]
fn the_row_of_a() {
    for (shared, suffix, fields, bytes) in [(0, &b"a"[..], plain(1), &A[..]), (0, b"a", dead(1), &DEAD_A), (1, b"", dead(1), &DEAD_LATER)] {
        let mut output = [0xEE; 20];
        let size = bytes.len();
        assert_eq!(row::size(shared, suffix.len(), 0, &fields), Ok(size));
        assert_eq!(row::encode(&mut output, 1, shared, suffix, b"", &fields), Ok(size));
        assert_eq!((&output[..size], &output[size..]), (bytes, &[0xEE; 20][size..]));
        assert_eq!(row::encode(&mut [0; 20][..size - 1], 1, shared, suffix, b"", &fields), Err(6));
        let read = row::decode(bytes, 1).unwrap();
        assert_eq!((read.start, read.next, read.shared, read.suffix_at, read.suffix_len), (0, size, shared, 4, suffix.len()));
        assert_eq!((read.value_at, read.value_len, read.fields), (if fields.kind == Kind::Value { 18 } else { 0 }, 0, fields));
        assert_eq!(row::decode_key(bytes, 1), Ok(KeyPart { shared, suffix_at: 4, suffix_len: suffix.len(), end: 4 + suffix.len() }));
    }
}

#[test]
fn a_tombstone_with_both_times() {
    let fields = Fields { expire: Some(-1), create: Some(2), ..dead(1) };
    let mut output = [0; 30];
    // The offered value, though it is over the limit, is ignored.
    assert_eq!(row::encode(&mut output, 0, 0, b"a", &[7; 70_000], &fields), Ok(30));
    assert_eq!(output[..13], DEAD_A[..13]);
    assert_eq!(output[13], 7);
    assert_eq!((&output[14..22], &output[22..30]), (&[255; 8][..], &[0, 0, 0, 0, 0, 0, 0, 2][..]));
    let read = row::decode(&output, 0).unwrap();
    assert_eq!((read.fields, read.value_at, read.value_len, read.next), (fields, 0, 0, 30));
    assert_eq!(check(&laid(&[&output])), Ok(1));
    // A time that is missing: 9. One byte more is no part of a row by itself, and 20 in a block.
    assert_eq!(row::decode(&output[..29], 0), Err(9));
    assert_eq!(row::decode(&[&output[..], &[0]].concat(), 0).unwrap().next, 30);
    assert_eq!(check(&laid(&[&[&output[..], &[0]].concat()])), Err(20));
}

#[test]
fn times_before_the_value() {
    let mut output = [0; 28];
    assert_eq!(row::encode(&mut output, 0, 0, b"b", b"yz", &merge_at_5()), Ok(28));
    assert_eq!(output, B);
    let read = row::decode(&B, 0).unwrap();
    assert_eq!((read.value_at, read.value_len, read.fields), (26, 2, merge_at_5()));
}

#[test]
fn the_order_of_a_row_read() {
    // 9 as met, before 13
    for cut in 0..4 {
        assert_eq!(row::decode(&[0, 2, 0, 0][..cut], 0), Err(9));
        assert_eq!(row::decode_key(&[0, 2, 0, 0][..cut], 0), Err(9));
    }
    // 13 before 1 and 2, 1 and 2 before the suffix is missed
    assert_eq!(row::decode(&[0, 2, 0, 0], 1), Err(13));
    assert_eq!(row::decode(&[0, 0, 0, 0], 1), Err(1));
    assert_eq!(row::decode(&[0, 0, 0x10, 1], 1), Err(2));
    assert_eq!(row::decode(&[0, 1, 0x10, 0], 1), Err(2));
    assert_eq!(row::decode(&[0, 0, 0x10, 0], 1), Err(9));
    // suffix, seq and flags
    for cut in 4..14 {
        assert_eq!(row::decode(&A[..cut], 0), Err(9));
        assert_eq!(row::decode_key(&A[..cut], 0).err(), (cut < 5).then_some(9));
    }
    // flags before the times and the value's length
    assert_eq!(row::decode(&with_flags(&A[..14], 13, 16), 0), Err(11));
    assert_eq!(row::decode(&with_flags(&A[..14], 13, 9), 0), Err(12));
    assert_eq!(row::decode(&with_flags(&A[..14], 13, 2), 0), Err(9));
    // the value's length, 3 before the value is missed
    for cut in 14..18 {
        assert_eq!(row::decode(&A[..cut], 0), Err(9));
    }
    assert_eq!(row::decode(&with_flags(&A, 15, 1), 0), Err(3));
    assert_eq!(row::decode(&with_flags(&A, 17, 1), 0), Err(9));
    let most = [&A[..14], &[0, 0, 255, 255], &[7; VALUE_LIMIT]].concat();
    assert_eq!(row::decode(&most, 0).unwrap().value_len, VALUE_LIMIT);
    assert_eq!(row::decode(&most[..most.len() - 1], 0), Err(9));
}

#[test]
fn the_limits_of_a_row() {
    let long = [b'k'; KEY_LIMIT + 1];
    let value = [7; VALUE_LIMIT + 1];
    assert_eq!(row::size(0, 0, 0, &plain(1)), Err(1));
    assert_eq!(row::size(1, KEY_LIMIT, 0, &plain(1)), Err(2));
    assert_eq!(row::size(usize::MAX, usize::MAX, 0, &plain(1)), Err(2));
    assert_eq!(row::size(1, KEY_LIMIT - 1, 0, &plain(1)), Ok(KEY_LIMIT - 1 + 17));
    assert_eq!(row::size(0, 1, VALUE_LIMIT + 1, &plain(1)), Err(3));
    assert_eq!(row::size(0, 1, usize::MAX, &dead(1)), Ok(14));
    assert_eq!(row::size(0, 1, usize::MAX, &plain(1)), Err(3));
    // encoding: 13, 1, 2, 3, 6
    assert_eq!(row::encode(&mut [], 0, 1, b"", &value, &plain(1)), Err(13));
    assert_eq!(row::encode(&mut [], 0, 0, b"", &value, &plain(1)), Err(1));
    assert_eq!(row::encode(&mut [], 0, 0, &long, &value, &plain(1)), Err(2));
    assert_eq!(row::encode(&mut [], 0, 0, b"a", &value, &plain(1)), Err(3));
    assert_eq!(row::encode(&mut [], 0, 0, b"a", b"", &plain(1)), Err(6));
    assert_eq!(row::encode(&mut [], usize::MAX, KEY_LIMIT + 1, b"", b"", &plain(1)), Err(2));
}

#[test]
fn a_first_row_that_shares() {
    let block = laid(&[&DEAD_LATER, &A]);
    assert_eq!(check(&block), Err(13));
    assert_eq!(Cursor::open(&block, Ascending), Err(13));
    assert_eq!(step_from(&block, Descending, 0), Err(13));
    assert_eq!(seek(&block, Descending, b"a"), Err(13));
    // by its place: a row by itself may share
    assert!(row::decode(&DEAD_LATER, 1).is_ok());
    assert_eq!(row::read(&Place { data: &DEAD_LATER, at: 0, first_len: 1, row_0: true, next: None }), Err(13));
}

#[test]
fn a_share_longer_than_the_first_key() {
    // "ab" shares two bytes of "a"
    let block = laid(&[&A, &with_flags(&AB, 1, 2), &B]);
    assert_eq!(check(&block), Err(13));
    assert_eq!(Cursor::open(&block, Ascending), Ok(Cursor { order: Ascending, passed: 0 }));
    assert_eq!(step_from(&block, Ascending, 0), gives(0, b"a"));
    assert_eq!(step_from(&block, Ascending, 1), Err(13));
    assert_eq!(step_from(&block, Ascending, 2), gives(2, b"b"));
    // the middle of three is read first
    assert_eq!(seek(&block, Ascending, b"b"), Err(13));
    // a share of the first key, not of the row before: "bb" after "a" and "b" shares nothing
    let after_b = laid(&[&A, &B, &with_flags(&AB, 1, 1)]);
    assert_eq!(step_from(&after_b, Ascending, 2), gives(2, b"ab"));
}

// ---- building

#[test]
fn a_block_of_three_rows() {
    let (mut data, mut offsets) = ([0xEE; 80], [0xEEEE; 4]);
    let mut builder = Builder::new(4_096).unwrap();
    assert!(builder.is_empty());
    assert_eq!(builder.build(&mut data, &offsets), Err(7));
    builder.add(&mut data, &mut offsets, b"a", b"", &plain(1)).unwrap();
    assert_eq!((&data[..18], &data[18..]), (&A[..], &[0xEE; 62][..]));
    builder.add(&mut data, &mut offsets, b"ab", b"x", &plain(2)).unwrap();
    builder.add(&mut data, &mut offsets, b"b", b"yz", &merge_at_5()).unwrap();
    assert_eq!(builder, Builder { block_size: 4_096, used: 65, rows: 3, first_key: Key::of(b"a") });
    assert_eq!((offsets, &data[65..]), ([0, 18, 37, 0xEEEE], &[0xEE; 15][..]));
    assert_eq!(builder.build(&mut data, &offsets), Ok(73));
    assert_eq!((&data[..73], &data[73..]), (&three()[..], &[0xEE; 7][..]));
    assert_eq!(data[65..73], [0, 0, 0, 18, 0, 37, 0, 3]);
    assert_eq!(check(&three()), Ok(3));
}

#[test]
fn rows_share_with_the_first_key_alone() {
    let (mut data, mut offsets) = ([0; 200], [0; 5]);
    let mut builder = Builder::new(4_096).unwrap();
    let mut sizes = Vec::new();
    for key in [&b"abc"[..], b"abd", b"abd", b"b", b"abcd"] {
        sizes.push(builder.would_fit(200, 5, key, b"", &dead(1)).unwrap());
        builder.add(&mut data, &mut offsets, key, b"", &dead(1)).unwrap();
    }
    assert_eq!(sizes, [16, 14, 14, 14, 14]);
    assert_eq!(builder.first_key, Key::of(b"abc"));
}

#[test]
fn a_block_size_one_short() {
    // 18 data bytes, an offset and the count are 22; the row of "ab" takes 19, and its offset is not counted.
    for (block_size, answer) in [(41, Ok(())), (40, Err(4))] {
        let (mut data, mut offsets) = ([0; 60], [0; 3]);
        let mut builder = Builder::new(block_size).unwrap();
        builder.add(&mut data, &mut offsets, b"a", b"", &plain(1)).unwrap();
        let before = (builder.clone(), data, offsets);
        assert_eq!(builder.would_fit(60, 3, b"ab", b"x", &plain(2)), answer.map(|()| 19));
        assert_eq!(builder.add(&mut data, &mut offsets, b"ab", b"x", &plain(2)), answer);
        assert_eq!((builder.clone(), data, offsets) == before, answer.is_err());
        if answer.is_ok() {
            // "so a finished block may be 2 bytes over"
            assert_eq!(builder.build(&mut data, &offsets), Ok(43));
        }
    }
    // an empty builder takes a first row of any allowed size
    assert_eq!(Builder::new(0).unwrap().would_fit(0, 0, &[b'k'; KEY_LIMIT], &[7; VALUE_LIMIT], &plain(1)), Ok(KEY_LIMIT + VALUE_LIMIT + 17));
    assert_eq!(Builder::new(131_072).map(|_| ()), Ok(()));
    assert_eq!(Builder::new(131_073).map(|_| ()), Err(8));
}

#[test]
fn a_row_at_65_535_and_65_536() {
    for (first_value, answer) in [(65_535 - 18, Ok(())), (65_536 - 18, Err(5))] {
        let (mut data, mut offsets) = (vec![0; 70_000], [9; 2]);
        let mut builder = Builder::new(131_072).unwrap();
        builder.add(&mut data, &mut offsets, b"a", &vec![7; first_value], &plain(2)).unwrap();
        assert_eq!(builder.used, first_value + 18);
        assert!(builder.would_fit(70_000, 2, b"b", b"", &plain(1)).is_ok());
        assert_eq!(builder.add(&mut data, &mut offsets, b"b", b"", &plain(1)), answer);
        assert_eq!(offsets[1], if answer.is_ok() { 65_535 } else { 9 });
        let end = builder.build(&mut data, &offsets).unwrap();
        assert_eq!(check(&data[..end]), Ok(1 + answer.is_ok() as usize));
    }
}

#[test]
fn the_order_of_adding() {
    let value = [7; VALUE_LIMIT + 1];
    let long = [b'k'; KEY_LIMIT + 1];
    let good = Builder { block_size: 30, used: 65_536, rows: 1, first_key: Key::of(b"a") };
    let add = |builder: &Builder, data_len: usize, key: &[u8], value: &[u8]| builder.clone().add(&mut vec![0; data_len], &mut [0; 2], key, value, &plain(1));
    assert_eq!(add(&good, 65_535, b"", &value), Err(18));
    assert_eq!(add(&good, 65_536, b"", &value), Err(1));
    assert_eq!(add(&good, 65_536, &long, &value), Err(2));
    assert_eq!(add(&good, 65_536, b"a", &value), Err(3));
    assert_eq!(add(&good, 65_536, b"a", b""), Err(4));
    let large = Builder { block_size: 131_072, ..good };
    assert_eq!(add(&large, 65_536, b"a", b""), Err(5));
    let near = Builder { used: 65_535, ..large };
    assert_eq!(add(&near, 65_535 + 17 + 5, b"a", b""), Err(6));
    assert_eq!(add(&near, 65_535 + 17 + 6, b"a", b""), Ok(()));
    // no place for the offset
    assert_eq!(near.clone().add(&mut vec![0; 70_000], &mut [0; 1], b"a", b"", &plain(1)), Err(6));
    // building: 18, 7, 6
    assert_eq!(near.build(&mut vec![0; 65_538], &[0]), Err(6));
    assert_eq!(near.build(&mut vec![0; 65_539], &[0]), Ok(65_539));
    assert_eq!(near.build(&mut vec![0; 65_534], &[0]), Err(18));
}

#[test]
fn states_that_can_not_be() {
    let good = Builder { block_size: 131_072, used: 13, rows: 1, first_key: Key::none() };
    let fit = |builder: &Builder| builder.would_fit(70_000, 6_000, b"a", b"", &plain(1)).map(|_| ());
    assert_eq!(fit(&good), Ok(()));
    assert_eq!(fit(&Builder { block_size: 131_073, ..good.clone() }), Err(18));
    assert_eq!(fit(&Builder { used: 70_001, ..good.clone() }), Err(18));
    assert_eq!(good.would_fit(70_000, 0, b"a", b"", &plain(1)), Err(18));
    assert_eq!(fit(&Builder { used: 12, ..good.clone() }), Err(18));
    assert_eq!(fit(&Builder { rows: 0, ..good.clone() }), Err(18));
    assert_eq!(fit(&Builder { used: LEAST_ROW * MOST_ROWS, rows: MOST_ROWS, ..good.clone() }), Ok(()));
    assert_eq!(fit(&Builder { used: 70_000, rows: MOST_ROWS + 1, ..good.clone() }), Err(18));
    assert_eq!(fit(&Builder { rows: usize::MAX, ..good.clone() }), Err(18));
    assert_eq!(fit(&Builder { first_key: Key::of(&[0; KEY_LIMIT]), ..good.clone() }), Ok(()));
    assert_eq!(fit(&Builder { first_key: Key::of(&[0; KEY_LIMIT + 1]), ..good }), Err(18));
}

#[test]
fn the_most_rows() {
    // Row 0 takes 14 bytes, the others 13: the last one starts at 65,534.
    let (mut data, mut offsets) = (vec![0; 131_072], vec![0; MOST_ROWS + 1]);
    let mut builder = Builder::new(131_072).unwrap();
    for seq in (0..MOST_ROWS as u64).rev() {
        builder.add(&mut data, &mut offsets, b"a", b"", &dead(seq)).unwrap();
    }
    assert_eq!((builder.used, offsets[MOST_ROWS - 1]), (65_547, 65_534));
    assert_eq!(builder.add(&mut data, &mut offsets, b"a", b"", &dead(0)), Err(5));
    let end = builder.build(&mut data, &offsets).unwrap();
    assert_eq!(check(&data[..end]), Ok(MOST_ROWS));
    assert_eq!(seek(&data[..end], Ascending, b"a"), Ok((0, true, 13)));
    assert_eq!(seek(&data[..end], Descending, b"a").map(|(passed, ..)| passed), Ok(0));
}

// ---- reading

#[test]
fn a_gap() {
    // a byte between the rows, and one after the last
    for (block, whole) in [(block_of(&[&A, &[0], &B], &[0, 19]), Err(20)), (block_of(&[&A, &B, &[0]], &[0, 18]), gives(0, b"a"))] {
        assert_eq!(check(&block), Err(20));
        assert!(Cursor::open(&block, Descending).is_ok());
        assert_eq!(step_from(&block, Ascending, 0), whole);
        assert_eq!(step_from(&block, Descending, 0).is_err(), whole.is_ok());
        // a key-only read does not see it
        assert_eq!(seek(&block, Ascending, b"b"), Ok((1, true, 2)));
    }
}

#[test]
fn an_overrun() {
    let block = block_of(&[&A, &AB], &[0, 17]);
    assert_eq!(check(&block), Err(16));
    assert!(Cursor::open(&block, Ascending).is_ok());
    assert_eq!(step_from(&block, Ascending, 0), Err(16));
    // of a key alone the suffix's end counts
    let within = block_of(&[&A, &AB], &[0, 5]);
    assert_eq!(Cursor::open(&within, Ascending), Ok(Cursor { order: Ascending, passed: 0 }));
    let into = block_of(&[&A, &AB], &[0, 4]);
    assert_eq!(Cursor::open(&into, Ascending), Err(16));
    assert_eq!(seek(&into, Ascending, b"a"), Err(16));
    // the flags of a row that runs into the next come first
    assert_eq!(check(&block_of(&[&with_flags(&A, 13, 16), &AB], &[0, 17])), Err(11));
}

#[test]
fn trailers_and_offsets() {
    for block in [&[][..], &[0], &[0, 0], &[0, 1], &[0, 0, 0, 2], &[&A[..], &[0, 0]].concat()] {
        assert_eq!(check(block), Err(14));
        assert_eq!(Cursor::open(block, Ascending), Err(14));
        assert_eq!(step_from(block, Ascending, usize::MAX), Err(14));
        assert_eq!(seek(block, Ascending, b""), Err(14));
        assert_eq!(Cursor { order: Descending, passed: 0 }.is_empty(block), Err(14));
    }
    for offsets in [[1, 18], [0, 0], [0, 37], [18, 0]] {
        assert_eq!(check(&block_of(&[&A, &AB], &offsets)), Err(15));
        assert_eq!(Cursor::open(&block_of(&[&A, &AB], &offsets), Descending), Err(15));
    }
    assert_eq!(check(&[0, 0, 0, 1]), Err(15));
    // A step tests the offsets of row 0, of its row and the next: not those between.
    let block = block_of(&[&A, &AB, &B], &[0, 18, 37, 64]);
    assert_eq!(step_from(&block, Ascending, 0), gives(0, b"a"));
    assert_eq!(step_from(&block, Ascending, 2), Err(16));
    let block = block_of(&[&A, &AB, &B], &[0, 18, 65]);
    assert_eq!(step_from(&block, Ascending, 0), gives(0, b"a"));
    assert_eq!(step_from(&block, Ascending, 1), Err(15));
    let block = block_of(&[&A, &A, &B, &AB], &[0, 18, 18, 64]);
    assert_eq!(step_from(&block, Descending, 0), gives(3, b"ab"));
}

#[test]
fn the_order_of_rows() {
    // equal keys: the larger number first
    let first = with_flags(&DEAD_A, 12, 2);
    assert_eq!(check(&laid(&[&first, &DEAD_LATER])), Ok(2));
    assert_eq!(check(&laid(&[&DEAD_A, &DEAD_LATER])), Err(17));
    assert_eq!(check(&laid(&[&DEAD_A, &with_flags(&DEAD_LATER, 11, 2)])), Err(17));
    assert_eq!(check(&laid(&[&B, &A])), Err(17));
    // last of its row
    assert_eq!(check(&laid(&[&B, &with_flags(&A, 13, 9)])), Err(12));
    assert_eq!(check(&block_of(&[&B, &A, &[0]], &[0, 28])), Err(20));
}

#[test]
fn walks() {
    let block = three();
    let keys = [&b"a"[..], b"ab", b"b"];
    for order in [Ascending, Descending] {
        let mut cursor = Cursor::open(&block, order).unwrap();
        for passed in 0..3 {
            assert_eq!((cursor.passed, cursor.is_empty(&block)), (passed, Ok(false)));
            let number = if order == Ascending { passed } else { 2 - passed };
            assert_eq!(step(&mut cursor, &block), gives(number, keys[number]));
        }
        // "the answer stays "done" with the cursor unchanged"
        for _ in 0..2 {
            assert_eq!(cursor.is_empty(&block), Ok(true));
            assert_eq!(step(&mut cursor, &block), Ok(None));
            assert_eq!(cursor, Cursor { order, passed: 3 });
        }
        // forged counts
        for passed in [4, 5, usize::MAX] {
            assert_eq!(step_from(&block, order, passed), Err(18));
            assert_eq!(Cursor { order, passed }.is_empty(&block), Ok(true));
        }
    }
    // "done" is said before an offset or a row is looked at, 18 too
    let bad = block_of(&[&[0xFF; 40]], &[9, 9]);
    assert_eq!(step_from(&bad, Ascending, 2), Ok(None));
    assert_eq!(step_from(&bad, Ascending, 3), Err(18));
    assert_eq!(step_from(&bad, Ascending, 1), Err(15));
}

#[test]
fn a_short_key_buffer() {
    let block = three();
    let mut cursor = Cursor { order: Ascending, passed: 1 };
    assert_eq!(cursor.next(&block, &mut [0; 1]), Err(19));
    assert_eq!(cursor.passed, 1);
    let mut out = [0xEE; 3];
    assert_eq!(cursor.next(&block, &mut out).unwrap().unwrap().number, 1);
    assert_eq!(out, [b'a', b'b', 0xEE]);
    // row 0's key, though it is read, never passes through the lent buffer
    let long = laid(&[&[&[0, 0, 0, 9][..], b"aaaaaaaaa", &A[5..]].concat(), &B]);
    assert_eq!(Cursor { order: Descending, passed: 0 }.next(&long, &mut [0; 1]).unwrap().unwrap().number, 1);
    // last of all
    assert_eq!(Cursor { order: Ascending, passed: 1 }.next(&block_of(&[&A, &AB, &[0]], &[0, 18]), &mut []), Err(20));
}

#[test]
fn seeks() {
    // a, b, b, b, c
    let [b3, b2, b1] = [3, 2, 1].map(|seq| with_flags(&with_flags(&DEAD_A, 4, b'b'), 12, seq));
    let c = with_flags(&DEAD_A, 4, b'c');
    let block = laid(&[&DEAD_A, &b3, &b2, &b1, &c]);
    assert_eq!(check(&block), Ok(5));
    // the middles are 2, 1, 0 or 2, 4, 3: three keys are read, or two where the span closes early
    assert_eq!(seek(&block, Ascending, b"b"), Ok((1, true, 3)));
    assert_eq!(seek(&block, Descending, b"b"), Ok((1, true, 3)));
    assert_eq!(seek(&block, Ascending, b"bb"), Ok((4, true, 3)));
    assert_eq!(seek(&block, Descending, b"bb"), Ok((1, true, 3)));
    assert_eq!(seek(&block, Ascending, b"d"), Ok((5, false, 2)));
    assert_eq!(seek(&block, Descending, b"d"), Ok((0, true, 2)));
    assert_eq!(seek(&block, Ascending, b""), Ok((0, true, 3)));
    assert_eq!(seek(&block, Descending, b""), Ok((5, false, 3)));
    // rows whose keys alone are read: flags are not looked at
    let block = laid(&[&with_flags(&A, 13, 16), &with_flags(&B, 13, 9)]);
    assert_eq!(seek(&block, Ascending, b"b"), Ok((1, true, 2)));
    assert_eq!(step_from(&block, Ascending, 1), Err(12));
}
