//! The journal through the library: what is appended is read back, doubles and closes, cuts, and each refusal.
use slatedb_block::journal::{append, balance, read, record_at, Found, Record, Refusal};

const UP: Record = Record::TopUp { card: 7, retry: 1, amount: 500 };
const DOWN: Record = Record::Debit { card: 7, retry: 2, amount: 700 };
const CLOSE: Record = Record::Close { card: 8 };

fn all() -> [u8; 51] {
    let mut buffer = [9; 51];
    assert_eq!(append(&mut buffer, 0, UP), Ok(21));
    assert_eq!(append(&mut buffer, 21, CLOSE), Ok(30));
    assert_eq!(append(&mut buffer, 30, DOWN), Ok(51));
    buffer
}

#[test]
fn reads_back() {
    let journal = all();
    let (mut at, mut records) = (0, Vec::new());
    while let Found::Whole { record, next } = record_at(&journal, at).unwrap() {
        records.push(record);
        at = next;
    }
    assert_eq!((records, at), (vec![UP, CLOSE, DOWN], 51));
    assert_eq!(record_at(&journal, 51), Ok(Found::End));
    assert_eq!(record_at(&journal[..50], 30), Ok(Found::Incomplete));
}

#[test]
fn cut_anywhere() {
    let journal = all();
    for n in 0..=51 {
        let (records, end, amount) = match n {
            51 => (3, 51, -200),
            30..=50 => (2, 30, 500),
            21..=29 => (1, 21, 500),
            _ => (0, 0, 0),
        };
        let tail = if end < n { Some(end) } else { None };
        let r = read(&journal[..n]).unwrap();
        assert_eq!((r.records, r.tail), (records, tail));
        let b = balance(&journal[..n], 7).unwrap();
        assert_eq!((b.amount, b.tail), (amount, tail));
    }
}

#[test]
fn doubles_and_closes() {
    let mut buffer = [0; 128];
    let mut used = 0;
    for (record, amount) in [
        (UP, 500),
        (Record::TopUp { card: 7, retry: 1, amount: 9 }, 500),
        (Record::Debit { card: 7, retry: 1, amount: u32::MAX }, 500 - i64::from(u32::MAX)),
        (Record::Close { card: 7 }, 500 - i64::from(u32::MAX)),
        (DOWN, 500 - i64::from(u32::MAX)),
    ] {
        used = append(&mut buffer, used, record).unwrap();
        assert_eq!(balance(&buffer[..used], 7).unwrap().amount, amount);
    }
}

#[test]
fn refusals() {
    let mut buffer = all();
    let before = buffer;
    assert_eq!(append(&mut buffer, 52, UP), Err(Refusal::UsedPastBuffer));
    assert_eq!(append(&mut buffer, 29, CLOSE), Err(Refusal::EndsInside));
    assert_eq!(append(&mut buffer, 51, CLOSE), Err(Refusal::NoRoom));
    assert_eq!(append(&mut buffer[..41], 21, UP), Err(Refusal::NoRoom));
    assert_eq!(buffer, before);
    buffer[21] = 4;
    assert_eq!(read(&buffer), Err(Refusal::UnknownKind { at: 21 }));
    assert_eq!(balance(&buffer[..22], 7), Err(Refusal::UnknownKind { at: 21 }));
    assert_eq!(append(&mut buffer, 22, UP), Err(Refusal::UnknownKind { at: 21 }));
    assert_eq!(record_at(&buffer, 21), Err(Refusal::UnknownKind { at: 21 }));
    assert_eq!(read(&vec![0; 65_537]), Err(Refusal::TooLong));
    let long = Refusal::UnknownKind { at: 21 };
    assert_eq!(long.to_string(), "refusal 31: a kind that is none of 1, 2 and 3, at 21");
}
