//! Prints the command lines of the program `replay`: some of every kind, the same at each run, all inside the limits and on blocks that
//! the check accepts, so that the Rust and the proved code must answer the same.
#![allow(explicit_builtin_cfgs_in_flags)]
use slate_oracle::driver::{command, hex};
use slate_oracle::rng::Rng;

struct Row {
    key: Vec<u8>,
    kind: char,
    value: Vec<u8>,
    seq: u64,
    expire: Option<i64>,
    create: Option<i64>,
}

fn word(bytes: &[u8]) -> String {
    if bytes.is_empty() { "-".into() } else { hex(bytes) }
}

impl Row {
    fn text(&self) -> String {
        let time = |t: Option<i64>| t.map_or("-".into(), |t| t.to_string());
        format!("{}:{}:{}:{}:{}:{}", word(&self.key), self.kind, word(&self.value), self.seq, time(self.expire), time(self.create))
    }
}

fn pick<T: Copy>(rng: &mut Rng, from: &[T]) -> T {
    from[(rng.next() % from.len() as u64) as usize]
}

fn time(rng: &mut Rng) -> Option<i64> {
    pick(rng, &[None, None, None, Some(0), Some(-1), Some(i64::MIN), Some(i64::MAX), Some(1_700_000_000_000)])
}

fn row(rng: &mut Rng, key: Vec<u8>) -> Row {
    let kind = pick(rng, &['v', 'v', 'v', 'm', 't']);
    let length = pick(rng, &[0, 0, 1, 2, 5, 20]);
    let value = if kind == 't' { Vec::new() } else { rng.bytes(length) };
    let seq = pick(rng, &[0, 1, 255, 256, u64::MAX, 1 << 63, 7_000_000]);
    Row { key, kind, value, seq, expire: time(rng), create: time(rng) }
}

/// Keys over few letters, so that many share bytes and some are equal.
fn key(rng: &mut Rng) -> Vec<u8> {
    let length = 1 + rng.next() % 5;
    (0..length).map(|_| pick(rng, &[b'a', b'b', 0, 255])).collect()
}

/// Rows that the check accepts: of equal keys the larger number first, and none twice.
fn sorted_rows(rng: &mut Rng, count: usize) -> Vec<Row> {
    let mut keys: Vec<Vec<u8>> = (0..count).map(|_| key(rng)).collect();
    keys.sort();
    let mut rows: Vec<Row> = keys.into_iter().map(|k| row(rng, k)).collect();
    rows.sort_by(|a, b| a.key.cmp(&b.key).then(b.seq.cmp(&a.seq)));
    rows.dedup_by(|a, b| a.key == b.key && a.seq == b.seq);
    rows
}

fn joined(rows: &[Row]) -> String {
    rows.iter().map(Row::text).collect::<Vec<_>>().join(" ")
}

/// The finished block, as the Rust builds it.
fn block(interval: usize, rows: &[Row]) -> String {
    let answer = command(&format!("build2 131072 {interval} {}", joined(rows))).expect("a good command");
    answer.split(' ').next_back().expect("a block").to_string()
}

fn rows_and_varints(rng: &mut Rng) {
    let mut edges = vec![0, 1, u32::MAX];
    edges.extend((1..5).flat_map(|width| [(1 << (7 * width)) - 1, 1 << (7 * width)]));
    for number in edges {
        println!("varint {number}");
        println!("unvarint {}", command(&format!("varint {number}")).expect("a good command"));
    }
    for input in ["7f80", "ffffffff0f00", "0061"] {
        println!("unvarint {input}");
    }
    for _ in 0..30 {
        let shared = pick(rng, &[0, 0, 1, 2, 127, 128, 1000]);
        let key = key(rng);
        let row = row(rng, key);
        println!("row2 {shared} {}", row.text());
        let bytes = command(&format!("row2 {shared} {}", row.text())).expect("a good command");
        let bytes = bytes.split(' ').next().expect("bytes");
        let after = pick(rng, &["", "00", "ffff"]);
        println!("unrow2 {bytes}{after}");
        println!("key2 {bytes}{after}");
    }
    for length in [1023, 1024] {
        println!("row2 0 {}:v:78:1:-:-", "61".repeat(length));
    }
    let seq = "0000000000000001";
    // value bytes of a tombstone; unknown flags; tombstone with merge
    for (head, flags) in [("000102617879", "01"), ("00010061", "10"), ("00010061", "09")] {
        println!("unrow2 {head}{seq}{flags}");
    }
    for input in ["0001ffffffff0f61"] {
        println!("key2 {input}");
    }
}

fn builds(rng: &mut Rng) {
    let first = "61:v:-:1:-:-";
    let second = "6162:v:78:2:-:-";
    for (size, interval) in [(31, 16), (30, 16), (34, 1), (33, 1), (0, 16), (131072, 1024)] {
        println!("build2 {size} {interval} {first} {second}");
        println!("fit2 {size} {interval} {first} {second}");
    }
    println!("build2 100 16");
    println!("build2 100 16 -:v:-:1:-:-");
    println!("build2 100 16 -:v:-:1:-:- {first}");
    println!("build2 0 16 {first}");
    println!("fit2 0 16 {first}");
    for _ in 0..24 {
        let interval = pick(rng, &[1, 2, 3, 16, 1024]);
        let count = 1 + (rng.next() % 8) as usize;
        // as in the Rust, keys may arrive out of order
        let rows: Vec<Row> = (0..count).map(|_| key(rng)).collect::<Vec<_>>().into_iter().map(|k| row(rng, k)).collect();
        let size = pick(rng, &[40, 60, 100, 200, 4096]);
        println!("build2 {size} {interval} {}", joined(&rows));
        println!("fit2 {size} {interval} {}", joined(&rows));
    }
}

fn reads(rng: &mut Rng) {
    // equal keys, the newest first
    let rows = ["61:v:-:0:-:-", "62:v:-:3:-:-", "62:v:-:2:-:-", "62:v:-:1:-:-", "63:v:-:4:-:-"].join(" ");
    let answer = command(&format!("build2 4096 2 {rows}")).expect("a good command");
    read_block(rng, answer.split(' ').next_back().expect("a block"), &["62".into(), "6262".into(), "64".into(), "-".into()]);
    for _ in 0..16 {
        let count = 1 + (rng.next() % 9) as usize;
        let rows = sorted_rows(rng, count);
        let interval = pick(rng, &[1, 1, 2, 2, 3, 16]);
        let mut targets: Vec<String> = (0..2).map(|_| word(&rows[(rng.next() % rows.len() as u64) as usize].key)).collect();
        targets.push(word(&key(rng)));
        read_block(rng, &block(interval, &rows), &targets);
    }
}

fn read_block(rng: &mut Rng, block: &str, targets: &[String]) {
    for order in ["asc", "desc"] {
        println!("scan2 {order} {block}");
        println!("isempty2 {order} {block} {}", rng.next() % 11);
        let target = &targets[(rng.next() % targets.len() as u64) as usize];
        println!("seek2 {order} {block} {target}");
        let ops: Vec<String> = (0..12).map(|_| match rng.next() % 4 {
            0 => format!("s:{}", targets[(rng.next() % targets.len() as u64) as usize]),
            1 => "e".into(),
            _ => "n".into(),
        }).collect();
        println!("walk2 {order} {block} {}", ops.join(" "));
    }
}

fn main() {
    let mut rng = Rng(16);
    rows_and_varints(&mut rng);
    builds(&mut rng);
    reads(&mut rng);
}
