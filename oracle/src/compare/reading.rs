//! Cursors over one block: opened, stepped, asked and sought with.
use crate::building::scramble;
use crate::calls::{amount, bytes_of, words_of, Arg, Expected, Function, CURSOR_WORDS, DONE, GOOD, KEY_LEN, NUMBER, ROW_WORDS};
use crate::guest::short_hex;
use crate::regions::{self, Named, Region};
use crate::Run;
use model::{refusal, KEY_LIMIT};
use slate_oracle::direct::{self, Opened, Row, Stop};

#[derive(Clone, Debug)]
pub enum Op {
    Next,
    IsEmpty,
    Seek(Vec<u8>),
}

/// What an operation answers, as both the Rust and 01 can say it; of a row that is given, here also which one it is.
#[derive(Clone, Debug, PartialEq, Eq)]
pub enum Word<Given> {
    Given(Given),
    Done,
    Empty(bool),
    Sought,
    Refused(u8),
}

impl Word<Named> {
    /// As the Rust says it, which knows no pairs.
    fn unnamed(self) -> Word<Row> {
        match self {
            Word::Given(named) => Word::Given(named.row),
            Word::Done => Word::Done,
            Word::Empty(empty) => Word::Empty(empty),
            Word::Sought => Word::Sought,
            Word::Refused(code) => Word::Refused(code),
        }
    }
}

/// The memory that a caller of the C interface keeps for a cursor.
#[derive(Clone)]
pub struct Arrays {
    pub cursor: Vec<u8>,
    pub key: Vec<u8>,
}

/// The verdict, which the tables must give too. The Rust has no check: what it does with the block is compared elsewhere.
pub fn check(run: &mut Run, block: &[u8]) -> u8 {
    let here = run.call("block checked", Function::Check, vec![Arg::Read(block.to_vec()), Arg::Written(bytes_of(&[3]))]);
    run.tally.checked(here.code == GOOD);
    let kind = "block checked (the tables)";
    match (here.code, regions::verdict(block)) {
        (GOOD, Ok(rows)) if here.memory[0] == bytes_of(&[rows as u64]) => run.tally.same(kind),
        (code, Err(known)) if code == known.here && code == refusal::KEY_FALLS => {
            run.tally.listed(known.name, block.len(), || short_hex(block))
        }
        (code, Err(known)) if code == known.here => run.tally.same(kind),
        (code, told) => run.tally.differs(kind, block.len(), || format!("block {}: {code}, the tables {told:?}", short_hex(block))),
    }
    here.code
}

pub fn open(run: &mut Run, block: &[u8], order: u64) -> Result<Arrays, u8> {
    let words = run.pattern(CURSOR_WORDS * 8);
    let answer = run.call("cursor opened", Function::Open, vec![Arg::Read(block.to_vec()), Arg::Number(order), Arg::Written(words)]);
    if answer.code != GOOD {
        return Err(answer.code);
    }
    let key = run.pattern(KEY_LIMIT);
    Ok(Arrays { cursor: answer.memory[0].clone(), key })
}

impl Arrays {
    /// A step in both ways, with a lent key buffer of this length.
    pub fn next(&mut self, run: &mut Run, block: &[u8], out_len: usize) -> Word<Named> {
        let (out, row) = (run.pattern(out_len), run.pattern(ROW_WORDS * 8));
        let lent = [&self.cursor, &self.key, &out, &row].map(|bytes| Arg::Written(bytes.clone()));
        let args = [&[Arg::Read(block.to_vec())][..], &lent].concat();
        run.call("step by value", Function::NextByValue, args.clone());
        let Expected { code, memory, .. } = run.call("step", Function::Next, args);
        let [cursor, key, out, row]: [Vec<u8>; 4] = memory.try_into().expect("four arrays");
        (self.cursor, self.key) = (cursor, key);
        match code {
            GOOD => Word::Given(given(block, &words_of(&row), &out)),
            DONE => Word::Done,
            code => Word::Refused(code),
        }
    }

    /// Many rows in one call, and the same by one call a row, each with what is left of the keys' buffer: nothing may differ.
    pub fn next_rows(&self, run: &mut Run, block: &[u8], keys_len: usize, rows_words: usize) {
        let (keys, rows) = (run.pattern(keys_len), run.pattern(rows_words * 8));
        let (keys_lent, rows_lent, count) = (Arg::Written(keys.clone()), Arg::Written(rows.clone()), Arg::Written(bytes_of(&[77])));
        let lent = vec![Arg::Read(block.to_vec()), Arg::Written(self.cursor.clone()), Arg::Written(self.key.clone()), keys_lent, rows_lent, count];
        let many = run.call("many rows in a call", Function::NextRows, lent);
        let singly = self.rows_singly(run, block, keys, rows);
        let kind = "many rows in a call, and one call a row";
        // the carried key's bytes count as far as it goes
        let carried = words_of(&singly.memory[0]).get(KEY_LEN).map_or(0, |&len| len as usize).min(self.key.len());
        let settled = |answer: &Expected| {
            let mut memory = answer.memory.clone();
            memory[1].truncate(carried);
            (answer.code, memory)
        };
        if settled(&many) == settled(&singly) {
            run.tally.same(kind);
        } else {
            let asked = || format!("cursor {:?}, {keys_len} bytes of keys, {rows_words} words, block {}", words_of(&self.cursor), short_hex(block));
            run.tally.differs(kind, block.len(), || format!("{}: {many:?}, singly {singly:?}", asked()));
        }
    }

    fn rows_singly(&self, run: &mut Run, block: &[u8], mut keys: Vec<u8>, mut rows: Vec<u8>) -> Expected {
        let (mut cursor, mut key) = (self.cursor.clone(), self.key.clone());
        let (most, mut count, mut used, mut code) = (rows.len() / (ROW_WORDS * 8), 0, 0, GOOD);
        while count < most && code == GOOD {
            let row = run.pattern(ROW_WORDS * 8);
            let lent = [&cursor, &key, &keys[used..].to_vec(), &row].map(|bytes| Arg::Written(bytes.clone()));
            let step = run.call("step of many", Function::Next, [&[Arg::Read(block.to_vec())][..], &lent].concat());
            code = step.code;
            if code == GOOD {
                (cursor, key) = (step.memory[0].clone(), step.memory[1].clone());
                keys[used..].copy_from_slice(&step.memory[2]);
                rows[count * ROW_WORDS * 8..][..ROW_WORDS * 8].copy_from_slice(&step.memory[3]);
                let words = words_of(&step.memory[3]);
                used += (words[2] + words[4]) as usize;
                count += 1;
            } else if count > 0 {
                code = GOOD;
                break;
            } else if code == DONE {
                cursor = step.memory[0].clone();
            }
        }
        let refused = !matches!(code, GOOD | DONE);
        let count = bytes_of(&[if refused { 77 } else { count as u64 }]);
        Expected { code, memory: vec![cursor, key, keys, rows, count], key: None }
    }

    pub fn seek(&mut self, run: &mut Run, block: &[u8], target: &[u8]) -> Word<Named> {
        let args = vec![
            Arg::Read(block.to_vec()),
            Arg::Read(target.to_vec()),
            Arg::Written(self.cursor.clone()),
            Arg::Written(self.key.clone()),
            Arg::Written(bytes_of(&[123])),
        ];
        let answer = run.call("seek", Function::Seek, args);
        (self.cursor, self.key) = (answer.memory[0].clone(), answer.memory[1].clone());
        if matches!(answer.code, GOOD | DONE) { Word::Sought } else { Word::Refused(answer.code) }
    }

    pub fn is_empty(&self, run: &mut Run, block: &[u8]) -> Word<Named> {
        let args = vec![Arg::Read(block.to_vec()), Arg::Read(self.cursor.clone()), Arg::Written(bytes_of(&[9]))];
        let answer = run.call("cursor asked whether it is empty", Function::IsEmpty, args);
        if answer.code == GOOD { Word::Empty(answer.memory[0][0] == 1) } else { Word::Refused(answer.code) }
    }

    pub fn apply(&mut self, run: &mut Run, block: &[u8], op: &Op, out_len: usize) -> Word<Named> {
        let key_len = words_of(&self.cursor)[KEY_LEN];
        scramble(run, &mut self.key, key_len);
        match op {
            Op::Next => self.next(run, block, out_len),
            Op::IsEmpty => self.is_empty(run, block),
            Op::Seek(target) => self.seek(run, block, target),
        }
    }
}

/// The row that the words tell of, with its bytes.
fn given(block: &[u8], words: &[u64], out: &[u8]) -> Named {
    let &[_, _, shared, _, suffix_len, kind, value_at, value_len, seq, has_expire, expire, has_create, create, region, number] = words else {
        panic!("a row has {ROW_WORDS} words")
    };
    let key = out[..(shared + suffix_len) as usize].to_vec();
    let value = block[value_at as usize..(value_at + value_len) as usize].to_vec();
    let time = |has: u64, time: u64| (has == 1).then_some(time as i64);
    let row = Row { key, kind: kind as u8, value, seq, expire: time(has_expire, expire), create: time(has_create, create) };
    Named { region: region as usize, number: number as usize, row }
}

/// Whether the pair of a row that is given names it among the rows that the tables read, and the cursor's number is true after it.
fn rightly_named(regions: &[Region], answer: &Word<Named>, cursor: &[u64]) -> bool {
    let row_is = |named: &Named| regions.get(named.region).and_then(|region| region.rows.get(named.number)) == Some(&named.row);
    let stands_in = regions.get(cursor[1] as usize);
    let number_is = stands_in.is_some_and(|region| region.ended_by(cursor[2] as usize) as u64 == cursor[NUMBER]);
    number_is && if let Word::Given(named) = answer { row_is(named) } else { true }
}

fn rust_word(iterator: &mut direct::Iterator, op: &Op) -> Result<Word<Row>, Stop> {
    Ok(match op {
        Op::Next => iterator.next()?.map_or(Word::Done, Word::Given),
        Op::IsEmpty => Word::Empty(iterator.is_empty()),
        Op::Seek(target) => iterator.seek(target).map(|()| Word::Sought)?,
    })
}

/// The same operations on one cursor and one iterator of the Rust, over a block that the check accepts: nothing may differ but
/// what the Rust does not tell, which row it is. That is held to the tables.
pub fn walk_accepted(run: &mut Run, kind: &'static str, block: &[u8], order: u64, ops: &[Op]) {
    let mut cursor = open(run, block, order).expect("an accepted block opens");
    let opened = Opened::new(block).expect("an accepted block");
    let mut iterator = opened.iterator(order == 1).expect("an accepted block");
    let (regions, _) = regions::regions(block);
    for (i, op) in ops.iter().enumerate() {
        let asked = || format!("order {order}, block {}, ops {:?}", short_hex(block), &ops[..=i]);
        let here = cursor.apply(run, block, op, KEY_LIMIT);
        let words = words_of(&cursor.cursor);
        if rightly_named(&regions, &here, &words) {
            run.tally.same(NAMED);
        } else {
            run.tally.differs(NAMED, block.len() + 8 * i, || format!("{}: {here:?}, cursor {words:?}", asked()));
        }
        let rust = rust_word(&mut iterator, op);
        let here = here.unnamed();
        if rust.as_ref() == Ok(&here) {
            run.tally.same(kind);
        } else {
            run.tally.differs(kind, block.len() + 8 * i, || format!("{}: {here:?}, Rust {rust:?}", asked()));
            return;
        }
    }
}

const NAMED: &str = "which row it is, and the cursor's number (the tables)";

/// All rows of a block by many in a call, with buffers of every length up to enough for all.
pub fn rows_in_short_buffers(run: &mut Run, block: &[u8], order: u64, rows: usize, key_bytes: usize) {
    let Ok(cursor) = open(run, block, order) else { return };
    for keys_len in 0..=key_bytes + 1 {
        cursor.next_rows(run, block, keys_len, ROW_WORDS * (rows + 1));
    }
    for words in (0..=rows + 1).flat_map(|rows| [ROW_WORDS * rows, ROW_WORDS * (rows + 1) - 1]) {
        cursor.next_rows(run, block, key_bytes, words);
    }
}

/// Both walks inside the library. They must answer alike: what the model answers once.
pub fn walks(run: &mut Run, block: &[u8], order: u64, limit: u64) -> Expected {
    let sums = run.pattern(2 * 8);
    let args = vec![Arg::Read(block.to_vec()), Arg::Number(order), Arg::Number(limit), Arg::Written(sums)];
    run.call("walk inside the library, by value", Function::WalkByValue, args.clone());
    run.call("walk inside the library, in place", Function::WalkInPlace, args)
}

/// The code, the rows and the sum of the Rust's own walk.
fn rust_walk(block: &[u8], order: u64, limit: u64) -> Result<(u8, u64, u64), Stop> {
    let opened = Opened::new(block)?;
    let mut iterator = opened.iterator(order == 1)?;
    let (mut rows, mut sum) = (0, 0u64);
    while rows < limit {
        let Some(row) = iterator.next()? else { return Ok((DONE, rows, sum)) };
        rows += 1;
        sum = sum.wrapping_add(amount(row.seq, &row.key, row.value.len()));
    }
    Ok((GOOD, rows, sum))
}

/// Walks of a block that the check accepts, with limits below its rows, at them and past: nothing may differ from the Rust's.
pub fn walks_accepted(run: &mut Run, block: &[u8], order: u64, limits: &[u64]) {
    let kind = "walk inside the library (Rust)";
    for &limit in limits {
        let here = walks(run, block, order, limit);
        let sums = words_of(&here.memory[0]);
        let rust = rust_walk(block, order, limit);
        if rust == Ok((here.code, sums[0], sums[1])) {
            run.tally.same(kind);
        } else {
            let asked = || format!("order {order}, limit {limit}, block {}", short_hex(block));
            run.tally.differs(kind, block.len(), || format!("{}: {} with {sums:?}, Rust {rust:?}", asked(), here.code));
        }
    }
}

/// Where opening would leave a cursor, had it not refused the block: a seek tests only the offsets that it uses, and a step only
/// those and the rows of its region, so both may answer where opening refuses.
fn unopened(run: &mut Run, block: &[u8], order: u64) -> Arrays {
    let (region, at) = regions::last(block).filter(|_| order == 1).unwrap_or((0, 0));
    let number = regions::region_of(block, region).map_or(0, |region| region.ended_by(at));
    let words = [order, region as u64, at as u64, 0, 0, number as u64];
    Arrays { cursor: bytes_of(&words), key: run.pattern(KEY_LIMIT) }
}

/// Operations on a block that may be refused: the library and the model only. Each goes on from the state that came back.
pub fn walk_any(run: &mut Run, block: &[u8], order: u64, ops: &[Op], out_len: usize) {
    let mut cursor = match open(run, block, order) {
        Ok(cursor) => cursor,
        Err(_) => unopened(run, block, order),
    };
    for op in ops {
        cursor.apply(run, block, op, out_len);
        cursor.next_rows(run, block, 3 * out_len, ROW_WORDS * 3 + 1);
    }
    walks(run, block, order, u64::MAX);
}
