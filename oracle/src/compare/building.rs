//! Builders: opened, asked, filled and finished, in lent buffers of any length.
use crate::calls::{bytes_of, fields_words, words_of, Arg, Expected, Function, GOOD};
use crate::differences::{self, Offer, Settings};
use crate::guest::short_hex;
use crate::rows::fields;
use crate::Run;
use model::KEY_LIMIT;
use slate_oracle::direct::{self, Row, Stop};

/// The memory that a caller of the C interface keeps.
#[derive(Clone)]
pub struct Arrays {
    pub builder: Vec<u8>,
    pub key: Vec<u8>,
    pub data: Vec<u8>,
    pub restarts: Vec<u8>,
}

/// The Rust's builder beside it, with the rows taken so far.
struct Beside {
    settings: Settings,
    builder: direct::Builder,
    taken: Vec<Row>,
}

/// Past as many rows the Rust is not started anew to see what it does with a row that 01 refuses.
const REPLAYED: usize = 8;

fn new_calls(run: &mut Run, block_size: usize, interval: usize) -> Expected {
    let words = run.pattern(6 * 8);
    let numbers = [Arg::Number(block_size as u64), Arg::Number(interval as u64)];
    run.call("builder opened", Function::BuilderNew, [vec![Arg::Written(words)], numbers.to_vec()].concat())
}

/// Settings alone: 8 or none.
pub fn open(run: &mut Run, block_size: usize, interval: usize) -> Option<Vec<u8>> {
    let answer = new_calls(run, block_size, interval);
    let settings = Settings { block_size, interval };
    let shown = || format!("block size {block_size}, interval {interval}");
    match (answer.code, differences::first(&differences::SETTINGS, &settings)) {
        (GOOD, None) => return Some(answer.memory[0].clone()),
        (code, Some(known)) if known.here == code => run.tally.listed(known.name, block_size, shown),
        (code, _) => run.tally.differs("builder opened (Rust)", 8, || format!("{}: {code}", shown())),
    }
    None
}

/// The bytes past a carried key's length tell nothing, so they are never left clean.
pub fn scramble(run: &mut Run, key: &mut [u8], len: u64) {
    let from = (len as usize).min(key.len());
    let pattern = run.pattern(key.len() - from);
    key[from..].copy_from_slice(&pattern);
}

impl Arrays {
    fn row_args(row: &Row) -> [Arg; 3] {
        [Arg::Read(row.key.clone()), Arg::Read(row.value.clone()), Arg::Read(bytes_of(&fields_words(&fields(row))))]
    }

    pub fn would_fit(&self, run: &mut Run, row: &Row) -> u8 {
        let lengths = [Arg::Number(self.data.len() as u64), Arg::Number(self.restarts.len() as u64 / 2)];
        let state = [Arg::Read(self.builder.clone()), Arg::Read(self.key.clone())];
        run.call("fit question", Function::WouldFit, [&state[..], &lengths, &Arrays::row_args(row)].concat()).code
    }

    /// In both ways; the arrays are those after the call.
    pub fn add(&mut self, run: &mut Run, row: &Row) -> u8 {
        let lent = [&self.builder, &self.key, &self.data, &self.restarts].map(|bytes| Arg::Written(bytes.clone()));
        let args = [&lent[..], &Arrays::row_args(row)].concat();
        run.call("row added by value", Function::AddByValue, args.clone());
        let answer = run.call("row added", Function::Add, args);
        let [builder, key, data, restarts] = answer.memory.try_into().expect("four arrays");
        *self = Arrays { builder, key, data, restarts };
        answer.code
    }

    pub fn is_empty(&self, run: &mut Run) -> bool {
        let args = vec![Arg::Read(self.builder.clone()), Arg::Written(bytes_of(&[9]))];
        let answer = run.call("builder asked whether it is empty", Function::BuilderIsEmpty, args);
        answer.memory[0][0] == 1
    }

    /// The block, or the refusal.
    pub fn build(&self, run: &mut Run) -> Result<Vec<u8>, u8> {
        let (builder, data, restarts) = (self.builder.clone(), self.data.clone(), self.restarts.clone());
        let args = vec![Arg::Read(builder), Arg::Written(data), Arg::Read(restarts), Arg::Written(bytes_of(&[5]))];
        let answer = run.call("block built", Function::Build, args);
        if answer.code != GOOD {
            return Err(answer.code);
        }
        let len = words_of(&answer.memory[1])[0] as usize;
        Ok(answer.memory[0][..len].to_vec())
    }

    /// What the offer is to the difference table, from the caller's own memory.
    fn offer(&self, row: &Row, interval: usize) -> Offer {
        let words = words_of(&self.builder);
        let (used, restarts, rows, key_len) = (words[2] as usize, words[3] as usize, words[4] as usize, words[5] as usize);
        let restart = rows % interval == 0;
        let common = self.key[..key_len].iter().zip(&row.key).take_while(|(a, b)| a == b).count();
        let shared = if restart { 0 } else { common };
        let suffix = Row { key: row.key[shared..].to_vec(), ..row.clone() };
        let size = direct::encode(shared as u32, &suffix).expect("a size").1;
        let grown = used + size + 2 * (restarts + restart as usize) + 2;
        Offer { row: row.clone(), restart, used, restarts, grown, data_len: self.data.len(), restarts_len: self.restarts.len() / 2 }
    }
}

impl Beside {
    fn new(block_size: usize, interval: usize) -> Beside {
        Beside { settings: Settings { block_size, interval }, builder: direct::Builder::new(block_size, interval), taken: Vec::new() }
    }

    /// What the Rust does with the row. A row that 01 refuses and the Rust takes goes to a builder of its own.
    fn add(&mut self, row: &Row, code: u8) -> Option<Result<bool, Stop>> {
        if matches!(code, 2 | 3 | 6) {
            if self.taken.len() > REPLAYED {
                return None;
            }
            let mut copy = Beside::new(self.settings.block_size, self.settings.interval);
            for taken in &self.taken {
                copy.builder.add(taken).expect("taken before");
            }
            return Some(copy.builder.add(row));
        }
        let answer = self.builder.add(row);
        if answer == Ok(true) {
            self.taken.push(row.clone());
        }
        Some(answer)
    }
}

fn shown(offer: &Offer) -> String {
    format!("key {}, {} value bytes after {} data bytes", short_hex(&offer.row.key), offer.row.value.len(), offer.used)
}

fn compare_fit(run: &mut Run, offer: &Offer, code: u8, rust: Result<bool, Stop>) {
    let kind = "fit question (Rust)";
    let size = offer.row.key.len() + offer.row.value.len();
    let shown = || format!("{}: {code}, Rust {rust:?}", shown(offer));
    match (code, &rust, differences::first(&differences::FIT, offer)) {
        (0, Ok(true), None) | (4, Ok(false), None) => run.tally.same(kind),
        (code, _, Some(known)) if known.here == code => run.tally.listed(known.name, size, shown),
        _ => run.tally.differs(kind, size, shown),
    }
}

fn compare_add(run: &mut Run, offer: &Offer, code: u8, rust: Result<bool, Stop>) {
    let kind = "row added (Rust)";
    let size = offer.row.key.len() + offer.row.value.len() + offer.used;
    let shown = || format!("{}: {code}, Rust {rust:?}", shown(offer));
    match (code, &rust, differences::first(&differences::ADD, offer)) {
        (0, Ok(true), None) | (4, Ok(false), _) | (1, Err(Stop::EmptyKey), _) => run.tally.same(kind),
        (code, _, Some(known)) if known.here == code && known.rust.may(&rust) => run.tally.listed(known.name, size, shown),
        _ => run.tally.differs(kind, size, shown),
    }
}

/// Rows offered one after another to one builder; the finished block, if one can be built.
pub fn fill(run: &mut Run, block_size: usize, interval: usize, rows: &[Row], data_len: usize, restarts_len: usize) -> Option<Vec<u8>> {
    let builder = open(run, block_size, interval)?;
    let mut arrays = Arrays { builder, key: run.pattern(KEY_LIMIT), data: run.pattern(data_len), restarts: run.pattern(2 * restarts_len) };
    let mut beside = Beside::new(block_size, interval);
    for row in rows {
        let key_len = words_of(&arrays.builder)[5];
        scramble(run, &mut arrays.key, key_len);
        let offer = arrays.offer(row, interval);
        let fits = arrays.would_fit(run, row);
        compare_fit(run, &offer, fits, beside.builder.would_fit(row));
        let code = arrays.add(run, row);
        if let Some(rust) = beside.add(row, code) {
            compare_add(run, &offer, code, rust);
        }
    }
    let empty = arrays.is_empty(run);
    if empty != beside.builder.is_empty() {
        run.tally.differs("builder asked whether it is empty (Rust)", 8, || format!("{empty}"));
    }
    finish(run, &arrays, beside)
}

fn finish(run: &mut Run, arrays: &Arrays, beside: Beside) -> Option<Vec<u8>> {
    let kind = "block built (Rust)";
    let here = arrays.build(run);
    let rust = beside.builder.build();
    match (&here, &rust) {
        (Ok(block), Ok(rust)) if block == rust => run.tally.same(kind),
        (Err(7), Err(Stop::EmptyBlock)) => run.tally.same(kind),
        _ => run.tally.differs(kind, beside.taken.len(), || format!("{} rows: {here:?}, Rust {rust:?}", beside.taken.len())),
    }
    here.ok()
}
