//! Builders of the earlier format: opened, asked, filled and finished, in lent buffers of any length, beside the Rust's.
use super::calls;
use super::tables::{self, Does, Known, Offer};
use crate::guest::short_hex;
use crate::rows::fields;
use crate::Run;
use model::v1::builder::Builder;
use model::Refusal;
use slate_oracle::direct::{self, Row, Stop};
use slate_oracle::older;

/// A builder here, with the buffers that its caller lends, and the Rust's beside it with the rows taken so far.
struct Both {
    here: Builder,
    data: Vec<u8>,
    offsets: Vec<u16>,
    there: direct::Builder,
    taken: Vec<Row>,
}

/// Past as many rows the Rust is not started anew to see what it does with a row that is refused here.
const REPLAYED: usize = 8;

/// A block size alone: 8 or none.
pub fn open(run: &mut Run, block_size: usize) -> Option<Builder> {
    let kind = "builder opened (the tables)";
    let here = calls::builder_new(run, block_size);
    match (&here, tables::settings_fault(block_size)) {
        (Ok(_), None) => run.tally.same(kind),
        (Err(code), Some(known)) if *code == known.here => {
            run.tally.listed(&known.listed(Does::Takes).expect("a name"), block_size, || format!("block size {block_size}"))
        }
        (here, known) => run.tally.differs(kind, 8, || format!("block size {block_size}: {here:?}, the tables {known:?}")),
    }
    here.ok()
}

fn does(rust: &Result<bool, Stop>) -> Does {
    if *rust == Ok(false) { Does::SaysNo } else { tables::does(rust) }
}

/// The answer here, the tables' and the Rust's, which is the tables' too.
fn compare(run: &mut Run, kind: &'static str, offer: &Offer, here: Result<(), Refusal>, known: Option<Known>, rust: (Result<bool, Stop>, Result<bool, Stop>)) {
    let size = offer.row.key.len() + offer.row.value.len() + offer.used;
    let shown = || format!("key {}, {} value bytes after {} data bytes", short_hex(&offer.row.key), offer.row.value.len(), offer.used);
    let (rust, foreseen) = rust;
    if rust != foreseen {
        run.tally.differs(kind, size, || format!("{}: the Rust {rust:?}, not {foreseen:?}", shown()));
    }
    let name = known.and_then(|known| known.listed(does(&rust)));
    match (here, known, &rust) {
        (Ok(()), None, Ok(true)) => run.tally.same(kind),
        (Err(4), Some(known), Ok(false)) if known.here == 4 => run.tally.same(kind),
        (Err(1), Some(known), Err(Stop::EmptyKey)) if known.here == 1 => run.tally.same(kind),
        (Err(code), Some(known), _) if known.here == code && name.is_some() => run.tally.listed(&name.expect("a name"), size, shown),
        _ => run.tally.differs(kind, size, || format!("{}: {here:?}, the tables {known:?}, Rust {rust:?}", shown())),
    }
}

impl Both {
    fn offer(&self, row: &Row) -> Offer {
        let common = self.taken.first().map_or(0, |first| first.key.iter().zip(&row.key).take_while(|(a, b)| a == b).count());
        let (rows, used) = (self.taken.len(), self.here.used);
        let (data_len, offsets_len) = (self.data.len(), self.offsets.len());
        Offer { row: row.clone(), shared: common, rows, used, block_size: self.here.block_size, data_len, offsets_len }
    }

    /// The fit question's size, which the Rust has in a function of its own, is the row's.
    fn fit(&self, run: &mut Run, row: &Row) {
        let offer = self.offer(row);
        let here = calls::would_fit(run, &self.here, (self.data.len(), self.offsets.len()), &row.key, &row.value, &fields(row));
        let rust = (self.there.would_fit(row), tables::rust_fits(&offer));
        if let Ok(size) = here {
            if older::encoded_size(row, offer.shared) == Ok(size) {
                run.tally.same("row sized for a builder (Rust)");
            } else {
                run.tally.differs("row sized for a builder (Rust)", size, || format!("{row:?} sharing {}: {size}", offer.shared));
            }
        }
        compare(run, "fit question (Rust)", &offer, here.map(drop), tables::fit_fault(&offer), rust);
    }

    fn add(&mut self, run: &mut Run, row: &Row) {
        let offer = self.offer(row);
        let before = (self.here.clone(), self.data.clone(), self.offsets.clone());
        let here = calls::add(run, &mut self.here, &mut self.data, &mut self.offsets, &row.key, &row.value, &fields(row));
        if here.is_err() && before != (self.here.clone(), self.data.clone(), self.offsets.clone()) {
            run.tally.differs("memory that must stay", row.key.len(), || format!("{row:?}"));
        }
        if let Some(rust) = self.rust_add(run, row, &offer, here.err()) {
            compare(run, "row added (Rust)", &offer, here, tables::add_fault(&offer), (rust, tables::rust_adds(&offer)));
        }
    }

    /// What the Rust does with the row. One that it takes and that is refused here goes to a builder of its own.
    fn rust_add(&mut self, run: &mut Run, row: &Row, offer: &Offer, here: Option<Refusal>) -> Option<Result<bool, Stop>> {
        if !matches!(here, Some(2 | 3 | 5 | 6)) {
            let answer = self.there.add(row);
            if answer == Ok(true) {
                self.taken.push(row.clone());
            }
            return Some(answer);
        }
        if self.taken.len() > REPLAYED {
            return None;
        }
        let mut copy = older::builder(self.here.block_size);
        for taken in &self.taken {
            copy.add(taken).expect("taken before");
        }
        let answer = copy.add(row);
        if answer == Ok(true) {
            cut_offset(run, &copy.build().expect("a block"), offer);
        }
        Some(answer)
    }
}

/// The last offset of the Rust's block: where the row starts, cut to 16 bits.
fn cut_offset(run: &mut Run, block: &[u8], offer: &Offer) {
    let at = block.len() - 4;
    let offset = u16::from_be_bytes([block[at], block[at + 1]]) as usize;
    if offset != offer.used % 65_536 {
        run.tally.differs("an offset of the Rust's", block.len(), || format!("{offset} after {} data bytes", offer.used));
    }
}

/// Rows offered one after another to one builder; the finished block, if one can be built.
pub fn fill(run: &mut Run, block_size: usize, rows: &[Row], data_len: usize, offsets_len: usize) -> Option<Vec<u8>> {
    let here = open(run, block_size)?;
    let offsets = run.pattern(2 * offsets_len).chunks(2).map(|half| u16::from_be_bytes([half[0], half[1]])).collect();
    let mut both = Both { here, data: run.pattern(data_len), offsets, there: older::builder(block_size), taken: Vec::new() };
    for row in rows {
        both.fit(run, row);
        both.add(run, row);
    }
    let (here, there) = (calls::builder_is_empty(run, &both.here), both.there.is_empty());
    if here == there {
        run.tally.same("builder asked whether it is empty (Rust)");
    } else {
        run.tally.differs("builder asked whether it is empty (Rust)", 8, || format!("{here}"));
    }
    both.finish(run)
}

impl Both {
    fn finish(mut self, run: &mut Run) -> Option<Vec<u8>> {
        let kind = "block built (Rust)";
        let before = self.data.clone();
        let here = calls::build(run, &self.here, &mut self.data, &self.offsets);
        let rust = self.there.build();
        let rows = self.taken.len();
        let end = *here.as_ref().unwrap_or(&self.here.used);
        if self.data[..self.here.used] != before[..self.here.used] || self.data[end..] != before[end..] {
            run.tally.differs("memory that must stay", rows, || format!("{rows} rows built"));
        }
        match (&here, &rust) {
            (Ok(end), Ok(rust)) if self.data[..*end] == rust[..] => run.tally.same(kind),
            (Err(7), Err(Stop::EmptyBlock)) => run.tally.same(kind),
            _ => run.tally.differs(kind, rows, || format!("{rows} rows: {here:?}, Rust {rust:?}")),
        }
        here.ok().map(|end| self.data[..end].to_vec())
    }
}

/// Builders of any numbers: 18 exactly where the tables say so, in the fit question, adding and building.
pub fn forged(run: &mut Run, builder: &Builder, data_len: usize, offsets_len: usize, row: &Row) {
    let kind = "builder with a forged state (the tables)";
    let bad = tables::bad_state(builder, data_len, offsets_len);
    let (mut data, mut offsets) = (run.pattern(data_len), vec![7; offsets_len]);
    let fits = calls::would_fit(run, builder, (data_len, offsets_len), &row.key, &row.value, &fields(row)).map(drop);
    let built = calls::build(run, builder, &mut data, &offsets).map(drop);
    let added = calls::add(run, &mut builder.clone(), &mut data, &mut offsets, &row.key, &row.value, &fields(row));
    calls::builder_is_empty(run, builder);
    for (asked, answer) in [("fit", fits), ("build", built), ("add", added)] {
        if (answer == Err(18)) == bad {
            run.tally.same(kind);
        } else {
            run.tally.differs(kind, data_len, || format!("{asked}, {builder:?}, {data_len} and {offsets_len}: {answer:?}"));
        }
    }
}
