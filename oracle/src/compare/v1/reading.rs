//! Blocks of the earlier format: checked, opened, stepped through, asked and sought in, on one cursor and one iterator of the Rust.
//! Each answer is held to the tables, the Rust's to what they say that it does, and both to each other as long as they stand at
//! the same row.
use super::calls;
use super::tables::{self, Does, Known, Named, EXPIRE, TOMBSTONE_KIND};
use crate::guest::short_hex;
use crate::reading::Op;
use crate::rows::row_at;
use crate::Run;
use model::cursor::Order;
use model::v1::cursor::{Cursor, Given};
use model::{refusal, Refusal, KEY_LIMIT};
use slate_oracle::direct::{Row, Stop};
use slate_oracle::older::{Iterator, Opened};

pub const ORDERS: [Order; 2] = [Order::Ascending, Order::Descending];

/// What an operation answers, as both can say it.
#[derive(Clone, Debug, PartialEq, Eq)]
enum Word {
    Opened,
    Given(Row),
    Done,
    Empty(bool),
    Sought,
}

/// Two answers to one question.
struct Question<'a> {
    kind: &'static str,
    block: &'a [u8],
    accepted: bool,
    asked: String,
}

impl Question<'_> {
    fn size(&self) -> usize {
        self.block.len() + self.asked.len()
    }

    fn differs(&self, run: &mut Run, what: String) {
        run.tally.differs(self.kind, self.size(), || format!("{}, block {}: {what}", self.asked, short_hex(self.block)));
    }

    /// The answer here, which the tables must give too.
    fn tables<T: PartialEq + std::fmt::Debug>(&self, run: &mut Run, kind: &'static str, here: &Result<T, Refusal>, told: Result<&T, &Known>) {
        if here.as_ref().map_err(|code| *code) == told.map_err(|known| known.here) {
            run.tally.same(kind);
        } else {
            run.tally.differs(kind, self.size(), || format!("{}, block {}: {here:?}, the tables {told:?}", self.asked, short_hex(self.block)));
        }
    }

    /// The answer here and the Rust's. On a block that the check accepts only a tombstone's expire time may differ.
    fn rust(&self, run: &mut Run, here: &Result<Word, Refusal>, known: Option<&Known>, rust: &Result<Word, Stop>) {
        match (here, rust, known) {
            (Ok(one), Ok(other), _) if one == other => run.tally.same(self.kind),
            (Ok(Word::Given(row)), Ok(Word::Given(other)), _) if dropped_expire(row, other) => self.listed(run, EXPIRE),
            (Err(refusal::FLAGS_UNKNOWN | refusal::TOMBSTONE_WITH_MERGE), Err(Stop::InvalidRowFlags), _) => run.tally.same(self.kind),
            (Err(_), rust, Some(known)) if !self.accepted && known.listed(tables::does(rust)).is_some() => {
                self.listed(run, &known.listed(tables::does(rust)).expect("a name"))
            }
            _ => self.differs(run, format!("{here:?}, Rust {rust:?}")),
        }
    }

    fn listed(&self, run: &mut Run, name: &str) {
        run.tally.listed(name, self.size(), || format!("{}, block {}", self.asked, short_hex(self.block)));
    }
}

fn dropped_expire(row: &Row, rust: &Row) -> bool {
    row.kind == TOMBSTONE_KIND && row.expire.is_some() && *rust == tables::as_the_rust_reads(row)
}

// ---- the check

/// Whether it accepts the block. The Rust has no check: what it does with the block is compared elsewhere.
pub fn check(run: &mut Run, block: &[u8]) -> bool {
    let here = calls::check(run, block);
    run.tally.checked(here.is_ok());
    let told = tables::check(block);
    let question = Question { kind: "block checked (the tables)", block, accepted: here.is_ok(), asked: "check".into() };
    match (&here, &told) {
        (Err(refusal::KEY_FALLS), Err(known)) if known.here == refusal::KEY_FALLS => {
            question.listed(run, &known.listed(Does::Takes).expect("a name"))
        }
        _ => question.tables(run, "block checked (the tables)", &here, told.as_ref()),
    }
    here.is_ok()
}

// ---- walks

/// A cursor here and the Rust's iterator, which stand at the same row.
pub struct Walk<'a> {
    kind: &'static str,
    block: &'a [u8],
    accepted: bool,
    order: Order,
    pub here: Cursor,
    there: Option<There<'a>>,
}

struct There<'a> {
    iterator: Iterator<'a>,
    told: tables::Rust,
}

/// How the Rust opens a block; it may open some that are not opened here.
pub struct Source(Result<Opened, Stop>);

impl Source {
    pub fn new(block: &[u8]) -> Source {
        Source(Opened::new(block))
    }

    fn iterator(&self, order: Order) -> Result<Iterator<'_>, Stop> {
        self.0.as_ref().map_err(Stop::clone)?.iterator(order == Order::Descending)
    }
}

impl<'a> Walk<'a> {
    /// Opened both here and there. Where opening is refused, the cursor is the one that opening would have given: a step and a seek
    /// test only the offsets that they use, so both may answer.
    pub fn open(run: &mut Run, kind: &'static str, block: &'a [u8], accepted: bool, order: Order, source: &'a Source) -> Walk<'a> {
        let question = Question { kind, block, accepted, asked: format!("{order:?}, opened") };
        let here = calls::open(run, block, order);
        let told = tables::open(block).map(|()| Cursor { order, passed: 0 });
        question.tables(run, "cursor opened (the tables)", &here, told.as_ref());
        let there = source.iterator(order);
        let first = tables::rust_opens(block);
        let rust = there.as_ref().map(|_| Word::Opened).map_err(Stop::clone);
        if rust.is_ok() != first.is_some() {
            question.differs(run, format!("the Rust {rust:?}, unforeseen"));
        }
        question.rust(run, &here.map(|_| Word::Opened), told.as_ref().err(), &rust);
        let there = there.ok().zip(first).map(|(iterator, first)| There { iterator, told: tables::Rust { first, passed: 0 } });
        Walk { kind, block, accepted, order, here: Cursor { order, passed: 0 }, there }
    }

    fn question(&self, asked: impl std::fmt::Debug) -> Question<'a> {
        let asked = format!("{:?}, {} passed, {asked:?}", self.order, self.here.passed);
        Question { kind: self.kind, block: self.block, accepted: self.accepted, asked }
    }

    pub fn apply(&mut self, run: &mut Run, op: &Op) {
        match op {
            Op::Next => self.next(run, KEY_LIMIT),
            Op::IsEmpty => self.is_empty(run),
            Op::Seek(target) => self.seek(run, target),
        }
    }

    /// A step with a lent key buffer of this length, of whose bytes those past the key stay. 19 is not the Rust's.
    pub fn next(&mut self, run: &mut Run, out_len: usize) {
        let question = self.question(Op::Next);
        let told = tables::step(self.block, self.order, self.here.passed);
        let here = step(run, &mut self.here, self.block, out_len);
        if let Ok(Some(Named { row, .. })) = &told {
            if row.key.len() > out_len {
                return question.tables(run, "step (the tables)", &here, Err(&SHORT));
            }
        }
        question.tables(run, "step (the tables)", &here, told.as_ref());
        let Some(there) = &mut self.there else { return };
        let rust = there.iterator.next();
        if rust != there.told.step(self.block, self.order) {
            question.differs(run, format!("the Rust {rust:?}, unforeseen"));
        }
        let word = |row: Option<Row>| row.map_or(Word::Done, Word::Given);
        question.rust(run, &here.map(|given| word(given.map(|named| named.row))), told.as_ref().err(), &rust.map(word));
        self.stay_together();
    }

    pub fn seek(&mut self, run: &mut Run, target: &[u8]) {
        let question = self.question(Op::Seek(target.to_vec()));
        let told = tables::seek(self.block, self.order, target);
        let here = calls::seek(run, &mut self.here, self.block, target).map(|sought| (self.here.passed, sought.found, sought.reads));
        let rows = tables::block(self.block).map_or(0, |block| block.offsets.len());
        if let Ok((_, _, reads)) = here {
            run.tally.sought(rows as u64, reads as u64);
        }
        let given = told.as_ref().map(|(passed, reads)| (*passed, *passed < rows, *reads));
        question.tables(run, "seek (the tables)", &here, given.as_ref().map_err(|known| *known));
        let Some(there) = &mut self.there else { return };
        let rust = there.iterator.seek(target);
        if rust != there.told.seek(self.block, self.order, target) {
            question.differs(run, format!("the Rust {rust:?}, unforeseen"));
        }
        question.rust(run, &here.map(|_| Word::Sought), told.as_ref().err(), &rust.map(|()| Word::Sought));
        self.stay_together();
    }

    pub fn is_empty(&mut self, run: &mut Run) {
        let question = self.question(Op::IsEmpty);
        let here = calls::is_empty(run, &self.here, self.block);
        let rows = tables::block(self.block).map_or(0, |block| block.offsets.len());
        let told = tables::step(self.block, self.order, rows).map(|_| self.here.passed >= rows);
        question.tables(run, "cursor asked whether it is empty (the tables)", &here, told.as_ref());
        let Some(there) = &mut self.there else { return };
        let rust = there.iterator.is_empty();
        if rust != there.told.is_empty(self.block) {
            question.differs(run, format!("the Rust {rust}, unforeseen"));
        }
        question.rust(run, &here.map(Word::Empty), told.as_ref().err(), &Ok(Word::Empty(rust)));
    }

    /// Where the Rust has taken what is refused here, it stands elsewhere: from then on the tables alone are asked.
    fn stay_together(&mut self) {
        if self.there.as_ref().is_some_and(|there| there.told.passed != self.here.passed) {
            self.there = None;
        }
    }
}

const SHORT: Known = Known::of_here_alone("a lent key buffer shorter than the key", refusal::KEY_BUFFER);

/// A step of the model: the row with its number. Bytes of the buffer past the key, and all of it where no row is given, must stay,
/// and so must a cursor that is refused or done.
pub fn step(run: &mut Run, cursor: &mut Cursor, block: &[u8], out_len: usize) -> Result<Option<Named>, Refusal> {
    let (lent, before) = (run.pattern(out_len), *cursor);
    let mut out = lent.clone();
    let answer = calls::next(run, cursor, block, &mut out);
    let key_len = if let Ok(Some(Given { row, .. })) = &answer { row.shared + row.suffix_len } else { 0 };
    let moved = Cursor { passed: before.passed.wrapping_add((key_len > 0) as usize), ..before };
    if out[key_len..] != lent[key_len..] || *cursor != moved {
        run.tally.differs("memory that must stay", block.len(), || format!("{before:?}, block {}", short_hex(block)));
    }
    Ok(answer?.map(|Given { number, row: r }| {
        let places = [r.start, r.next, r.shared, r.suffix_at, r.suffix_len, r.value_at, r.value_len];
        Named { number, places, row: row_at(block, &r, &out[..key_len]) }
    }))
}

/// The same operations on one cursor and one iterator.
pub fn walk(run: &mut Run, kind: &'static str, block: &[u8], accepted: bool, order: Order, ops: &[Op]) {
    let source = Source::new(block);
    let mut walk = Walk::open(run, kind, block, accepted, order, &source);
    for op in ops {
        walk.apply(run, op);
    }
}

/// Steps with short key buffers: 19, and from there on the same row again.
pub fn walk_with_short_buffers(run: &mut Run, block: &[u8], accepted: bool, order: Order, steps: usize, out_len: usize) {
    let source = Source::new(block);
    let mut walk = Walk::open(run, "steps with short key buffers (Rust)", block, accepted, order, &source);
    for _ in 0..steps {
        walk.next(run, out_len);
        walk.next(run, KEY_LIMIT);
    }
}

/// Cursors of any count, each stepped twice, asked and sought with: the Rust has no such state, so the tables alone are asked. A
/// count that is reached by good steps is the Rust's too.
pub fn forged(run: &mut Run, block: &[u8], accepted: bool, order: Order, passed: usize, target: &[u8]) {
    let source = Source::new(block);
    let mut walk = Walk::open(run, "cursor with a count (Rust)", block, accepted, order, &source);
    walk.here.passed = passed;
    walk.go_to(passed);
    for op in [Op::IsEmpty, Op::Next, Op::Next, Op::IsEmpty, Op::Seek(target.to_vec()), Op::Next] {
        walk.apply(run, &op);
    }
}

impl Walk<'_> {
    /// Steps the Rust's iterator so far, if every row up to there can be read.
    fn go_to(&mut self, passed: usize) {
        if let Some(there) = &mut self.there {
            while there.told.passed < passed {
                let foreseen = there.told.step(self.block, self.order);
                if there.iterator.next() != foreseen || !matches!(foreseen, Ok(Some(_))) {
                    break;
                }
            }
        }
        self.stay_together();
    }
}
