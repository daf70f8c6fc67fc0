//! Blocks that the check refuses: what the Rust does beside 01. An iterator of the Rust is opened first, so here too: a scan is
//! opening and steps, a seek is opening, the seek and steps.
use crate::differences::{self, Does, Known, Rust, TRAILER};
use crate::guest::short_hex;
use crate::regions::{self, Asked, Named, Told};
use crate::rows::row_at;
use crate::Run;
use model::cursor::{Cursor, Given, Order};
use model::{Refusal, KEY_LIMIT};
use slate_oracle::direct::{Opened, Row, Stop};

/// The rows up to the end, each with the pair that names it, and what ended them: None is "done".
struct Here {
    rows: Vec<Named>,
    end: Option<Refusal>,
    sought: bool,
}

struct There {
    rows: Vec<Row>,
    end: Option<Stop>,
    opened: bool,
    sought: bool,
}

fn model_tells(block: &[u8], order: Order, target: Option<&[u8]>) -> Here {
    let (mut rows, mut sought) = (Vec::new(), false);
    let mut tell = || -> Result<(), Refusal> {
        let mut cursor = Cursor::open(block, order)?;
        if let Some(target) = target {
            cursor.seek(block, target)?;
        }
        sought = true;
        let mut key = [0; KEY_LIMIT];
        while let Some(Given { region, number, row }) = cursor.next(block, &mut key)? {
            rows.push(Named { region, number, row: row_at(block, &row, &key[..row.shared + row.suffix_len]) });
        }
        Ok(())
    };
    let end = tell().err();
    Here { rows, end, sought }
}

/// No block has more rows than bytes: a bound, in case a refused block sends the Rust in circles.
fn rust_tells(block: &[u8], order: Order, target: Option<&[u8]>) -> There {
    let (mut rows, mut opened_it, mut sought) = (Vec::new(), false, false);
    let mut tell = || -> Result<(), Stop> {
        let opened = Opened::new(block)?;
        let mut iterator = opened.iterator(order == Order::Descending)?;
        opened_it = true;
        if let Some(target) = target {
            iterator.seek(target)?;
        }
        sought = true;
        while let Some(row) = iterator.next()? {
            rows.push(row);
            if rows.len() > block.len() {
                break;
            }
        }
        Ok(())
    };
    let end = tell().err();
    There { rows, end, opened: opened_it, sought }
}

impl Here {
    fn is(&self, told: &Told) -> bool {
        self.rows == told.rows && self.end == told.end.map(|known| known.here) && self.sought == told.sought
    }
}

impl There {
    /// Past a fault that the Rust reads over (`Rust::Varies`) nothing is said.
    fn is(&self, does: &Does) -> bool {
        let then: Result<(), Stop> = match &self.end {
            Some(stop) if self.rows.len() == does.rows.len() => Err(stop.clone()),
            _ => Ok(()),
        };
        let rightly_sought = self.sought == does.sought;
        self.opened == does.opened
            && self.rows.starts_with(&does.rows)
            && match does.end {
                None => self.end.is_none() && self.rows.len() == does.rows.len() && rightly_sought,
                Some(Rust::Errors) => Rust::Errors.may(&then) && rightly_sought,
                Some(rust) => rust.may(&then),
            }
    }
}

/// The two answers of one question, for a verdict.
struct Question<'a> {
    kind: &'static str,
    block: &'a [u8],
    order: Order,
    target: Option<&'a [u8]>,
    here: Here,
    there: There,
}

impl<'a> Question<'a> {
    fn ask(kind: &'static str, block: &'a [u8], order: Order, target: Option<&'a [u8]>) -> Question<'a> {
        let (here, there) = (model_tells(block, order, target), rust_tells(block, order, target));
        Question { kind, block, order, target, here, there }
    }

    fn shown(&self) -> String {
        let target = self.target.map_or(String::new(), |target| format!(", seek {}", short_hex(target)));
        let here = format!("{} rows, then {:?}", self.here.rows.len(), self.here.end);
        let there = format!("{} rows, then {:?}", self.there.rows.len(), self.there.end);
        format!("{:?}{target}, block {}: {here}; Rust {there}", self.order, short_hex(self.block))
    }

    fn size(&self) -> usize {
        self.block.len() + self.target.map_or(0, <[u8]>::len)
    }

    fn differs(&self, run: &mut Run) {
        run.tally.differs(self.kind, self.size(), || self.shown());
    }

    fn listed(&self, run: &mut Run, name: &'static str) {
        run.tally.listed(name, self.size(), || self.shown());
    }
}

/// A scan, or a seek and what follows. Flags that both refuse, in the same call, are no difference.
fn walk(run: &mut Run, block: &[u8], asked: &Asked) {
    let kind = if asked.target.is_some() { "seek in a refused block (Rust)" } else { "scan of a refused block (Rust)" };
    let question = Question::ask(kind, block, asked.order, asked.target);
    let told = regions::told(asked);
    let (as_told, end) = (question.here.is(&told), told.end);
    let parting = differences::parting(asked);
    let does = parting.map_or_else(|| told.into(), |parting| (parting.rust)(asked));
    if !as_told || !question.there.is(&does) {
        return question.differs(run);
    }
    match (parting, end) {
        (Some(parting), _) => question.listed(run, parting.name),
        (None, Some(known)) if known.rust != Rust::Errors => question.listed(run, known.name),
        _ => run.tally.same(kind),
    }
}

/// A block with a bad trailer or offsets: opening refuses it, whatever is asked then.
fn unopened(run: &mut Run, block: &[u8], target: &[u8], known: Known) {
    for order in [Order::Ascending, Order::Descending] {
        for target in [None, Some(target)] {
            let question = Question::ask("block that is not opened (Rust)", block, order, target);
            let as_told = question.here.is(&Told { sought: false, rows: Vec::new(), end: Some(known) });
            // a trailer that the Rust can't decode opens nothing there; with others it reads on
            let as_known = known.rust != Rust::Panics || question.there.is(&Does::panics_at_opening());
            if as_told && as_known { question.listed(run, known.name) } else { question.differs(run) }
        }
    }
}

/// A block of any bytes: both scans, and both seeks of each target.
pub fn compare(run: &mut Run, block: &[u8], targets: &[Vec<u8>]) {
    if let Some(known) = differences::first(&TRAILER, &block.to_vec()) {
        return unopened(run, block, &targets[0], known);
    }
    let (regions, data) = regions::regions(block);
    for order in [Order::Ascending, Order::Descending] {
        for target in [None].into_iter().chain(targets.iter().map(|target| Some(target.as_slice()))) {
            walk(run, block, &Asked { data, regions: &regions, order, target });
        }
    }
}
