//! Single rows of the earlier format, sized, written and read.
use super::calls;
use super::tables::{self, Encode, Known, EXPIRE};
use crate::guest::short_hex;
use crate::rows::{fields, row_at};
use crate::Run;
use model::v1::row::{self, Place};
use model::Refusal;
use slate_oracle::direct::{Row, Stop};
use slate_oracle::older;

/// A refusal here: the line of the tables must have its number, and the Rust must do what that says.
fn refused<T>(run: &mut Run, kind: &'static str, size: usize, here: Refusal, known: Option<Known>, rust: &Result<T, Stop>, shown: impl Fn() -> String) {
    let name = known.filter(|known| known.here == here).and_then(|known| known.listed(tables::does(rust)));
    match name {
        Some(name) => run.tally.listed(&name, size, shown),
        None => run.tally.differs(kind, size, || format!("{}: {here}, the tables {known:?}, Rust {:?}", shown(), tables::does(rust))),
    }
}

/// A suffix and fields (`row`), after a first key of so many bytes, sized, and written into a lent buffer.
pub fn write_row(run: &mut Run, first_len: usize, shared: usize, row: &Row, output_len: usize) {
    let encode = Encode { first_len, shared, row: row.clone(), output_len };
    let known = tables::encode_fault(&encode);
    let rust = older::encode(shared, row);
    let size = row.key.len() + row.value.len();
    let shown = || format!("share {shared} of {first_len}, suffix {}, {} value bytes, into {output_len}", short_hex(&row.key), row.value.len());
    if rust.is_ok() != tables::rust_encodes(shared, row) {
        run.tally.differs("row written (Rust)", size, || format!("{}: the Rust {rust:?}, unforeseen", shown()));
    }
    size_row(run, shared, row);
    let lent = run.pattern(output_len);
    let mut output = lent.clone();
    let here = calls::encode(run, &mut output, first_len, shared, &row.key, &row.value, &fields(row));
    let written = *here.as_ref().unwrap_or(&0);
    if output[written..] != lent[written..] {
        run.tally.differs("memory that must stay", size, shown);
    }
    match (here, &rust) {
        (Ok(count), Ok((bytes, _))) if known.is_none() && output[..count] == bytes[..] => run.tally.same("row written (Rust)"),
        (Err(code), rust) => refused(run, "row written (Rust)", size, code, known, rust, shown),
        (here, rust) => run.tally.differs("row written (Rust)", size, || format!("{}: {here:?}, Rust {rust:?}", shown())),
    }
}

/// The size alone knows no first key and no buffer.
fn size_row(run: &mut Run, shared: usize, row: &Row) {
    let kind = "row sized (Rust)";
    let encode = Encode { first_len: usize::MAX, shared, row: row.clone(), output_len: usize::MAX };
    let known = tables::encode_fault(&encode);
    let here = calls::size(run, shared, row.key.len(), row.value.len(), &fields(row));
    let rust = older::encode(shared, row).map(|(_, size)| size);
    let size = row.key.len() + row.value.len();
    let shown = || format!("size alone, share {shared}, suffix {}, {} value bytes", short_hex(&row.key), row.value.len());
    match (here, &rust) {
        (Ok(here), Ok(rust)) if known.is_none() && here == *rust && rust == &tables::size_of(row, row.key.len()) => run.tally.same(kind),
        (Err(code), rust) => refused(run, kind, size, code, known, rust, shown),
        (here, rust) => run.tally.differs(kind, size, || format!("{}: {here:?}, Rust {rust:?}", shown())),
    }
}

/// The row that starts the input, after a first key of so many bytes, and its key alone.
pub fn read_row(run: &mut Run, input: &[u8], first_len: usize) {
    let kind = "row read (Rust)";
    let place = Place { data: input, at: 0, first_len, row_0: false, next: None };
    let known = tables::row_fault(&place);
    let here = calls::decode(run, input, first_len);
    let rust = older::decode(input);
    let shown = || format!("{} after a first key of {first_len}", short_hex(input));
    if rust != tables::rust_decodes(input) {
        run.tally.differs(kind, input.len(), || format!("{}: the Rust {rust:?}, unforeseen", shown()));
    }
    match (&here, known, &rust) {
        (Ok(read), None, Ok((shared, row, _))) => {
            let given = row_at(input, read, &input[read.suffix_at..read.suffix_at + read.suffix_len]);
            let told = given == tables::by_itself(&place) && read.next == tables::end_of(&place) && read.shared == *shared;
            match told {
                true if given == *row => run.tally.same(kind),
                true if *row == tables::as_the_rust_reads(&given) => run.tally.listed(EXPIRE, input.len(), shown),
                _ => run.tally.differs(kind, input.len(), || format!("{}: {given:?}, Rust {row:?}", shown())),
            }
        }
        (Err(11 | 12), Some(known), Err(Stop::InvalidRowFlags)) if Err(known.here) == here.as_ref().map_err(|code| *code) => run.tally.same(kind),
        (Err(code), known, rust) => refused(run, kind, input.len(), *code, known, rust, shown),
        _ => run.tally.differs(kind, input.len(), || format!("{}: {here:?}, the tables {known:?}, Rust {rust:?}", shown())),
    }
    read_key(run, &place);
}

/// A key read alone: the Rust has this only inside its seek.
pub fn read_key(run: &mut Run, place: &Place) {
    let kind = "key read alone (the tables)";
    let (here, known) = (row::read_key(place), tables::key_fault(place));
    match (&here, known) {
        (Ok(key), None) if tables::key_part(place) == (key.shared, key.suffix_at, key.suffix_len, key.end) => run.tally.same(kind),
        (Err(code), Some(known)) if *code == known.here => run.tally.same(kind),
        _ => run.tally.differs(kind, place.data.len(), || format!("{place:?}: {here:?}, the tables {known:?}")),
    }
}

/// A row at a place of a block, whole: 16 and 20 too.
pub fn read_row_at(run: &mut Run, place: &Place) {
    let kind = "row read at a place (the tables)";
    let (here, known) = (row::read(place), tables::row_fault(place));
    match (&here, known) {
        (Ok(row), None) if row.next == tables::end_of(place) => run.tally.same(kind),
        (Err(code), Some(known)) if *code == known.here => run.tally.same(kind),
        _ => run.tally.differs(kind, place.data.len(), || format!("{place:?}: {here:?}, the tables {known:?}")),
    }
}
