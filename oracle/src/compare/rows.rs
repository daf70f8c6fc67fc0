//! Varints, single rows and keys of rows, written and read.
use crate::calls::{bytes_of, fields_words, words_of, Arg, Expected, Function, GOOD, SINGLE_WORDS};
use crate::differences::{self, Encode, Rust};
use crate::guest::short_hex;
use crate::Run;
use model::row::{self, Fields, Kind, Place};
use model::varint;
use slate_oracle::direct::{self, Row};

pub fn fields(row: &Row) -> Fields {
    let kind = [Kind::Value, Kind::Tombstone, Kind::Merge][row.kind as usize];
    Fields { kind, seq: row.seq, expire: row.expire, create: row.create }
}

/// A row that the model read, with its bytes; `key` is the full key, or the suffix of a row by itself.
pub fn row_at(input: &[u8], read: &row::Row, key: &[u8]) -> Row {
    let value = input[read.value_at..read.value_at + read.value_len].to_vec();
    Row { key: key.to_vec(), kind: read.fields.kind as u8, value, seq: read.fields.seq, expire: read.fields.expire, create: read.fields.create }
}

/// What was written to the start of the first lent array, and how many bytes the second says that it is.
fn laid(here: &Expected) -> (Vec<u8>, usize) {
    let count = words_of(&here.memory[1])[0] as usize;
    (here.memory[0][..count].to_vec(), count)
}

/// A number, into a lent buffer.
pub fn write_varint(run: &mut Run, number: u32, output_len: usize) {
    let args = vec![Arg::Written(run.pattern(output_len)), Arg::Number(number as u64), Arg::Written(bytes_of(&[77]))];
    let here = run.call("varint written", Function::VarintPut, args);
    let kind = "varint written (Rust)";
    let rust = direct::varint(number);
    let shown = || format!("{number} into {output_len}");
    match (here.code, differences::first(&differences::VARINT_WRITTEN, &(number, output_len))) {
        (GOOD, None) if rust == laid(&here) => run.tally.same(kind),
        (code, Some(known)) if known.here == code => run.tally.listed(known.name, output_len, shown),
        (code, _) => run.tally.differs(kind, output_len, || format!("{}: model {code}, Rust {rust:?}", shown())),
    }
}

/// A varint at a place of the input: the library and the model only.
pub fn read_varint_at(run: &mut Run, input: &[u8], at: u64, words: usize) {
    let words = run.pattern(words * 8);
    run.call("varint read", Function::VarintGet, vec![Arg::Read(input.to_vec()), Arg::Number(at), Arg::Written(words)]);
}

/// The varint that starts the input.
pub fn read_varint(run: &mut Run, input: &[u8]) {
    read_varint_at(run, input, 0, 2);
    let kind = "varint read (Rust)";
    let rust = direct::unvarint(input);
    let input = input.to_vec();
    match (varint::read(&input, 0), differences::first(&differences::VARINT, &input)) {
        (Ok(here), None) if rust == Ok(here) => run.tally.same(kind),
        (Err(here), Some(known)) if known.here == here && rust.clone().ok() == differences::read_by_the_rust(&input, 0) => {
            run.tally.listed(known.name, input.len(), || short_hex(&input))
        }
        (here, _) => run.tally.differs(kind, input.len(), || format!("{}: Rust {rust:?}, model {here:?}", short_hex(&input))),
    }
}

/// A suffix and fields (`row`), after a key of `previous_len` bytes, into a lent buffer.
pub fn write_row(run: &mut Run, previous_len: usize, shared: usize, row: &Row, output_len: usize) {
    let output = run.pattern(output_len);
    let args = vec![
        Arg::Written(output),
        Arg::Number(previous_len as u64),
        Arg::Number(shared as u64),
        Arg::Read(row.key.clone()),
        Arg::Read(row.value.clone()),
        Arg::Read(bytes_of(&fields_words(&fields(row)))),
        Arg::Written(bytes_of(&[77])),
    ];
    let here = run.call("row written", Function::Encode, args);
    let Ok(shared_32) = u32::try_from(shared) else { return };
    let kind = "row written (Rust)";
    let rust = direct::encode(shared_32, row);
    let input = Encode { previous_len, shared, row: row.clone(), output_len };
    let size = row.key.len() + row.value.len();
    let shown = || format!("share {shared} of {previous_len}, suffix {}, {} value bytes, into {output_len}", short_hex(&row.key), row.value.len());
    match (here.code, differences::first(&differences::ENCODE, &input)) {
        (GOOD, None) if rust == Ok(laid(&here)) => run.tally.same(kind),
        (code, Some(known)) if known.here == code => run.tally.listed(known.name, size, shown),
        (code, _) => run.tally.differs(kind, size, || format!("{}: model {code}, Rust {rust:?}", shown())),
    }
}

/// The row that starts the input, and its key alone.
pub fn read_row(run: &mut Run, input: &[u8], previous_len: usize) {
    let words = run.pattern(SINGLE_WORDS * 8);
    run.call("row read", Function::Decode, vec![Arg::Read(input.to_vec()), Arg::Number(previous_len as u64), Arg::Written(words)]);
    let place = Place { data: input, at: 0, previous_len, restart: false, region_end: input.len() };
    let kind = "row read (Rust)";
    let rust = direct::decode(input);
    let here = row::decode(input, previous_len);
    let shown = || format!("{} after a key of {previous_len}", short_hex(input));
    match (&here, differences::row_fault(&place)) {
        (Ok(read), None) => {
            let given = row_at(input, read, &input[read.suffix_at..read.suffix_at + read.suffix_len]);
            let same = rust == Ok((read.shared as u32, given, read.next));
            if same { run.tally.same(kind) } else { run.tally.differs(kind, input.len(), shown) }
        }
        (Err(code), Some(known)) if known.here == *code && known.rust.may(&rust) => match known.rust {
            Rust::Errors => run.tally.same(kind),
            _ => run.tally.listed(known.name, input.len(), shown),
        },
        _ => run.tally.differs(kind, input.len(), || format!("{}: model {here:?}, Rust {rust:?}", shown())),
    }
    read_key(run, input, place);
}

/// The key alone of the row at a place of the input, in a region, at a restart or not: the library and the model only.
pub fn read_key_at(run: &mut Run, place: &Place, restart: u64, words: usize) {
    let words = run.pattern(words * 8);
    let [at, region_end, previous_len] = [place.at, place.region_end, place.previous_len].map(|number| Arg::Number(number as u64));
    let args = vec![Arg::Read(place.data.to_vec()), at, region_end, previous_len, Arg::Number(restart), Arg::Written(words)];
    run.call("key read", Function::DecodeKey, args);
}

fn read_key(run: &mut Run, input: &[u8], place: Place) {
    read_key_at(run, &place, 0, 3);
    let kind = "key read (Rust)";
    let rust = direct::decode_key_only(input);
    let here = row::read_key(&place);
    let shown = || format!("{} after a key of {}", short_hex(input), place.previous_len);
    match (&here, differences::key_fault(&place)) {
        (Ok(key), None) => {
            let suffix = input[key.suffix_at..key.end].to_vec();
            let same = rust == Ok((key.shared as u32, suffix, key.end));
            if same { run.tally.same(kind) } else { run.tally.differs(kind, input.len(), shown) }
        }
        (Err(code), Some(known)) if known.here == *code && known.rust.may(&rust) => run.tally.listed(known.name, input.len(), shown),
        _ => run.tally.differs(kind, input.len(), || format!("{}: model {here:?}, Rust {rust:?}", shown())),
    }
}
