//! A block's restart regions, read by the difference tables alone, and what 01 makes of them: the rows that a scan or a seek
//! gives, and the fault that ends them.
use crate::differences::{self, Known, Rust};
use model::cursor::Order;
use model::row::Place;
use slate_oracle::direct::Row;

/// What is wrong with a row or with a restart's key; of a row with bad flags, whose key can be read all the same, also that key.
#[derive(Clone)]
pub struct Fault {
    pub known: Known,
    pub key: Option<Vec<u8>>,
}

/// A region's good rows, read from its start, and where they end, the first fault, and its restart's key, read alone.
pub struct Region {
    pub start: usize,
    pub rows: Vec<Row>,
    ends: Vec<usize>,
    fault: Option<Fault>,
    key: Result<Vec<u8>, Fault>,
}

impl Region {
    /// How many of its rows end at or before a position.
    pub fn ended_by(&self, at: usize) -> usize {
        self.ends.iter().filter(|end| **end <= at).count()
    }
}

/// A row, and which one it is: its region, and its number there.
#[derive(Clone, Debug, PartialEq, Eq)]
pub struct Named {
    pub region: usize,
    pub number: usize,
    pub row: Row,
}

/// What is asked of a block with a good trailer: a scan, or a seek to the target and the rows after it.
pub struct Asked<'a> {
    pub data: &'a [u8],
    pub regions: &'a [Region],
    pub order: Order,
    pub target: Option<&'a [u8]>,
}

/// The rows given, and the fault that ends them; None is "done". `sought`: it was not the seek that met the fault.
#[derive(Debug, PartialEq)]
pub struct Told {
    pub sought: bool,
    pub rows: Vec<Named>,
    pub end: Option<Known>,
}

fn restart_key(place: &Place) -> Result<Vec<u8>, Fault> {
    match differences::key_fault(place) {
        Some(known) => Err(Fault { known, key: None }),
        None => Ok(differences::key(place, &[])),
    }
}

fn region(data: &[u8], start: usize, end: usize) -> Region {
    let mut place = Place { data, at: start, previous_len: 0, restart: true, region_end: end };
    let mut region = Region { start, rows: Vec::new(), ends: Vec::new(), fault: None, key: restart_key(&place) };
    let mut previous = Vec::new();
    while place.at < end {
        if let Some(known) = differences::row_fault(&place) {
            let key = (known.rust == Rust::Errors).then(|| differences::key(&place, &previous));
            region.fault = Some(Fault { known, key });
            break;
        }
        let (row, next) = differences::row_and_end(&place, &previous);
        previous = row.key.clone();
        region.rows.push(row);
        region.ends.push(next);
        place = Place { at: next, previous_len: previous.len(), restart: false, ..place };
    }
    region
}

/// The regions of a block with a good trailer and good offsets, and its data.
pub fn regions(block: &[u8]) -> (Vec<Region>, &[u8]) {
    let (offsets, data_len) = differences::offsets(block);
    let data = &block[..data_len];
    let ends = offsets[1..].iter().chain([&data_len]);
    (offsets.iter().zip(ends).map(|(start, end)| region(data, *start, *end)).collect(), data)
}

/// The number of the last region, and the data's length, of a block with a good count.
pub fn last(block: &[u8]) -> Option<(usize, usize)> {
    let bad = differences::first(&differences::TRAILER[..3], &block.to_vec()).is_some();
    let offsets = || differences::offsets(block);
    (!bad).then(|| (offsets().0.len() - 1, offsets().1))
}

/// One region, whatever the other offsets are; None if there is none of that number, or its own two offsets are no bounds.
pub fn region_of(block: &[u8], number: usize) -> Option<Region> {
    last(block)?;
    let (offsets, data_len) = differences::offsets(block);
    let start = *offsets.get(number)?;
    let end = *offsets.get(number + 1).unwrap_or(&data_len);
    (start < end && end <= data_len).then(|| region(&block[..data_len], start, end))
}

// ---- the check

/// How many rows the block has, or what is wrong with it: its trailer and offsets, then in the order of the rows a fault, or a row
/// that may not follow the one before, whatever regions they stand in.
pub fn verdict(block: &[u8]) -> Result<usize, Known> {
    differences::first(&differences::TRAILER, &block.to_vec()).map_or(Ok(()), Err)?;
    let (regions, _) = regions(block);
    let told = onward(&regions, 0);
    let falls = |pair: &[Named]| differences::first(&differences::ORDER, &(pair[0].row.clone(), pair[1].row.clone()));
    told.rows.windows(2).find_map(falls).map_or(Ok(()), Err)?;
    told.end.map_or(Ok(told.rows.len()), Err)
}

// ---- scans

fn ended(rows: Vec<Named>, fault: Option<&Fault>) -> Told {
    Told { sought: true, rows, end: fault.map(|fault| fault.known) }
}

/// The rows of a region, numbered from 0.
fn named(regions: &[Region], region: usize) -> Vec<Named> {
    regions[region].rows.iter().enumerate().map(|(number, row)| Named { region, number, row: row.clone() }).collect()
}

/// All rows from this region on, up to the first fault.
fn onward(regions: &[Region], first: usize) -> Told {
    let mut rows = Vec::new();
    for region in first..regions.len() {
        rows.extend(named(regions, region));
        if regions[region].fault.is_some() {
            return ended(rows, regions[region].fault.as_ref());
        }
    }
    ended(rows, None)
}

/// These rows, then back through all rows of the regions before this one: one with a fault, since it is read from its start,
/// gives none.
fn backward(mut rows: Vec<Named>, regions: &[Region], before: usize) -> Told {
    for region in (0..before).rev() {
        if regions[region].fault.is_some() {
            return ended(rows, regions[region].fault.as_ref());
        }
        rows.extend(named(regions, region).into_iter().rev());
    }
    ended(rows, None)
}

// ---- seeks

/// "Keeps the upper part if the key is below the target, else the lower one, until the span is empty."
fn search(regions: &[Region], target: &[u8]) -> Result<usize, Fault> {
    let (mut low, mut high) = (0, regions.len());
    while low < high {
        let middle = low + (high - low) / 2;
        if regions[middle].key.as_ref().map_err(Fault::clone)?.as_slice() < target {
            low = middle + 1;
        } else {
            high = middle;
        }
    }
    Ok(low)
}

/// "Start one restart earlier (not below 0) and walk to the first row at or above the target": its region, and which row of it.
pub fn first_not_below(regions: &[Region], target: &[u8]) -> Result<Option<(usize, usize)>, Fault> {
    for number in search(regions, target)?.saturating_sub(1)..regions.len() {
        let region = &regions[number];
        if let Some(row) = region.rows.iter().position(|row| row.key.as_slice() >= target) {
            return Ok(Some((number, row)));
        }
        region.fault.clone().map_or(Ok(()), Err)?;
    }
    Ok(None)
}

/// "Start at the last of the run of restarts equal to the target, if the one found is equal; otherwise one earlier."
fn start_back(regions: &[Region], target: &[u8]) -> Result<usize, Fault> {
    let found = search(regions, target)?;
    let mut past = found;
    while past < regions.len() && regions[past].key.as_ref().map_err(Fault::clone)? == target {
        past += 1;
    }
    Ok(if past == found { found.saturating_sub(1) } else { past - 1 })
}

/// Which row of a region that was read whole a descending seek takes.
pub type Pick = fn(&[Row], &[u8]) -> Option<usize>;

/// 01's.
pub fn last_not_above(rows: &[Row], target: &[u8]) -> Option<usize> {
    rows.iter().rposition(|row| row.key.as_slice() <= target)
}

/// The Rust's: the same as long as no key falls.
pub fn before_first_greater(rows: &[Row], target: &[u8]) -> Option<usize> {
    rows.iter().position(|row| row.key.as_slice() > target).unwrap_or(rows.len()).checked_sub(1)
}

fn sought_back(regions: &[Region], target: &[u8], pick: Pick) -> Result<Told, Fault> {
    for number in (0..=start_back(regions, target)?).rev() {
        let region = &regions[number];
        region.fault.clone().map_or(Ok(()), Err)?;
        if let Some(row) = pick(&region.rows, target) {
            return Ok(backward(named(regions, number).drain(..=row).rev().collect(), regions, number));
        }
    }
    Ok(ended(Vec::new(), None))
}

fn sought_on(regions: &[Region], target: &[u8]) -> Result<Told, Fault> {
    let Some((number, row)) = first_not_below(regions, target)? else { return Ok(ended(Vec::new(), None)) };
    let mut told = onward(regions, number);
    told.rows.drain(..row);
    Ok(told)
}

/// The whole answer of a cursor that was opened without reading a row, where a descending seek takes a row so.
pub fn told_by(asked: &Asked, pick: Pick) -> Told {
    let told = match (asked.target, asked.order) {
        (None, Order::Ascending) => Ok(onward(asked.regions, 0)),
        (None, Order::Descending) => Ok(backward(Vec::new(), asked.regions, asked.regions.len())),
        (Some(target), Order::Ascending) => sought_on(asked.regions, target),
        (Some(target), Order::Descending) => sought_back(asked.regions, target, pick),
    };
    told.unwrap_or_else(|fault| unread(fault.known))
}

fn unread(known: Known) -> Told {
    Told { sought: false, rows: Vec::new(), end: Some(known) }
}

/// "Opening backwards now reads the last region and may give its row refusals."
pub fn opening_fault(asked: &Asked) -> Option<Known> {
    let last = asked.regions.last().filter(|_| asked.order == Order::Descending)?;
    last.fault.as_ref().map(|fault| fault.known)
}

/// The whole answer, by 01 and 02.
pub fn told(asked: &Asked) -> Told {
    opening_fault(asked).map_or_else(|| told_by(asked, last_not_above), unread)
}
