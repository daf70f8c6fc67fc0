//! The switch's journal, by request Q-14's own words: records are read into a list, and everything is worked out from the list.
//! Plain and slow: a card's records are looked through again for each record.

#[derive(Clone, Copy, PartialEq, Eq, Debug)]
pub enum Record {
    Debit { card: u64, retry: u64, amount: u32 },
    TopUp { card: u64, retry: u64, amount: u32 },
    Close { card: u64 },
}

#[derive(Clone, Copy, PartialEq, Eq, Debug)]
pub enum Refusal {
    TooLong,
    UnknownKind(usize),
    UsedPastBuffer,
    EndsInside,
    NoRoom,
}

impl Refusal {
    pub fn number(self) -> u64 {
        match self {
            Refusal::TooLong => 30,
            Refusal::UnknownKind(_) => 31,
            Refusal::UsedPastBuffer => 32,
            Refusal::EndsInside => 33,
            Refusal::NoRoom => 34,
        }
    }
}

impl Record {
    fn card(self) -> u64 {
        match self {
            Record::Debit { card, .. } | Record::TopUp { card, .. } | Record::Close { card } => card,
        }
    }

    pub fn bytes(self) -> Vec<u8> {
        let body = |kind: u8, card: u64, retry: u64, amount: u32| {
            let mut v = vec![kind];
            v.extend(card.to_be_bytes());
            v.extend(retry.to_be_bytes());
            v.extend(amount.to_be_bytes());
            v
        };
        match self {
            Record::Debit { card, retry, amount } => body(1, card, retry, amount),
            Record::TopUp { card, retry, amount } => body(2, card, retry, amount),
            Record::Close { card } => {
                let mut v = vec![3];
                v.extend(card.to_be_bytes());
                v
            }
        }
    }
}

/// What stands at a place.
#[derive(PartialEq, Eq, Debug)]
pub enum Found {
    Whole(Record, usize),
    Incomplete,
    End,
}

fn eight(bytes: &[u8]) -> u64 {
    u64::from_be_bytes(bytes.try_into().unwrap())
}

fn found(journal: &[u8], at: usize) -> Result<Found, Refusal> {
    let Some(rest) = journal.get(at..) else { return Ok(Found::End) };
    let Some(kind) = rest.first() else { return Ok(Found::End) };
    let size = match kind {
        1 | 2 => 21,
        3 => 9,
        _ => return Err(Refusal::UnknownKind(at)),
    };
    let Some(r) = rest.get(..size) else { return Ok(Found::Incomplete) };
    let card = eight(&r[1..9]);
    let record = if *kind == 3 {
        Record::Close { card }
    } else {
        let (retry, amount) = (eight(&r[9..17]), u32::from_be_bytes(r[17..21].try_into().unwrap()));
        if *kind == 1 { Record::Debit { card, retry, amount } } else { Record::TopUp { card, retry, amount } }
    };
    Ok(Found::Whole(record, at + size))
}

pub fn record_at(journal: &[u8], at: usize) -> Result<Found, Refusal> {
    if journal.len() > 65_536 {
        return Err(Refusal::TooLong);
    }
    found(journal, at)
}

/// The complete records, and where they end.
pub fn read(journal: &[u8]) -> Result<(Vec<Record>, usize), Refusal> {
    let (mut records, mut at) = (Vec::new(), 0);
    while let Found::Whole(record, next) = record_at(journal, at)? {
        records.push(record);
        at = next;
    }
    Ok((records, at))
}

pub fn balance(journal: &[u8], card: u64) -> Result<(i64, usize), Refusal> {
    let (records, end) = read(journal)?;
    let mut sum = 0;
    let mut counted: Vec<(u8, u64)> = Vec::new();
    for record in records {
        if record.card() != card {
            continue;
        }
        let (kind, retry, amount) = match record {
            Record::Close { .. } => break,
            Record::Debit { retry, amount, .. } => (1, retry, -i64::from(amount)),
            Record::TopUp { retry, amount, .. } => (2, retry, i64::from(amount)),
        };
        if !counted.contains(&(kind, retry)) {
            counted.push((kind, retry));
            sum += amount;
        }
    }
    Ok((sum, end))
}

/// The new used length; the buffer is changed only where it is told.
pub fn append(buffer: &mut [u8], used: usize, record: Record) -> Result<usize, Refusal> {
    let Some(part) = buffer.get(..used) else { return Err(Refusal::UsedPastBuffer) };
    let (_, end) = read(part)?;
    if end < used {
        return Err(Refusal::EndsInside);
    }
    let bytes = record.bytes();
    let next = used + bytes.len();
    if next > buffer.len() || next > 65_536 {
        return Err(Refusal::NoRoom);
    }
    buffer[used..next].copy_from_slice(&bytes);
    Ok(next)
}
