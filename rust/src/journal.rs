//! The switch's journal: debits, top-ups and closes of cards, one after another, over the proved static library `slatedb_journal`.
//!
//! Of all records with one kind, card and retry number only the earliest counts, whatever amounts the later ones bear; records
//! after the card's close count for nothing. An incomplete tail is no refusal: it is reported with its start.

use std::error::Error;
use std::fmt;

use crate::ffi::{self, JournalOffer};

/// A record of a journal.
#[derive(Clone, Copy, Debug, PartialEq, Eq, Hash)]
pub enum Record {
    Debit { card: u64, retry: u64, amount: u32 },
    TopUp { card: u64, retry: u64, amount: u32 },
    Close { card: u64 },
}

/// Why a call was refused. A refused call has changed nothing.
#[derive(Clone, Copy, Debug, PartialEq, Eq, Hash)]
#[non_exhaustive]
pub enum Refusal {
    /// Refusal 30: the journal, or the used part, has over 65,536 bytes.
    TooLong,
    /// Refusal 31: a kind that is none of 1, 2 and 3, at this position.
    UnknownKind { at: usize },
    /// Refusal 32: the used length is past the buffer.
    UsedPastBuffer,
    /// Refusal 33: the used part ends inside a record.
    EndsInside,
    /// Refusal 34: the record doesn't fit the buffer, or 65,536 bytes.
    NoRoom,
}

impl Refusal {
    pub fn number(self) -> u8 {
        match self {
            Refusal::TooLong => 30,
            Refusal::UnknownKind { .. } => 31,
            Refusal::UsedPastBuffer => 32,
            Refusal::EndsInside => 33,
            Refusal::NoRoom => 34,
        }
    }
}

impl fmt::Display for Refusal {
    fn fmt(&self, f: &mut fmt::Formatter<'_>) -> fmt::Result {
        write!(f, "refusal {}: ", self.number())?;
        match self {
            Refusal::TooLong => write!(f, "the journal, or the used part, has over 65,536 bytes"),
            Refusal::UnknownKind { at } => write!(f, "a kind that is none of 1, 2 and 3, at {}", at),
            Refusal::UsedPastBuffer => write!(f, "the used length is past the buffer"),
            Refusal::EndsInside => write!(f, "the used part ends inside a record"),
            Refusal::NoRoom => write!(f, "the record doesn't fit the buffer, or 65,536 bytes"),
        }
    }
}

impl Error for Refusal {}

/// What stands at a place of a journal.
#[derive(Clone, Copy, Debug, PartialEq, Eq)]
pub enum Found {
    /// A record, and the place after it.
    Whole { record: Record, next: usize },
    /// The journal ends inside the record that starts here.
    Incomplete,
    /// The journal ends here, or before.
    End,
}

/// How many complete records a journal has, and where an incomplete tail starts, if it has one.
#[derive(Clone, Copy, Debug, PartialEq, Eq)]
pub struct Reading {
    pub records: usize,
    pub tail: Option<usize>,
}

/// A card's top-ups less its debits, as far as they count, and where an incomplete tail starts, if there is one.
#[derive(Clone, Copy, Debug, PartialEq, Eq)]
pub struct Balance {
    pub amount: i64,
    pub tail: Option<usize>,
}

// good, or the refusal of this number, with its position where it is 31
fn good(code: u8, place: u64) -> Result<(), Refusal> {
    match code {
        0 => Ok(()),
        30 => Err(Refusal::TooLong),
        31 => Err(Refusal::UnknownKind { at: place as usize }),
        32 => Err(Refusal::UsedPastBuffer),
        33 => Err(Refusal::EndsInside),
        34 => Err(Refusal::NoRoom),
        _ => unreachable!("the library answers no {}", code),
    }
}

fn tail(journal: &[u8], place: u64) -> Option<usize> {
    Some(place as usize).filter(|at| *at < journal.len())
}

/// The record at a place.
pub fn record_at(journal: &[u8], at: usize) -> Result<Found, Refusal> {
    let mut words = [0; ffi::JOURNAL_RECORD_WORDS];
    match ffi::journal_record_at(journal, at, &mut words) {
        253 => return Ok(Found::Incomplete),
        255 => return Ok(Found::End),
        code => good(code, at as u64)?,
    }
    let [kind, card, retry, amount, next] = words;
    let amount = amount as u32;
    let record = match kind {
        1 => Record::Debit { card, retry, amount },
        2 => Record::TopUp { card, retry, amount },
        _ => Record::Close { card },
    };
    Ok(Found::Whole { record, next: next as usize })
}

/// Reads a whole journal.
pub fn read(journal: &[u8]) -> Result<Reading, Refusal> {
    let (mut records, mut place) = (0, 0);
    good(ffi::journal_read(journal, &mut records, &mut place), place)?;
    Ok(Reading { records: records as usize, tail: tail(journal, place) })
}

/// The balance of a card.
pub fn balance(journal: &[u8], card: u64) -> Result<Balance, Refusal> {
    let (mut amount, mut place) = (0, 0);
    good(ffi::journal_balance(journal, card, &mut amount, &mut place), place)?;
    Ok(Balance { amount, tail: tail(journal, place) })
}

/// Appends a record to the first `used` bytes of the buffer, and answers the new used length.
pub fn append(buffer: &mut [u8], used: usize, record: Record) -> Result<usize, Refusal> {
    let offer = match record {
        Record::Debit { card, retry, amount } => JournalOffer { kind: 1, card, retry, amount },
        Record::TopUp { card, retry, amount } => JournalOffer { kind: 2, card, retry, amount },
        Record::Close { card } => JournalOffer { kind: 3, card, retry: 0, amount: 0 },
    };
    let mut place = 0;
    good(ffi::journal_append(buffer, used, offer, &mut place), place)?;
    Ok(place as usize)
}
