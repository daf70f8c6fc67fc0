//! The model's journal and the proved library's, on the same journals: random ones, damaged and cut ones, and forged lengths.
//! journal_compare COMMAND.. ANSWERS SEED: COMMAND runs the guest that serves the library.
use std::io::{BufReader, BufWriter, Read, Write};
use std::process::{exit, ChildStdin, ChildStdout, Command, Stdio};

use model::journal::{self, Found, Record, Refusal};

#[path = "../../src/rng.rs"]
#[allow(dead_code)]
mod rng;
use rng::Rng;

type Answer = [u64; 7];

struct Guest {
    to: BufWriter<ChildStdin>,
    from: BufReader<ChildStdout>,
}

impl Guest {
    /// The code and the six lent words of an answer, and the bytes after it where they come back.
    fn ask(&mut self, letter: u8, bytes: &[u8], words: &[u64]) -> (Answer, Vec<u8>) {
        let mut w = [0; 6];
        w[..words.len()].copy_from_slice(words);
        let mut line = vec![letter];
        line.extend((bytes.len() as u64).to_le_bytes());
        line.extend(bytes);
        for x in w {
            line.extend(x.to_le_bytes());
        }
        self.to.write_all(&line).and_then(|()| self.to.flush()).expect("the guest listens");
        let mut answer = [0; 56];
        self.from.read_exact(&mut answer).expect("the guest answers");
        let mut after = vec![0; if letter == b'p' { bytes.len() } else { 0 }];
        self.from.read_exact(&mut after).expect("the guest answers");
        let mut a = [0; 7];
        for (x, b) in a.iter_mut().zip(answer.chunks(8)) {
            *x = u64::from_le_bytes(b.try_into().unwrap());
        }
        (a, after)
    }
}

// as the guest lends a word
const LENT: u64 = 0xA5A5_A5A5_A5A5_A5A5;

// a code and the words that it leaves
fn answer(code: u64, words: &[u64]) -> Answer {
    let mut a = [LENT; 7];
    a[0] = code;
    a[1..=words.len()].copy_from_slice(words);
    a
}

// a refusal, which leaves all words but the one for the position of a 31
fn refused(x: Refusal, place: usize) -> Answer {
    let mut a = answer(x.number(), &[]);
    if let Refusal::UnknownKind(at) = x {
        a[place] = at as u64;
    }
    a
}

fn record_at(journal: &[u8], at: usize, words: u64) -> Answer {
    if words != 5 {
        return answer(254, &[]);
    }
    let next = at as u64;
    match journal::record_at(journal, at) {
        Ok(Found::Whole(Record::Debit { card, retry, amount }, _)) => answer(0, &[1, card, retry, amount.into(), next + 21]),
        Ok(Found::Whole(Record::TopUp { card, retry, amount }, _)) => answer(0, &[2, card, retry, amount.into(), next + 21]),
        Ok(Found::Whole(Record::Close { card }, _)) => answer(0, &[3, card, 0, 0, next + 9]),
        Ok(Found::Incomplete) => answer(253, &[]),
        Ok(Found::End) => answer(255, &[]),
        // its position is the place asked for, and no word tells it
        Err(x) => answer(x.number(), &[]),
    }
}

fn read(journal: &[u8]) -> Answer {
    match journal::read(journal) {
        Ok((records, end)) => answer(0, &[records.len() as u64, end as u64]),
        Err(x) => refused(x, 2),
    }
}

fn balance(journal: &[u8], card: u64) -> Answer {
    match journal::balance(journal, card) {
        Ok((sum, end)) => answer(0, &[sum as u64, end as u64]),
        Err(x) => refused(x, 2),
    }
}

fn append(buffer: &mut [u8], used: usize, kind: u64, card: u64, retry: u64, amount: u32) -> Answer {
    let record = match kind {
        1 => Record::Debit { card, retry, amount },
        2 => Record::TopUp { card, retry, amount },
        3 => Record::Close { card },
        _ => return answer(254, &[]),
    };
    match journal::append(buffer, used, record) {
        Ok(next) => answer(0, &[next as u64]),
        Err(x) => refused(x, 1),
    }
}

struct Inputs(Rng);

impl Inputs {
    fn below(&mut self, n: u64) -> u64 {
        self.0.next() % n
    }

    // a few cards and retry numbers, so that there are doubles, with the largest of both
    fn card(&mut self) -> u64 {
        match self.below(8) {
            0 => u64::MAX,
            1 => 1 << 63,
            n => n % 4,
        }
    }

    fn amount(&mut self) -> u32 {
        match self.below(4) {
            0 => u32::MAX,
            1 => 1 << 31,
            _ => self.0.next() as u32,
        }
    }

    // of so many retry numbers, whose low bits are alike up to a place
    fn record(&mut self, retries: u64, shift: u32) -> Record {
        let (card, retry, amount) = (self.card(), self.below(retries) << shift, self.amount());
        let retry = if self.below(16) == 0 { u64::MAX - retry } else { retry };
        match self.below(24) {
            0 => Record::Close { card },
            n if n % 2 == 0 => Record::Debit { card, retry, amount },
            _ => Record::TopUp { card, retry, amount },
        }
    }

    fn journal(&mut self) -> Vec<u8> {
        let records = if self.below(200) == 0 { 3_000 + self.below(400) } else { self.below(40) };
        let retries = [2, 8, 4096, 1 << 40][self.below(4) as usize];
        let shift = [0, 13, 52][self.below(3) as usize];
        let mut v = Vec::new();
        for _ in 0..records {
            v.extend(self.record(retries, shift).bytes());
        }
        match self.below(6) {
            0 => v.truncate(self.below(v.len() as u64 + 1) as usize),
            1 if !v.is_empty() => {
                let at = self.below(v.len() as u64) as usize;
                v[at] = self.0.next() as u8;
            }
            2 if !v.is_empty() => {
                let at = self.below(v.len() as u64) as usize;
                v[at] = self.below(5) as u8;
            }
            3 => v.push(self.below(5) as u8),
            4 if self.below(40) == 0 => v.resize(65_530 + self.below(12) as usize, self.below(5) as u8),
            _ => {}
        }
        v
    }
}

fn main() {
    let words: Vec<String> = std::env::args().skip(1).collect();
    let [command @ .., answers, seed] = &words[..] else { panic!("COMMAND.. ANSWERS SEED") };
    let (answers, seed): (u64, u64) = (answers.parse().unwrap(), seed.parse().unwrap());
    let mut child = Command::new(&command[0]).args(&command[1..]).stdin(Stdio::piped()).stdout(Stdio::piped()).spawn().unwrap();
    let mut guest = Guest { to: BufWriter::new(child.stdin.take().unwrap()), from: BufReader::new(child.stdout.take().unwrap()) };
    let mut inputs = Inputs(Rng(seed));
    let (mut asked, mut differ) = (0, 0);
    let mut codes = std::collections::BTreeMap::new();
    while asked < answers {
        let journal = inputs.journal();
        let mut hold = |letter: u8, bytes: &[u8], words: &[u64], wanted: Answer, wanted_after: &[u8]| {
            let (a, after) = guest.ask(letter, bytes, words);
            asked += 1;
            *codes.entry((letter as char, a[0])).or_insert(0u64) += 1;
            if a != wanted || after != wanted_after {
                differ += 1;
                println!("{} {:02x?} {words:?}: the library {a:?}, the model {wanted:?}", letter as char, &bytes[..bytes.len().min(200)]);
            }
        };
        hold(b'r', &journal, &[], read(&journal), &[]);
        for card in [0, 2, u64::MAX] {
            hold(b'b', &journal, &[card], balance(&journal, card), &[]);
        }
        let size = journal.len() as u64;
        for at in [0, size, inputs.below(size + 3), u64::MAX] {
            let words = if inputs.below(16) == 0 { inputs.below(7) } else { 5 };
            hold(b'a', &journal, &[at, words], record_at(&journal, at as usize, words), &[]);
        }
        for _ in 0..4 {
            let record = inputs.record(4, 0);
            let (card, retry, amount) = (inputs.card(), inputs.below(4), inputs.amount());
            let kind = if inputs.below(12) == 0 { inputs.0.next() } else { 1 + inputs.below(3) };
            let mut buffer = journal.clone();
            let room = [0, 9, 20, 21, 40][inputs.below(5) as usize];
            buffer.resize(journal.len() + room, inputs.0.next() as u8);
            let used = match inputs.below(6) {
                0 => buffer.len() as u64 + inputs.below(3),
                1 => inputs.below(size + 1),
                2 => inputs.0.next(),
                3 => record.bytes().len() as u64,
                _ => size,
            };
            let mut after = buffer.clone();
            let wanted = append(&mut after, used as usize, kind, card, retry, amount);
            hold(b'p', &buffer, &[used, kind, card, retry, amount.into()], wanted, &after);
        }
    }
    for ((letter, code), n) in &codes {
        println!("{letter} {code}: {n}");
    }
    println!("{asked} answers, {differ} differ");
    drop(guest);
    child.wait().unwrap();
    exit(i32::from(differ > 0))
}
