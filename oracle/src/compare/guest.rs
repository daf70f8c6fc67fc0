//! The process that has the proved library: calls go to it in batches, and each answer is held to the model's.
use crate::calls::{words_of, Arg, Call, Expected};
use crate::tally::Tally;
use std::io::{self, Read, Write};
use std::process::{Child, ChildStdin, ChildStdout, Command, Stdio};

const BATCH: usize = 1 << 21;

pub struct Guest {
    command: Vec<String>,
    process: Child,
    to: ChildStdin,
    from: ChildStdout,
    requests: Vec<u8>,
    waiting: Vec<(&'static str, Call, Expected)>,
    /// the batch that the guest works on while the next one is made
    sent: Vec<(&'static str, Call, Expected)>,
}

fn written(call: &Call, requests: &mut Vec<u8>) {
    requests.push(call.function as u8);
    requests.push(call.args.len() as u8);
    for arg in &call.args {
        match arg {
            Arg::Number(number) => {
                requests.push(0);
                requests.extend(number.to_le_bytes());
            }
            Arg::Read(bytes) | Arg::Written(bytes) => {
                requests.push(if matches!(arg, Arg::Read(_)) { 1 } else { 2 });
                requests.extend((bytes.len() as u32).to_le_bytes());
                requests.extend(bytes);
            }
        }
    }
}

/// What is wrong with an answer, if anything.
fn difference(expected: &Expected, code: u8, stray: u8, memory: &[&[u8]]) -> Option<String> {
    if code != expected.code {
        return Some(format!("answers {code}, not {}", expected.code));
    }
    if stray != 0 {
        return Some("changed memory that is not its to change".into());
    }
    for (i, (expected_bytes, bytes)) in expected.memory.iter().zip(memory).enumerate() {
        let settled = match expected.key {
            Some((array, len)) if array == i => len,
            _ => bytes.len(),
        };
        if expected_bytes[..settled] != bytes[..settled] {
            let at = (0..settled).find(|&k| expected_bytes[k] != bytes[k]).expect("a byte");
            return Some(format!("answers {code} with another byte {at} in written array {i}: {}, not {}", bytes[at], expected_bytes[at]));
        }
    }
    None
}

impl Guest {
    pub fn start(command: &[String]) -> Guest {
        let mut process = Command::new(&command[0])
            .args(&command[1..])
            .stdin(Stdio::piped())
            .stdout(Stdio::piped())
            .spawn()
            .unwrap_or_else(|e| panic!("{}: {e}", command[0]));
        let (to, from) = (process.stdin.take().expect("stdin"), process.stdout.take().expect("stdout"));
        Guest { command: command.to_vec(), process, to, from, requests: Vec::new(), waiting: Vec::new(), sent: Vec::new() }
    }

    pub fn ask(&mut self, kind: &'static str, call: Call, expected: Expected, tally: &mut Tally) {
        written(&call, &mut self.requests);
        self.waiting.push((kind, call, expected));
        if self.requests.len() > BATCH {
            self.flush(tally);
        }
    }

    fn flush(&mut self, tally: &mut Tally) {
        self.collect(tally);
        self.send().expect("the guest reads");
        std::mem::swap(&mut self.waiting, &mut self.sent);
    }

    fn send(&mut self) -> io::Result<()> {
        self.to.write_all(&(self.requests.len() as u32).to_le_bytes())?;
        self.to.write_all(&self.requests)?;
        self.requests.clear();
        self.to.flush()
    }

    fn receive(&mut self) -> io::Result<Vec<u8>> {
        let mut length = [0; 4];
        self.from.read_exact(&mut length)?;
        let mut answers = vec![0; u32::from_le_bytes(length) as usize];
        self.from.read_exact(&mut answers)?;
        Ok(answers)
    }

    /// The process has ended in the batch that was sent: the calls that end it by themselves are what differs.
    fn find_end(&mut self, tally: &mut Tally) -> ! {
        for (kind, call, _) in &self.sent {
            let mut alone = Guest::start(&self.command);
            written(call, &mut alone.requests);
            if alone.send().and_then(|()| alone.receive()).is_err() {
                tally.differs(kind, call.size(), || format!("the library ends the process\n{}", shown(call)));
            }
            drop(alone.to);
            let _ = alone.process.wait();
        }
        tally.report();
        panic!("the guest has ended");
    }

    /// Holds the answers of the batch that was sent.
    fn collect(&mut self, tally: &mut Tally) {
        if self.sent.is_empty() {
            return;
        }
        let Ok(answers) = self.receive() else { self.find_end(tally) };
        let mut at = 0;
        for (kind, call, expected) in self.sent.drain(..) {
            let (code, stray) = (answers[at], answers[at + 1]);
            at += 2;
            let mut memory = Vec::new();
            for bytes in &expected.memory {
                memory.push(&answers[at..at + bytes.len()]);
                at += bytes.len();
            }
            match difference(&expected, code, stray, &memory) {
                None => tally.answered(kind, code),
                Some(what) => tally.differs(kind, call.size(), || format!("the library {what}\n{}", shown(&call))),
            }
        }
        assert_eq!(at, answers.len(), "the guest answers more than it was asked");
    }

    pub fn finish(mut self, tally: &mut Tally) {
        self.flush(tally);
        self.collect(tally);
        drop(self.to);
        let status = self.process.wait().expect("the guest ends");
        assert!(status.success(), "the guest failed: {status}");
    }
}

/// A call as text. Of an array that is written, which is mostly a pattern, the first bytes are shown, and what words they are.
fn shown(call: &Call) -> String {
    const FIRST: usize = 64;
    let mut text = format!("  {:?}", call.function);
    for arg in &call.args {
        text += "\n    ";
        text += &match arg {
            Arg::Number(number) => number.to_string(),
            Arg::Read(bytes) => format!("read    {} bytes: {}", bytes.len(), short_hex(bytes)),
            Arg::Written(bytes) => {
                let first = &bytes[..bytes.len().min(FIRST)];
                format!("written {} bytes: {}, as words {:?}", bytes.len(), short_hex(first), words_of(first))
            }
        };
    }
    text
}

/// A long run of one byte at the end is counted.
pub fn short_hex(bytes: &[u8]) -> String {
    let tail = bytes.iter().rev().take_while(|byte| Some(*byte) == bytes.last()).count();
    if tail > 16 {
        format!("{} then {tail} times {:02x}", slate_oracle::driver::hex(&bytes[..bytes.len() - tail]), bytes[bytes.len() - 1])
    } else {
        slate_oracle::driver::hex(bytes)
    }
}
