//! compare [v1] [--guest COMMAND.. | --no-guest] ROUNDS SEED: the unchanged Rust, the model of 01 and the proved library (as a
//! guest process) are given the same inputs, and every result, count, refusal and byte is compared. --no-guest: the Rust and the
//! model only. v1: the earlier format.
#![allow(explicit_builtin_cfgs_in_flags)]
mod building;
mod calls;
mod differences;
mod exhaustive;
mod forged;
mod guest;
mod inputs;
mod reading;
mod regions;
mod refused;
mod rounds;
mod rows;
mod tally;
mod v1;

use calls::{Arg, Call, Expected, Function};
use guest::Guest;
use slate_oracle::rng::Rng;
use tally::Tally;

pub struct Run {
    pub rng: Rng,
    pub tally: Tally,
    guest: Option<Guest>,
}

impl Run {
    /// Asks the guest, if there is one, and answers what the model says.
    pub fn call(&mut self, kind: &'static str, function: Function, args: Vec<Arg>) -> Expected {
        let call = Call { function, args };
        let expected = call.expected();
        if let Some((restarts, reads)) = call.searched(&expected) {
            self.tally.sought(restarts, reads);
        }
        self.ask(kind, call, expected.clone());
        expected
    }

    /// Asks the guest, if there is one.
    fn ask(&mut self, kind: &'static str, call: Call, expected: Expected) {
        if let Some(guest) = &mut self.guest {
            guest.ask(kind, call, expected, &mut self.tally);
        }
    }

    /// Lent memory is never clean: the bytes that a call must leave are seen to stay.
    pub fn pattern(&mut self, len: usize) -> Vec<u8> {
        let first = self.rng.next() as u8;
        (0..len).map(|i| first.wrapping_add(i as u8).wrapping_mul(37)).collect()
    }
}

fn main() {
    // the Rust's panics are answers here
    if std::env::var_os("ORACLE_PANIC").is_none() {
        std::panic::set_hook(Box::new(|info| {
            if info.location().is_some_and(|place| place.file().starts_with("src/compare") || place.file().starts_with("model")) {
                eprintln!("{info}");
            }
        }));
    }
    let mut words: Vec<String> = std::env::args().skip(1).collect();
    let earlier = words.first().is_some_and(|word| word == "v1");
    words.drain(..earlier as usize);
    let (Some(seed), Some(rounds)) = (words.pop(), words.pop()) else { panic!("compare [v1] [--guest COMMAND.. | --no-guest] ROUNDS SEED") };
    let (seed, rounds): (u64, usize) = (seed.parse().expect("a seed"), rounds.parse().expect("a number of rounds"));
    let guest = match words.first().map(String::as_str) {
        Some("--guest") => Some(Guest::start(&words[1..])),
        Some("--no-guest") => None,
        _ => panic!("--guest COMMAND.. or --no-guest"),
    };
    let mut run = Run { rng: Rng(seed), tally: Tally::default(), guest };
    run.tally.rows_are_restarts = earlier;
    if earlier {
        v1::compare(&mut run, rounds);
    } else {
        exhaustive::all(&mut run);
        rounds::edges(&mut run);
        (0..rounds).for_each(|_| rounds::round(&mut run));
    }
    if let Some(guest) = run.guest.take() {
        guest.finish(&mut run.tally);
    }
    println!("seed {seed}, {rounds} rounds");
    std::process::exit(if run.tally.report() { 0 } else { 1 });
}
