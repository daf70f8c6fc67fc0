//! The earlier format: the unchanged Rust's older modules (format/row, format/block, block_iterator), the model and the proved
//! library, on the same inputs.
mod building;
mod calls;
mod exhaustive;
mod inputs;
mod reading;
mod rounds;
mod rows;
mod tables;
mod words;

use crate::Run;

pub fn compare(run: &mut Run, rounds: usize) {
    words::wrong(run);
    exhaustive::all(run);
    rounds::edges(run);
    for _ in 0..rounds {
        rounds::round(run);
    }
}
