//! Draws fresh questions of every kind from a seed, with limits so small that nearly every one sits on an edge, and prints the
//! question sheet and then the marking key, as the core answers.
//!
//! Words: the seed, and how many questions of each kind (1 unless said).

use std::io::Write;
use std::process::ExitCode;

mod sheet;

fn main() -> ExitCode {
    let Some((seed, each)) = sheet::asked(std::env::args().skip(1)) else {
        eprintln!("usage: exam [SEED [HOW MANY OF EACH KIND]], both numbers from 0 up to 2^64 - 1");
        return ExitCode::from(2);
    };
    let text = match sheet::exam(seed, each) {
        Ok(text) => text,
        Err(refusal) => {
            eprintln!("exam: {refusal}");
            return ExitCode::FAILURE;
        }
    };
    match std::io::stdout().write_all(text.as_bytes()) {
        Ok(()) => ExitCode::SUCCESS,
        Err(error) => {
            eprintln!("exam: {error}");
            ExitCode::FAILURE
        }
    }
}
