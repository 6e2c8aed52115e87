//! How a side is timed: samples of both in turn, and the medians.

use std::time::Instant;

/// How long one sample of a side should take, in nanoseconds.
const SAMPLE: f64 = 200_000.0;

/// The table under way.
pub struct Bench {
    /// How many samples of each side.
    pub samples: usize,
}

fn timed(calls: usize, run: &mut dyn FnMut(usize)) -> f64 {
    let start = Instant::now();
    run(calls);
    start.elapsed().as_nanos() as f64 / calls as f64
}

/// The middle one.
pub fn median(times: &mut [f64]) -> f64 {
    times.sort_by(f64::total_cmp);
    times.get(times.len() / 2).copied().unwrap_or(f64::NAN)
}

/// So many calls in one sample that it takes about as long as it should.
fn calls(run: &mut dyn FnMut(usize)) -> usize {
    let mut calls = 1;
    loop {
        let each = timed(calls, run);
        if each * calls as f64 >= SAMPLE / 4.0 || calls >= 1 << 24 {
            return ((SAMPLE / each.max(0.1)) as usize).max(1);
        }
        calls *= 2;
    }
}

/// A loop over one call, so that the loop and the call are compiled together.
#[macro_export]
macro_rules! repeated {
    ($call:expr) => {
        &mut |calls: usize| {
            for _ in 0..calls {
                let _ = std::hint::black_box($call);
            }
        }
    };
}

impl Bench {
    /// One line of the table: both sides in turn.
    pub fn both(
        &self,
        path: &str,
        call: &str,
        ours: &mut dyn FnMut(usize),
        rust: &mut dyn FnMut(usize),
    ) {
        let (ours_calls, rust_calls) = (calls(ours), calls(rust));
        let (mut ours_times, mut rust_times) = (Vec::new(), Vec::new());
        for _ in 0..self.samples {
            ours_times.push(timed(ours_calls, ours));
            rust_times.push(timed(rust_calls, rust));
        }
        let pairs = ours_times.iter().zip(&rust_times);
        let ratio = median(&mut pairs.map(|(ours, rust)| ours / rust).collect::<Vec<f64>>());
        let (ours, rust) = (median(&mut ours_times), median(&mut rust_times));
        println!("| {path} | {call} | {ours:.1} | {rust:.1} | {ratio:.2} |");
    }

    /// One line for what the Rust has no counterpart of.
    pub fn alone(&self, path: &str, call: &str, ours: &mut dyn FnMut(usize)) {
        let each = calls(ours);
        let mut times: Vec<f64> = (0..self.samples).map(|_| timed(each, ours)).collect();
        println!("| {path} | {call} | {:.1} | | |", median(&mut times));
    }
}
