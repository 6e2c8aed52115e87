//! Key lines per second: the program `key` of the core, where it has been built.

use std::io::Write;
use std::path::Path;
use std::process::{Command, Stdio};
use std::time::Instant;

use crate::harness::{median, Bench};

/// Lines of small limits, all answered.
fn lines(count: usize) -> Vec<u8> {
    let some = [
        "2 1 2 S 01ff",
        "2 2 3 G 01",
        "16 4 64 G 0102/0304/ffff",
        "4 2 6 M",
    ];
    let line = |i: usize| format!("{}\n", some[i % some.len()]);
    (0..count).flat_map(|i| line(i).into_bytes()).collect()
}

/// Seconds that the program takes for an input, or nothing where it cannot be run.
fn timed(program: &Path, input: &[u8]) -> Option<f64> {
    let start = Instant::now();
    let mut child = Command::new(program)
        .stdin(Stdio::piped())
        .stdout(Stdio::null())
        .spawn()
        .ok()?;
    child.stdin.take()?.write_all(input).ok()?;
    child.wait().ok()?;
    Some(start.elapsed().as_secs_f64())
}

impl Bench {
    /// Lines per second over an input of 400,000 lines.
    pub fn key(&self) {
        let program = Path::new(env!("CARGO_MANIFEST_DIR")).join("../../crates/key/out/key");
        let count = 400_000;
        let input = lines(count);
        let times = (0..self.samples.clamp(1, 9)).map(|_| timed(&program, &input));
        let Some(mut times) = times.collect::<Option<Vec<f64>>>() else {
            return eprintln!(
                "{} is not there: `rt run` in crates/key builds it",
                program.display()
            );
        };
        let each = median(&mut times) * 1e9 / count as f64;
        println!(
            "| key | a line, {:.0} lines a second | {each:.1} | | |",
            1e9 / each
        );
    }
}
