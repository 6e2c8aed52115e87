//! Feeds the core and the Rust files the same inputs and prints, for each call, how many were compared, how many differ as
//! explained, and how many otherwise with the smallest input. These are printed to stderr too as they are found, the first
//! fifty of each row. Ends with 1 if there is one.
//!
//! Words: `brief` for a short run, `tiny` for one under valgrind, which then watches the bytes around buffers; a number for the
//! seed of the random inputs; `paths`, `meaning`, `builder`, `grouping`, `map`, `store` for these parts alone. `sample FOLDER`
//! compares nothing and writes a fixed sample of the Rust's answers. Ends with 2 at any other word.

mod building;
mod damage;
mod group_runs;
mod grouping;
mod groups;
mod guard;
mod inputs;
mod kinds;
mod map_runs;
mod model;
mod path_runs;
mod sample;
mod sheets;
mod sides;
#[cfg(feature = "store")]
mod store_model;
#[cfg(feature = "store")]
mod store_runs;
mod tally;
mod their_groups;
mod theirs;
mod whole;

use std::path::Path;

use inputs::Random;
use tally::Tally;
use their_groups::Groups;
use theirs::{At, Set};
use wotskrale::Limits;

/// How much is run.
#[derive(Clone, Copy, PartialEq, Eq)]
enum Size {
    Tiny,
    Brief,
    Whole,
}

impl Size {
    /// One of three numbers.
    fn pick(self, tiny: usize, brief: usize, whole: usize) -> usize {
        match self {
            Size::Tiny => tiny,
            Size::Brief => brief,
            Size::Whole => whole,
        }
    }
}

/// The Rust at each of these limit sets.
macro_rules! sets {
    ($as:ident: $($mcl:literal $mcc:literal $mpl:literal),+ $(,)?) => {
        [$(&At::<$mcl, $mcc, $mpl> as &dyn $as),+]
    };
}

fn progress(part: &str, limits: Limits, t: &Tally) {
    let (mcl, mcc, mpl) = (limits.mcl, limits.mcc, limits.mpl);
    eprintln!(
        "{part} at {mcl} {mcc} {mpl} done, {} cases so far",
        t.cases()
    );
}

fn paths(size: Size, numbers: &mut Random, t: &mut Tally) {
    let tiny = sets![Set:
        0 0 0, 0 0 1, 0 0 2, 0 0 3, 0 1 0, 0 1 1, 0 1 2, 0 1 3, 0 2 0, 0 2 1, 0 2 2, 0 2 3, 0 3 0, 0 3 1, 0 3 2, 0 3 3,
        1 0 0, 1 0 1, 1 0 2, 1 0 3, 1 1 0, 1 1 1, 1 1 2, 1 1 3, 1 2 0, 1 2 1, 1 2 2, 1 2 3, 1 3 0, 1 3 1, 1 3 2, 1 3 3,
        2 0 0, 2 0 1, 2 0 2, 2 0 3, 2 1 0, 2 1 1, 2 1 2, 2 1 3, 2 2 0, 2 2 1, 2 2 2, 2 2 3, 2 3 0, 2 3 1, 2 3 2, 2 3 3,
        3 0 0, 3 0 1, 3 0 2, 3 0 3, 3 1 0, 3 1 1, 3 1 2, 3 1 3, 3 2 0, 3 2 1, 3 2 2, 3 2 3, 3 3 0, 3 3 1, 3 3 2, 3 3 3
    ];
    // No step that shares a factor with 4, so that each limit takes each of its values.
    for set in tiny.into_iter().step_by(size.pick(5, 1, 1)) {
        path_runs::exhaustive(set, size == Size::Whole, t);
        progress("paths", set.limits(), t);
    }
    let small = sets![Set: 2 2 3, 16 4 64, 3 5 9, 8 2 15, 1 8 8, 64 16 200, 5 3 5, 2 1 2];
    for set in small {
        path_runs::random(set, size.pick(5, 2_000, 50_000), numbers, t);
        progress("paths", set.limits(), t);
    }
    let large = sets![Set: 1024 1024 4096, 1024 4 4096, 4 1024 4096, 1024 1 1024];
    for set in large {
        path_runs::random(set, size.pick(1, 200, 5_000), numbers, t);
        progress("paths", set.limits(), t);
    }
    damage::limits_over(t);
}

/// Ours against all paths that there are.
fn meaning(size: Size, t: &mut Tally) {
    let all = [
        (0, 0, 0),
        (0, 3, 2),
        (1, 1, 1),
        (1, 1, 0),
        (2, 1, 1),
        (1, 2, 1),
        (1, 3, 1),
        (2, 2, 1),
        (2, 1, 2),
        (1, 2, 2),
        (2, 1, 3),
    ];
    for (mcl, mcc, mpl) in all.into_iter().take(size.pick(4, 11, 11)) {
        let limits = Limits::new(mcl, mcc, mpl);
        whole::paths(limits, t);
        if mpl <= 1 || mcl == 0 {
            whole::triplets(limits, t);
        }
        progress("meaning", limits, t);
    }
}

fn builder(size: Size, numbers: &mut Random, t: &mut Tally) {
    for set in sets![Set: 2 2 3, 0 2 2, 1 1 0, 1 0 1, 1 1 1, 3 5 9, 16 4 64, 64 16 200] {
        building::random(set, size.pick(5, 4_000, 60_000), numbers, t);
        progress("builder", set.limits(), t);
    }
    for set in sets![Set: 1024 1024 4096, 1024 4 4096, 4 1024 4096] {
        building::random(set, size.pick(1, 100, 2_000), numbers, t);
        progress("builder", set.limits(), t);
    }
}

fn grouping(size: Size, numbers: &mut Random, t: &mut Tally) {
    group_runs::numbers(t);
    for set in sets![Groups: 0 0 0, 0 1 0, 1 1 1, 0 2 0, 1 2 1, 2 1 2, 1 2 2, 2 2 2] {
        group_runs::exhaustive(set, size.pick(10, 120, 700), numbers, t);
        progress("groupings", set.limits(), t);
    }
    for set in sets![Groups: 2 2 3, 16 4 64, 3 5 9, 8 2 15, 1 8 8, 64 16 200, 2 1 2, 2 2 2, 1 2 2] {
        group_runs::random(set, size.pick(5, 3_000, 60_000), numbers, t);
        progress("groupings", set.limits(), t);
    }
    for set in sets![Groups: 1024 1024 4096, 1024 4 4096, 4 1024 4096] {
        group_runs::random(set, size.pick(1, 100, 2_000), numbers, t);
        progress("groupings", set.limits(), t);
    }
    kinds::random(size.pick(5, 5_000, 200_000), numbers, t);
}

fn map(size: Size, numbers: &mut Random, t: &mut Tally) {
    map_runs::over(t);
    for set in sets![Groups: 2 2 3, 0 0 0, 1 1 1, 0 2 0, 1 2 1, 2 1 2, 3 5 9, 16 4 64] {
        map_runs::random(set, size.pick(2, 700, 12_000), numbers, t);
        progress("maps", set.limits(), t);
    }
    let large = sets![Groups: 1024 1024 4096, 64 16 200, 1024 4 4096, 4 1024 4096];
    for set in large {
        map_runs::random(set, size.pick(1, 30, 600), numbers, t);
        progress("maps", set.limits(), t);
    }
    if size == Size::Whole {
        map_runs::largest(large[0], large[1], numbers, t);
        progress("largest maps", Limits::BOUNDS, t);
    }
}

#[cfg(feature = "store")]
fn store(size: Size, numbers: &mut Random, t: &mut Tally) {
    store_runs::over(t);
    let few = |mcl, mcc, mpl| inputs::lists(mcl, mcc, mpl);
    let most = size.pick(3, 5, 9);
    for (limits, mut paths) in [
        (Limits::new(0, 2, 0), few(0, 2, 0)),
        (Limits::new(1, 2, 1), few(1, 2, 1)),
        (Limits::new(1, 1, 1), few(1, 1, 1)),
    ] {
        paths.truncate(most);
        store_runs::exhaustive(limits, &paths, t);
        progress("stores", limits, t);
    }
    for (mcl, mcc, mpl) in [
        (1, 2, 2),
        (2, 2, 3),
        (0, 0, 0),
        (0, 2, 0),
        (1, 1, 1),
        (2, 1, 2),
        (3, 5, 9),
    ] {
        let limits = Limits::new(mcl, mcc, mpl);
        store_runs::random(limits, size.pick(2, 600, 12_000), numbers, t);
        progress("stores", limits, t);
    }
    for (mcl, mcc, mpl) in [(16, 4, 64), (64, 16, 200), (1024, 1024, 4096)] {
        let limits = Limits::new(mcl, mcc, mpl);
        store_runs::random(limits, size.pick(1, 40, 600), numbers, t);
        progress("stores", limits, t);
    }
    for (mcl, mcc, mpl) in [(0, 9, 0), (1, 6, 6), (1, 3, 2)] {
        let limits = Limits::new(mcl, mcc, mpl);
        store_runs::nested(limits, size.pick(1, 40, 1_000), numbers, t);
        progress("nested stores", limits, t);
    }
    if size == Size::Whole {
        store_runs::largest(numbers, t);
        progress("largest stores", Limits::BOUNDS, t);
    }
}

#[cfg(not(feature = "store"))]
fn store(_: Size, _: &mut Random, _: &mut Tally) {
    println!("The store's calls are not compiled in (feature `store`).");
}

fn write_sample(folder: &str) {
    let sets = sets![Groups: 2 2 3, 2 1 2, 1 2 2, 3 5 9, 8 2 15, 1 8 8, 16 4 64, 0 2 0];
    if let Err(error) = sample::write(Path::new(folder), &sets, &mut Random::new(1)) {
        eprintln!("{folder}: {error}");
        std::process::exit(1);
    }
}

/// The parts of a run, in their order.
const PARTS: [&str; 6] = ["paths", "meaning", "builder", "grouping", "map", "store"];

/// Ends with 2 at a word that says nothing, rather than run something else than was meant.
fn usage(word: &str) -> ! {
    let parts = PARTS.join("|");
    eprintln!("differ: {word:?} is not understood");
    eprintln!("usage: differ [brief|tiny] [SEED] [{parts}]...; differ sample FOLDER");
    std::process::exit(2);
}

fn main() {
    let words: Vec<String> = std::env::args().skip(1).collect();
    if let [word, folder] = &words[..] {
        if word == "sample" {
            return write_sample(folder);
        }
    }
    let known = |word: &str| {
        ["brief", "tiny"].contains(&word) || PARTS.contains(&word) || word.parse::<u64>().is_ok()
    };
    if let Some(word) = words.iter().find(|w| !known(w)) {
        usage(word);
    }
    let has = |word: &str| words.iter().any(|w| w == word);
    let size = match (has("tiny"), has("brief")) {
        (true, _) => Size::Tiny,
        (_, true) => Size::Brief,
        _ => Size::Whole,
    };
    let all = !PARTS.into_iter().any(has);
    let seed: u64 = words.iter().find_map(|w| w.parse().ok()).unwrap_or(1);
    println!("seed {seed}, words {words:?}");
    if size == Size::Tiny {
        guard::leave_to_valgrind();
    }
    // Panics that the Rust answers with are caught and counted, and need not be printed.
    theirs::print_other_panics();
    let mut tally = Tally::default();
    let t = &mut tally;
    for (part, name) in (0..).zip(PARTS) {
        if !all && !has(name) {
            continue;
        }
        // Each part has its own numbers, so that it does the same alone.
        let numbers = &mut Random::new(seed.wrapping_mul(16).wrapping_add(part));
        match name {
            "paths" => paths(size, numbers, t),
            "meaning" => meaning(size, t),
            "builder" => builder(size, numbers, t),
            "grouping" => grouping(size, numbers, t),
            "map" => map(size, numbers, t),
            _ => store(size, numbers, t),
        }
    }
    let fine = tally.print();
    std::process::exit(if fine { 0 } else { 1 });
}
