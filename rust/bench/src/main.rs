//! Times of the core's calls against those of the Rust files, in one process, as ratios: below 1 ours is faster.
//!
//! Each sample times many calls of one side and then of the other, for about as long; printed are the medians of both and the
//! median of the samples' ratios, which other work on the machine moves least. Ours test what they are lent in every call and
//! write into a lent buffer; the Rust tests when it makes a path, and allocates.
//! A word that is a number is the count of samples; `paths`, `groupings`, `maps`, `stores`, `key` are for these parts alone.

mod groupings;
mod harness;
mod key;
mod maps;
mod paths;
#[cfg(feature = "store")]
mod stores;

use harness::Bench;

/// Each part at tiny, middle and largest limits, and at the largest with paths of several shapes.
fn paths(bench: &Bench) {
    bench.paths::<2, 2, 3>("2 2 3: 0505/05", &[vec![5, 5], vec![5]]);
    bench.paths::<16, 4, 64>("16 4 64: 4 x 16", &vec![vec![5; 16]; 4]);
    bench.paths::<1024, 1024, 4096>("1024 1024 4096: 1024 x 4", &vec![vec![5; 4]; 1024]);
    bench.paths::<1024, 1024, 4096>("1024 1024 4096: 1 x 1024", &vec![vec![5; 1024]; 1]);
    bench.paths::<1024, 1024, 4096>("1024 1024 4096: 4 x 1024", &vec![vec![5; 1024]; 4]);
}

fn groupings(bench: &Bench) {
    bench.numbers();
    bench.groupings::<2, 2, 3>("2 2 3: 0505/05", &[vec![5, 5], vec![5]]);
    bench.groupings::<16, 4, 64>("16 4 64: 4 x 16", &vec![vec![5; 16]; 4]);
    bench.groupings::<1024, 1024, 4096>("1024 1024 4096: 1024 x 4", &vec![vec![5; 4]; 1024]);
    bench.groupings::<1024, 1024, 4096>("1024 1024 4096: 4 x 1024", &vec![vec![5; 1024]; 4]);
}

#[cfg(feature = "store")]
fn stores(bench: &Bench) {
    bench.stores();
}

#[cfg(not(feature = "store"))]
fn stores(_: &Bench) {
    eprintln!("The store's calls are not compiled in (feature `store`).");
}

/// A part by its name.
type Part = (&'static str, fn(&Bench));

fn main() {
    let words: Vec<String> = std::env::args().skip(1).collect();
    let given = words.iter().find_map(|w| w.parse().ok());
    let bench = Bench {
        samples: given.unwrap_or(101),
    };
    println!("| of | call | ours ns | beside it ns | ours / beside it |\n|---|---|---|---|---|");
    let parts: [Part; 5] = [
        ("paths", paths),
        ("groupings", groupings),
        ("maps", Bench::maps),
        ("stores", stores),
        ("key", Bench::key),
    ];
    let all = !parts
        .iter()
        .any(|(name, _)| words.iter().any(|w| w == name));
    for (name, run) in parts {
        if all || words.iter().any(|w| w == name) {
            run(&bench);
        }
    }
}
