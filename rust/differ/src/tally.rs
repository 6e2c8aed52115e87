//! What was compared, and what differed.

use std::collections::BTreeMap;

use wotskrale::Limits;

/// Differences that are explained, each in docs/DIFFERENCES.md and by a rule that is narrow enough for another fault to show.
#[derive(Clone, Copy, PartialEq, Eq, PartialOrd, Ord)]
pub enum Class {
    /// `successor` raises a component that ends in ff.
    Successor,
    /// `singleton_range` ends at such a successor.
    Singleton,
    /// `path_length_of_prefix` past the count, where the Rust panics.
    LengthPanics,
    /// `path_length_of_prefix` past the count, where the Rust answers a number.
    LengthNumber,
    /// `new_from_iter` with a wrong total, where the Rust panics.
    TotalPanics,
    /// `new_from_iter` with a wrong total, where the Rust refuses by the total or the count first.
    TotalRefused,
    /// `new_max` where MCL × MCC is below MPL.
    Greatest,
    /// `Range::cmp` of numbers.
    RangeOrder,
    /// `Range::cmp` of paths.
    PathRangeOrder,
    /// `Area::cmp`, derived from it.
    AreaOrder,
    /// `AreaOfInterest::cmp`, derived from it.
    InterestOrder,
    /// `Range3d::cmp`, derived from it.
    Range3dOrder,
    /// An area to a 3d range, whose paths the Rust ends at its successor.
    FromArea,
    /// `PathBuilder::new_from_prefix` with more components than the reference has.
    NoSuchPrefix,
    /// `PathBuilder` past what was declared.
    Overfilled,
    /// `PathBuilder::build` short of what was declared.
    Unfinished,
}

impl Class {
    fn words(self) -> &'static str {
        match self {
            Class::Successor => "successor: MCC components, raised component ends in ff",
            Class::Singleton => "singleton_range: ends at such a successor",
            Class::LengthPanics => "path_length_of_prefix past the count: none, the Rust panics",
            Class::LengthNumber => {
                "path_length_of_prefix past the count: none, the Rust gives a number"
            }
            Class::TotalPanics => "new_from_iter, wrong total: 6, the Rust panics",
            Class::TotalRefused => "new_from_iter, wrong total: 6, the Rust refuses with 7 or 8",
            Class::Greatest => "new_max: the Rust panics, MCL × MCC < MPL",
            Class::RangeOrder => "order of ranges of numbers: the Rust's is no order",
            Class::PathRangeOrder => "order of ranges of paths: the Rust's is no order",
            Class::AreaOrder => "order of areas: derived from that of ranges",
            Class::InterestOrder => "order of areas of interest: derived from that of ranges",
            Class::Range3dOrder => "order of 3d ranges: derived from that of ranges",
            Class::FromArea => "area to 3d range: the Rust ends at its successor",
            Class::NoSuchPrefix => {
                "builder from more components than there are: 10, the Rust panics"
            }
            Class::Overfilled => {
                "builder past what was declared: 11, the Rust panics, at the latest when it builds"
            }
            Class::Unfinished => "build short of what was declared: 12, the Rust panics",
        }
    }
}

/// How many unexplained differences of a row are printed as they are found.
const PRINTED: u64 = 50;

/// One input: the smallest of each kind is kept.
#[derive(Clone, PartialEq, Eq, PartialOrd, Ord)]
pub struct Input {
    weight: usize,
    limits: u64,
    length: usize,
    text: String,
}

impl Input {
    /// An input of so many components and bytes, in words.
    pub fn new(limits: Limits, weight: usize, text: String) -> Self {
        let sum = limits.mcl.saturating_add(limits.mcc);
        let sum = sum.saturating_add(limits.mpl);
        let text = format!("{} {} {}: {text}", limits.mcl, limits.mcc, limits.mpl);
        Input {
            weight,
            limits: sum,
            length: text.len(),
            text,
        }
    }

    /// Bytes that may be no sheet, and what a call said of them.
    pub fn of_bytes(bytes: &[u8], call: &str, said: String) -> Self {
        let text = format!("{call} of {bytes:02x?}: {said}");
        Input::new(Limits::new(0, 0, 0), bytes.len(), text)
    }

    fn shown(&self) -> String {
        match self.text.char_indices().nth(400) {
            Some((at, _)) => format!("{}...", &self.text[..at]),
            None => self.text.clone(),
        }
    }
}

#[derive(Default)]
struct Count {
    seen: u64,
    smallest: Option<Input>,
}

impl Count {
    fn add(&mut self, input: Input) {
        self.seen += 1;
        if self.smallest.as_ref().is_none_or(|least| input < *least) {
            self.smallest = Some(input);
        }
    }
}

#[derive(Default)]
struct Row {
    cases: u64,
    explained: u64,
    unexplained: Count,
}

/// Counts for each call.
#[derive(Default)]
pub struct Tally {
    names: Vec<&'static str>,
    rows: Vec<Row>,
    classes: BTreeMap<Class, Count>,
}

impl Tally {
    fn row(&mut self, call: &'static str) -> &mut Row {
        // A handful of names: the same literal is found by its address in most turns.
        let found = self.names.iter().position(|n| std::ptr::eq(*n, call));
        let place = match found.or_else(|| self.names.iter().position(|n| *n == call)) {
            Some(place) => place,
            None => {
                self.names.push(call);
                self.rows.push(Row::default());
                self.names.len() - 1
            }
        };
        &mut self.rows[place]
    }

    /// A case in which both sides, or ours and the model, should give the same. Prints where they do not.
    pub fn same(&mut self, call: &'static str, same: bool, input: impl FnOnce() -> Input) {
        let row = self.row(call);
        row.cases += 1;
        if !same {
            let input = input();
            if row.unexplained.seen < PRINTED {
                eprintln!("UNEXPLAINED in {call}: {}", input.shown());
            }
            row.unexplained.add(input);
        }
    }

    /// A case in which they differ as explained.
    pub fn explained(&mut self, call: &'static str, class: Class, input: impl FnOnce() -> Input) {
        let row = self.row(call);
        row.cases += 1;
        row.explained += 1;
        self.classes.entry(class).or_default().add(input());
    }

    /// How many cases were compared.
    pub fn cases(&self) -> u64 {
        self.rows.iter().map(|r| r.cases).sum()
    }

    /// Prints everything and says whether nothing is unexplained.
    pub fn print(&self) -> bool {
        println!("| call | cases | explained | unexplained |\n|---|---|---|---|");
        for (name, row) in self.names.iter().zip(&self.rows) {
            let unexplained = row.unexplained.seen;
            println!(
                "| {name} | {} | {} | {unexplained} |",
                row.cases, row.explained
            );
        }
        println!("| all | {} | | |\n", self.cases());
        println!("Explained, with the smallest input:");
        for (class, count) in &self.classes {
            let smallest = count
                .smallest
                .as_ref()
                .map(Input::shown)
                .unwrap_or_default();
            println!("- {}: {}; {smallest}", class.words(), count.seen);
        }
        let mut fine = true;
        for (name, row) in self.names.iter().zip(&self.rows) {
            if let Some(smallest) = &row.unexplained.smallest {
                fine = false;
                let seen = row.unexplained.seen;
                println!(
                    "UNEXPLAINED in {name}: {seen}, smallest {}",
                    smallest.shown()
                );
            }
        }
        if fine {
            println!("No unexplained difference.");
        }
        fine
    }
}
