//! A fixed sample of the Rust's answers as lines that the core's replaying programs read: a case for standard input, and what has
//! to be printed for it. Cases in which the Rust is known to be wrong are left out.

use std::fmt::Write;
use std::fs;
use std::io;
use std::path::Path;

use wotskrale::{AreaSubspace, Range};

use crate::groups::{Area, Entry, Lent, PathRange, Range3d, Triplet};
use crate::inputs::Random;
use crate::model::{raised_before_ff, show, split};
use crate::their_groups::{self, Groups};
use crate::theirs::{Made, Set};

/// The cases of one program and its answers.
#[derive(Default)]
struct Lines {
    cases: String,
    answers: String,
}

impl Lines {
    fn push(&mut self, case: String, answer: String) {
        self.cases += &format!("{case}\n");
        self.answers += &format!("{answer}\n");
    }

    /// A number, or a yes as 1 and a no as 0.
    fn number(&mut self, case: String, value: impl Into<u64>) {
        let value: u64 = value.into();
        self.push(case, format!("0 {value}"));
    }

    /// What is written into a buffer of `room` bytes ee.
    fn made(&mut self, case: String, made: &Made, room: usize) {
        let (status, bytes) = match made {
            Made::Refused(number) => (*number, None),
            Made::Nothing => (255, None),
            Made::Bytes(bytes) => (0, Some(bytes)),
            Made::Panic | Made::Spoilt(_) => return,
        };
        let length = bytes.map_or(0, Vec::len);
        let mut out = vec![0xee; room];
        if let Some(bytes) = bytes {
            out[..length].copy_from_slice(bytes);
        }
        self.push(
            format!("{case} {room}"),
            format!("{status} {length} {}", hex(&out)),
        );
    }
}

fn hex(bytes: &[u8]) -> String {
    bytes.iter().fold(String::new(), |mut text, b| {
        let _ = write!(text, "{b:02x}");
        text
    })
}

fn lent(path: &Lent) -> String {
    format!("p{} {}", show(&path.whole()), path.parts.len())
}

fn choice(choice: Option<u64>) -> String {
    format!("{} {}", u64::from(choice.is_some()), choice.unwrap_or(0))
}

fn range(range: Range<u64>) -> String {
    format!("{} {}", range.start, choice(range.get_end().copied()))
}

fn path_range(range: &PathRange) -> String {
    let end = match &range.end {
        Some(end) => format!("1 {}", lent(end)),
        None => "0 p() 0".to_string(),
    };
    format!("{} {end}", lent(&range.start))
}

fn area(area: &Area) -> String {
    let id = match area.subspace {
        AreaSubspace::Any => None,
        AreaSubspace::Id(id) => Some(id),
    };
    format!("{} {} {}", choice(id), lent(&area.path), range(area.times))
}

fn range_3d(r: &Range3d) -> String {
    let (subspaces, times) = (range(r.subspaces), range(r.times));
    format!("{subspaces} {} {times}", path_range(&r.paths))
}

fn triplet(t: &Triplet) -> String {
    format!("{} {} {}", t.subspace, lent(&t.path), t.time)
}

fn age(entry: &Entry) -> String {
    let (time, length) = (entry.timestamp, entry.payload_length);
    format!("{time} {length} x{}", hex(&entry.digest))
}

fn entry(e: &Entry) -> String {
    let (namespace, subspace, path) = (e.namespace, e.subspace, lent(&e.path));
    format!("{namespace} {subspace} {path} {}", age(e))
}

/// The samples by the name of the part that replays them.
#[derive(Default)]
struct Sample {
    reading: Lines,
    making: Lines,
    ranges: Lines,
    areas: Lines,
}

impl Sample {
    fn paths(&mut self, set: &dyn Set, a: &Lent, b: &Lent, at: &str) {
        let (Ok(x), Ok(y)) = (set.path(&a.parts), set.path(&b.parts)) else {
            return;
        };
        let (one, two) = (lent(a), format!("{} {}", lent(a), lent(b)));
        let lines = &mut self.reading;
        lines.number(format!("component_count {at} {one}"), x.component_count());
        lines.number(format!("is_empty {at} {one}"), x.is_empty());
        lines.number(format!("length {at} {one}"), x.path_length());
        let order = (x.compare(&*y) as i8 + 1) as u64;
        lines.number(format!("compare {at} {two}"), order);
        lines.number(format!("equal {at} {two}"), x.equal(&*y));
        lines.number(format!("is_prefix_of {at} {two}"), x.is_prefix_of(&*y));
        lines.number(format!("is_prefixed_by {at} {two}"), x.is_prefixed_by(&*y));
        lines.number(format!("is_related {at} {two}"), x.is_related(&*y));
        let common = x.longest_common_prefix(&*y).component_count();
        lines.number(format!("longest_common_prefix {at} {two}"), common);

        let (lines, limits) = (&mut self.making, set.limits());
        let room = limits.longest_packed();
        let next = x.greater_but_not_prefixed();
        lines.made(format!("greater_but_not_prefixed {at} {one}"), &next, room);
        if raised_before_ff(limits, &a.parts).is_none() {
            lines.made(format!("successor {at} {one}"), &x.successor(), room);
            let end = x.singleton_range();
            lines.made(format!("singleton_range {at} {one}"), &end, room);
        }
    }

    fn construction(&mut self, set: &dyn Set, parts: &[Vec<u8>], at: &str) {
        if let Some(made) = set.new_from_slice(parts) {
            let (_, bytes) = split(parts);
            let lengths: Vec<String> = parts.iter().map(|p| p.len().to_string()).collect();
            let case = format!("from_slices {at} n{} x{}", lengths.join("/"), hex(&bytes));
            let room = set.limits().longest_packed();
            self.making.made(case, &made, room);
        }
    }

    fn ranges(&mut self, set: &dyn Groups, (p, q): (&PathRange, &PathRange), a: &Lent, at: &str) {
        let lines = &mut self.ranges;
        let of_paths = set.path_ranges(p, q);
        let two = format!("{at} {} {}", path_range(p), path_range(q));
        lines.number(
            format!("path_range_includes_range {two}"),
            of_paths.includes,
        );
        let (includes, _) = set.path_in(p, a);
        let case = format!("path_range_includes {at} {} {}", path_range(p), lent(a));
        lines.number(case, includes);
    }

    fn numbers(&mut self, a: Range<u64>, b: Range<u64>) {
        let lines = &mut self.ranges;
        let two = format!("{} {}", range(a), range(b));
        let said = their_groups::number_ranges(a, b);
        lines.number(format!("range_includes_range {two}"), said.includes);
        let (includes, _, _) = their_groups::number_in(a, b.start);
        lines.number(format!("range_includes {} {}", range(a), b.start), includes);
    }

    fn entries(&mut self, set: &dyn Groups, e: &Entry, f: &Entry, at: &str) {
        let lines = &mut self.ranges;
        let said = set.entries(e, f);
        let two = format!("{at} {} {}", entry(e), entry(f));
        lines.number(format!("entry_prunes {two}"), said.prunes);
        lines.number(format!("entry_is_pruned_by {two}"), said.pruned);
        lines.number(format!("entry_equal {two}"), said.equal);
        lines.number(
            format!("entry_compare {two}"),
            (said.order as i8 + 1) as u64,
        );
        let ages = format!("{} {}", age(e), age(f));
        lines.number(format!("entry_is_newer_than {ages}"), said.newer);
    }

    fn areas(&mut self, set: &dyn Groups, (x, y): (&Area, &Area), t: &Triplet, at: &str) {
        let lines = &mut self.areas;
        let said = set.areas(x, y);
        let two = format!("{at} {} {}", area(x), area(y));
        lines.number(format!("area_includes_area {two}"), said.includes);
        lines.number(format!("area_almost_includes_area {two}"), said.almost);
        let (includes, prunable) = set.area_triplet(x, t);
        let case = format!("{at} {} {}", area(x), triplet(t));
        lines.number(format!("area_includes_triplet {case}"), includes);
        lines.number(format!("area_could_be_pruned_by_triplet {case}"), prunable);
    }

    fn ranges_3d(&mut self, set: &dyn Groups, (r, s): (&Range3d, &Range3d), t: &Triplet, at: &str) {
        let lines = &mut self.areas;
        let (includes, _, _) = set.ranges_3d(r, s);
        let two = format!("{at} {} {}", range_3d(r), range_3d(s));
        lines.number(format!("range_3d_includes_range {two}"), includes);
        let (includes, prunable) = set.range_3d_triplet(r, t);
        let case = format!("{at} {} {}", range_3d(r), triplet(t));
        lines.number(format!("range_3d_includes_triplet {case}"), includes);
        lines.number(
            format!("range_3d_could_be_pruned_by_triplet {case}"),
            prunable,
        );
    }

    /// One turn at one limit set.
    fn turn(&mut self, set: &dyn Groups, random: &mut Random) {
        let limits = set.limits();
        let at = format!("{} {} {}", limits.mcl, limits.mcc, limits.mpl);
        let a = random.lent(limits, None);
        let near = random.lent(limits, Some(&a.parts));
        self.paths(set, &a, &near, &at);
        self.construction(set, &random.around(limits), &at);
        let (p, q) = (
            random.path_range(limits, &a),
            random.path_range(limits, &near),
        );
        self.ranges(set, (&p, &q), &near, &at);
        self.numbers(random.number_range(), random.number_range());
        let (e, f) = (random.entry(a.clone()), random.entry(near.clone()));
        self.entries(set, &e, &f, &at);
        let t = Triplet {
            subspace: random.number(),
            path: random.lent(limits, Some(&a.parts)),
            time: random.number(),
        };
        let (x, y) = (random.area(&a), random.area(&near));
        self.areas(set, (&x, &y), &t, &at);
        self.ranges_3d(set, (&random.range_3d(p), &random.range_3d(q)), &t, &at);
    }
}

/// Writes the sample: for each part of the replay that has one a file `PART.in` and a file `PART.out`.
pub fn write(folder: &Path, sets: &[&dyn Groups], random: &mut Random) -> io::Result<()> {
    let mut sample = Sample::default();
    for set in sets {
        for _ in 0..20 {
            sample.turn(*set, random);
        }
    }
    fs::create_dir_all(folder)?;
    for (name, lines) in [
        ("reading", &sample.reading),
        ("making", &sample.making),
        ("ranges", &sample.ranges),
        ("areas", &sample.areas),
    ] {
        fs::write(folder.join(format!("{name}.in")), &lines.cases)?;
        fs::write(folder.join(format!("{name}.out")), &lines.answers)?;
    }
    Ok(())
}
