//! Ranges, areas, 3d ranges, areas of interest and entries on both sides.
//!
//! Ours are asked through the plain calls, whose answers are compared whole: what stands beside no answer and beside an open
//! end has to be 0. The typed forms have to say the same.

use std::cmp::Ordering;

use wotskrale::plain::{
    self, Answer, AreaAnswer, ConvertedAnswer, InterestAnswer, Range3dAnswer, RangeAnswer,
    SidesAnswer,
};
use wotskrale::{AreaSubspace, Limits, PathRef, Range, RangeEnd, Refusal};

use crate::groups::{self, range, Area, Entry, Interest, Lent, PathRange, Range3d, Triplet};
use crate::model::{self, range_order, range_order_of_the_rust, Parts};
use crate::sides::ours;
use crate::tally::{Class, Input, Tally};
use crate::their_groups::{self, AreaParts, Groups, PathRangeParts, Range3dParts};
use crate::theirs::Made;

/// The status of none.
const NONE: u64 = 255;

/// A number as an answer.
pub fn number(value: u64) -> Answer {
    Answer { status: 0, value }
}

fn yes(yes: bool) -> Answer {
    number(u64::from(yes))
}

/// An order as an answer: less 0, equal 1, greater 2.
fn order(order: Ordering) -> Answer {
    number((order as i8 + 1) as u64)
}

/// An end as kind and number.
fn end_numbers(end: RangeEnd<u64>) -> (u64, u64) {
    match end {
        RangeEnd::Open => (0, 0),
        RangeEnd::Closed(end) => (1, end),
    }
}

fn subspace_numbers(subspace: AreaSubspace) -> (u64, u64) {
    match subspace {
        AreaSubspace::Any => (0, 0),
        AreaSubspace::Id(id) => (1, id),
    }
}

/// The parts of a range of numbers that its order looks at.
fn numbers(range: &Range<u64>) -> (&u64, Option<&u64>) {
    (&range.start, range.get_end())
}

fn paths(range: &PathRange) -> (&Parts, Option<&Parts>) {
    (&range.start.parts, range.end.as_ref().map(|e| &e.parts))
}

/// An order in which the Rust is known to be wrong: ours has to be the right one and the Rust's the faulty one, and the case is
/// explained where the two differ.
struct Orders {
    right: Ordering,
    faulty: Ordering,
}

impl Orders {
    fn of_ranges<T: Ord>(a: (&T, Option<&T>), b: (&T, Option<&T>)) -> Self {
        Orders {
            right: range_order(a, b),
            faulty: range_order_of_the_rust(a, b),
        }
    }

    fn both(order: Ordering) -> Self {
        Orders {
            right: order,
            faulty: order,
        }
    }

    fn then(self, next: Self) -> Self {
        Orders {
            right: self.right.then(next.right),
            faulty: self.faulty.then(next.faulty),
        }
    }

    fn compare(
        self,
        t: &mut Tally,
        (call, class): (&'static str, Class),
        now: Answer,
        theirs: Ordering,
        input: impl FnOnce(String) -> Input,
    ) {
        let said = || input(format!("ours {now:?}, Rust {theirs:?}"));
        let as_known = now == order(self.right) && theirs == self.faulty;
        match as_known && self.right != self.faulty {
            true => t.explained(call, class, said),
            false => t.same(call, as_known, said),
        }
    }
}

/// Ours and the Rust's, which have to be the same.
fn equal<A: PartialEq + std::fmt::Debug>(
    t: &mut Tally,
    call: &'static str,
    now: A,
    theirs: A,
    input: impl FnOnce(String) -> Input,
) {
    t.same(call, now == theirs, || {
        input(format!("ours {now:?}, Rust {theirs:?}"))
    });
}

/// The typed form of a call against the plain one.
fn typed<A: PartialEq + std::fmt::Debug>(
    t: &mut Tally,
    call: &'static str,
    now: Result<A, Refusal>,
    plain: A,
    input: impl FnOnce(String) -> Input,
) {
    t.same("typed forms", now == Ok(plain), || {
        input(format!("{call}: {now:?}"))
    });
}

fn range_answer(range: Option<Range<u64>>) -> RangeAnswer {
    let (end_kind, end) = range.map_or((0, 0), |r| end_numbers(r.end));
    RangeAnswer {
        status: if range.is_some() { 0 } else { NONE },
        start: range.map_or(0, |r| r.start),
        end_kind,
        end,
    }
}

/// Two ranges of numbers.
pub fn number_ranges(a: Range<u64>, b: Range<u64>, t: &mut Tally) {
    let input = |said: String| {
        let text = format!("{} and {}: {said}", range(a), range(b));
        Input::new(groups::NO_LIMITS, text.len(), text)
    };
    let theirs = their_groups::number_ranges(a, b);
    let (x, y) = (plain::Range::from(a), plain::Range::from(b));
    let now = plain::range_includes_range(x, y);
    equal(t, "range: includes_range", now, yes(theirs.includes), input);
    let now = plain::range_intersection(x, y);
    let met = range_answer(theirs.met);
    equal(t, "range: intersection", now, met, input);
    let now = plain::range_compare_ends(x.end, y.end);
    equal(t, "range: compare_ends", now, order(theirs.ends), input);
    let orders = Orders::of_ranges(numbers(&a), numbers(&b));
    let right = orders.right;
    let call = ("range: compare", Class::RangeOrder);
    orders.compare(t, call, plain::range_compare(x, y), theirs.order, input);
    typed(t, "compare", a.compare(b), right, input);
    typed(
        t,
        "includes_range",
        a.includes_range(b),
        theirs.includes,
        input,
    );
    typed(t, "intersection", a.intersection(b), theirs.met, input);
    typed(t, "ends", a.end.compare(b.end), theirs.ends, input);
}

/// A range of numbers and a value, and a closed range from its start to the value.
pub fn number_in(a: Range<u64>, value: u64, t: &mut Tally) {
    let input = |said: String| {
        let text = format!("{} and {value}: {said}", range(a));
        Input::new(groups::NO_LIMITS, text.len(), text)
    };
    let (includes, above, open) = their_groups::number_in(a, value);
    let x = plain::Range::from(a);
    let now = plain::range_includes(x, value);
    equal(t, "range: includes", now, yes(includes), input);
    let now = plain::range_end_above(x.end, value);
    equal(t, "range: gt_val", now, yes(above), input);
    equal(
        t,
        "range: is_open",
        plain::range_is_open(x),
        yes(open),
        input,
    );
    let closed = their_groups::closed_numbers(a.start, value);
    let now = plain::range_new_closed(a.start, value);
    equal(t, "range: new_closed", now, range_answer(closed), input);
    typed(t, "includes", a.includes(value), includes, input);
    typed(t, "gt_val", a.end.gt_val(value), above, input);
    typed(t, "is_open", a.is_open(), open, input);
    let now = Range::new_closed(a.start, value);
    typed(t, "new_closed", now, closed, input);
}

/// Whose start and whose end stand where two ranges of paths meet: the second's where they are equal.
fn sides(a: &PathRange, b: &PathRange) -> (u64, u64, u64) {
    let start = u64::from(a.start.parts <= b.start.parts);
    match (&a.end, &b.end) {
        (None, None) => (start, 0, 0),
        (Some(_), None) => (start, 1, 0),
        (None, Some(_)) => (start, 1, 1),
        (Some(e), Some(f)) => (start, 1, u64::from(f.parts <= e.parts)),
    }
}

/// The parts that an answer of sides stands for.
fn standing(a: &PathRange, b: &PathRange, start: u64, kind: u64, end: u64) -> PathRangeParts {
    let side = |whose| if whose == 0 { a } else { b };
    let end = side(end).end.as_ref().filter(|_| kind == 1);
    (
        side(start).start.parts.clone(),
        end.map(|e| e.parts.clone()),
    )
}

fn path_range_parts(limits: Limits, range: Range<PathRef<'_>>) -> PathRangeParts {
    let parts = |p: PathRef<'_>| p.components(limits).unwrap_or_default();
    (parts(range.start), range.get_end().map(|e| parts(*e)))
}

/// Two ranges of paths.
pub fn path_ranges(set: &dyn Groups, a: &PathRange, b: &PathRange, t: &mut Tally) {
    let limits = set.limits();
    let input = |said: String| {
        let text = format!("{} and {}: {said}", a.show(), b.show());
        Input::new(limits, a.weight() + b.weight(), text)
    };
    let theirs = set.path_ranges(a, b);
    let (x, y) = (a.ours().into(), b.ours().into());
    let now = plain::path_range_includes_range(limits, x, y);
    let includes = theirs.includes;
    equal(t, "path range: includes_range", now, yes(includes), input);
    let now = plain::path_range_intersection(limits, x, y);
    let (start, end_kind, end) = sides(a, b);
    let met = theirs.met.is_some();
    let zero = |n: u64| if met { n } else { 0 };
    let model = SidesAnswer {
        status: if met { 0 } else { NONE },
        start: zero(start),
        end_kind: zero(end_kind),
        end: zero(end),
    };
    equal(t, "path range: intersection", now, model, input);
    let parts = (now.status == 0).then(|| standing(a, b, now.start, now.end_kind, now.end));
    equal(t, "path range: intersection", &parts, &theirs.met, input);
    let now = plain::path_range_compare_ends(limits, x.end, y.end);
    equal(
        t,
        "path range: compare_ends",
        now,
        order(theirs.ends),
        input,
    );
    let orders = Orders::of_ranges(paths(a), paths(b));
    let right = orders.right;
    let now = plain::path_range_compare(limits, x, y);
    let call = ("path range: compare", Class::PathRangeOrder);
    orders.compare(t, call, now, theirs.order, input);
    let (x, y) = (a.ours(), b.ours());
    typed(t, "compare", x.compare_paths(limits, y), right, input);
    let now = x.includes_range_of_paths(limits, y);
    typed(t, "includes_range", now, includes, input);
    let now = x.end.compare_paths(limits, y.end);
    typed(t, "ends", now, theirs.ends, input);
    let now = x.intersection_of_paths(limits, y);
    let now = now.map(|m| m.map(|m| path_range_parts(limits, m)));
    typed(t, "intersection", now, theirs.met, input);
}

/// A range of paths and a path, and a closed range from its start to the path.
pub fn path_in(set: &dyn Groups, a: &PathRange, path: &Lent, t: &mut Tally) {
    let limits = set.limits();
    let input = |said: String| {
        let text = format!("{} and {}: {said}", a.show(), path.show());
        Input::new(limits, a.weight() + path.weight(), text)
    };
    let (includes, above) = set.path_in(a, path);
    let x: plain::PathRange = a.ours().into();
    let now = plain::path_range_includes(limits, x, path.lent());
    equal(t, "path range: includes", now, yes(includes), input);
    let now = plain::path_range_end_above(limits, x.end, path.lent());
    equal(t, "path range: gt_val", now, yes(above), input);
    let closed = set.closed_paths(&a.start, path);
    let now = plain::path_range_new_closed(limits, a.start.lent(), path.lent());
    equal(t, "path range: new_closed", now, yes(closed), input);
    let now = a.ours().includes_path(limits, path.lent());
    typed(t, "includes", now, includes, input);
    let now = a.ours().end.gt_path(limits, path.lent());
    typed(t, "gt_val", now, above, input);
    let now = Range::new_closed_paths(limits, a.start.lent(), path.lent());
    typed(t, "new_closed", now.map(|r| r.is_some()), closed, input);
}

fn area_answer(met: Option<(&AreaParts, u64)>) -> AreaAnswer {
    let Some(((subspace, path, times), whose)) = met else {
        return AreaAnswer {
            status: NONE,
            whose: 0,
            count: 0,
            subspace_kind: 0,
            subspace: 0,
            start: 0,
            end_kind: 0,
            end: 0,
        };
    };
    let (subspace_kind, subspace) = subspace_numbers(*subspace);
    let (end_kind, end) = end_numbers(times.end);
    AreaAnswer {
        status: 0,
        whose,
        count: path.len() as u64,
        subspace_kind,
        subspace,
        start: times.start,
        end_kind,
        end,
    }
}

/// Whose path stands where two areas meet: the longer one, the second's where they are equal.
fn whose(a: &Area, b: &Area) -> u64 {
    u64::from(a.path.parts.len() <= b.path.parts.len())
}

fn area_orders(a: &Area, b: &Area) -> Orders {
    let subspaces = subspace_numbers(a.subspace).cmp(&subspace_numbers(b.subspace));
    let paths = a.path.parts.cmp(&b.path.parts);
    Orders::both(subspaces.then(paths))
        .then(Orders::of_ranges(numbers(&a.times), numbers(&b.times)))
}

/// The parts of an area that was handed back: its path has to be the lent one whose side stands.
fn area_parts(limits: Limits, area: wotskrale::Area<'_>) -> AreaParts {
    let path = area.path.components(limits).unwrap_or_default();
    (area.subspace, path, area.times)
}

/// Two areas.
pub fn areas(set: &dyn Groups, a: &Area, b: &Area, t: &mut Tally) {
    let limits = set.limits();
    let input = |said: String| {
        let text = format!("{} and {}: {said}", a.show(), b.show());
        Input::new(limits, a.path.weight() + b.path.weight(), text)
    };
    let theirs = set.areas(a, b);
    let (x, y) = (a.ours().into(), b.ours().into());
    let now = plain::area_includes_area(limits, x, y);
    equal(t, "area: includes_area", now, yes(theirs.includes), input);
    let now = plain::area_almost_includes_area(limits, x, y);
    let almost = theirs.almost;
    equal(t, "area: almost_includes_area", now, yes(almost), input);
    let now = plain::area_intersection(limits, x, y);
    let met = area_answer(theirs.met.as_ref().map(|m| (m, whose(a, b))));
    equal(t, "area: intersection", now, met, input);
    let orders = area_orders(a, b);
    let right = orders.right;
    let call = ("area: compare", Class::AreaOrder);
    let now = plain::area_compare(limits, x, y);
    orders.compare(t, call, now, theirs.order, input);
    let (x, y) = (a.ours(), b.ours());
    typed(t, "compare", x.compare(limits, y), right, input);
    let now = x.includes_area(limits, y);
    typed(t, "includes_area", now, theirs.includes, input);
    let now = x.almost_includes_area(limits, y);
    typed(t, "almost_includes_area", now, almost, input);
    let now = x.intersection(limits, y);
    let now = now.map(|m| m.map(|m| area_parts(limits, m)));
    typed(t, "intersection", now, theirs.met, input);
}

/// An area and a triplet.
pub fn area_triplet(set: &dyn Groups, a: &Area, e: &Triplet, t: &mut Tally) {
    let limits = set.limits();
    let input = |said: String| {
        let text = format!("{} and {}: {said}", a.show(), e.show());
        Input::new(limits, a.path.weight() + e.path.weight(), text)
    };
    let (includes, prunable) = set.area_triplet(a, e);
    let (x, path) = (a.ours(), e.path.lent());
    let now = plain::area_includes_triplet(limits, x.into(), e.subspace, path, e.time);
    equal(t, "area: includes_triplet", now, yes(includes), input);
    let now = plain::area_could_be_pruned_by_triplet(limits, x.into(), e.subspace, path, e.time);
    let call = "area: could_be_pruned_by_triplet";
    equal(t, call, now, yes(prunable), input);
    let now = x.includes_triplet(limits, e.subspace, path, e.time);
    typed(t, "includes_triplet", now, includes, input);
    let now = x.could_be_pruned_by_triplet(limits, e.subspace, path, e.time);
    typed(t, "could_be_pruned_by_triplet", now, prunable, input);
}

/// Two areas of interest.
pub fn interests(set: &dyn Groups, a: &Interest, b: &Interest, t: &mut Tally) {
    let limits = set.limits();
    let input = |said: String| {
        let text = format!("{} and {}: {said}", a.show(), b.show());
        Input::new(limits, a.area.path.weight() + b.area.path.weight(), text)
    };
    let (met, theirs) = set.interests(a, b);
    let (x, y) = (a.ours().into(), b.ours().into());
    let now = plain::area_of_interest_intersection(limits, x, y);
    let side = whose(&a.area, &b.area);
    let area = area_answer(met.as_ref().map(|(area, _, _)| (area, side)));
    let model = InterestAnswer {
        status: area.status,
        whose: area.whose,
        count: area.count,
        subspace_kind: area.subspace_kind,
        subspace: area.subspace,
        start: area.start,
        end_kind: area.end_kind,
        end: area.end,
        max_count: met.as_ref().map_or(0, |m| m.1),
        max_size: met.as_ref().map_or(0, |m| m.2),
    };
    equal(t, "area of interest: intersection", now, model, input);
    let counts = a.max_count.cmp(&b.max_count);
    let counts = Orders::both(counts.then(a.max_size.cmp(&b.max_size)));
    let orders = area_orders(&a.area, &b.area).then(counts);
    let right = orders.right;
    let now = plain::area_of_interest_compare(limits, x, y);
    let call = ("area of interest: compare", Class::InterestOrder);
    orders.compare(t, call, now, theirs, input);
    let now = a.ours().compare(limits, b.ours());
    typed(t, "compare", now, right, input);
    let now = a.ours().intersection(limits, b.ours());
    let now = now.map(|m| m.map(|m| (area_parts(limits, m.area), m.max_count, m.max_size)));
    typed(t, "intersection", now, met, input);
}

fn range_3d_answer(met: Option<(&Range3dParts, (u64, u64, u64))>) -> Range3dAnswer {
    let zero = Range::new(0, RangeEnd::Open);
    let (subspaces, times) = met.map_or((zero, zero), |((s, _, t), _)| (*s, *t));
    let (path_start, path_end_kind, path_end) = met.map_or((0, 0, 0), |(_, sides)| sides);
    let (subspace_end_kind, subspace_end) = end_numbers(subspaces.end);
    let (time_end_kind, time_end) = end_numbers(times.end);
    Range3dAnswer {
        status: if met.is_some() { 0 } else { NONE },
        subspace_start: subspaces.start,
        subspace_end_kind,
        subspace_end,
        path_start,
        path_end_kind,
        path_end,
        time_start: times.start,
        time_end_kind,
        time_end,
    }
}

fn range_3d_parts(limits: Limits, range: wotskrale::Range3d<'_>) -> Range3dParts {
    let paths = path_range_parts(limits, range.paths);
    (range.subspaces, paths, range.times)
}

/// Two 3d ranges.
pub fn ranges_3d(set: &dyn Groups, a: &Range3d, b: &Range3d, t: &mut Tally) {
    let limits = set.limits();
    let input = |said: String| {
        let text = format!("{} and {}: {said}", a.show(), b.show());
        Input::new(limits, a.paths.weight() + b.paths.weight(), text)
    };
    let (includes, met, theirs) = set.ranges_3d(a, b);
    let (x, y) = (a.ours().into(), b.ours().into());
    let now = plain::range_3d_includes_range(limits, x, y);
    equal(t, "3d range: includes_range", now, yes(includes), input);
    let now = plain::range_3d_intersection(limits, x, y);
    let sides = sides(&a.paths, &b.paths);
    let model = range_3d_answer(met.as_ref().map(|m| (m, sides)));
    equal(t, "3d range: intersection", now, model, input);
    let orders = Orders::of_ranges(numbers(&a.subspaces), numbers(&b.subspaces));
    let orders = orders.then(Orders::of_ranges(paths(&a.paths), paths(&b.paths)));
    let orders = orders.then(Orders::of_ranges(numbers(&a.times), numbers(&b.times)));
    let right = orders.right;
    let now = plain::range_3d_compare(limits, x, y);
    let call = ("3d range: compare", Class::Range3dOrder);
    orders.compare(t, call, now, theirs, input);
    let (x, y) = (a.ours(), b.ours());
    typed(t, "compare", x.compare(limits, y), right, input);
    let now = x.includes_range(limits, y);
    typed(t, "includes_range", now, includes, input);
    let now = x.intersection(limits, y);
    let now = now.map(|m| m.map(|m| range_3d_parts(limits, m)));
    typed(t, "intersection", now, met, input);
}

/// A 3d range and a triplet.
pub fn range_3d_triplet(set: &dyn Groups, a: &Range3d, e: &Triplet, t: &mut Tally) {
    let limits = set.limits();
    let input = |said: String| {
        let text = format!("{} and {}: {said}", a.show(), e.show());
        Input::new(limits, a.paths.weight() + e.path.weight(), text)
    };
    let (includes, prunable) = set.range_3d_triplet(a, e);
    let (x, path) = (a.ours(), e.path.lent());
    let now = plain::range_3d_includes_triplet(limits, x.into(), e.subspace, path, e.time);
    equal(t, "3d range: includes_triplet", now, yes(includes), input);
    let now =
        plain::range_3d_could_be_pruned_by_triplet(limits, x.into(), e.subspace, path, e.time);
    let call = "3d range: could_be_pruned_by_triplet";
    equal(t, call, now, yes(prunable), input);
    let now = x.includes_triplet(limits, e.subspace, path, e.time);
    typed(t, "includes_triplet", now, includes, input);
    let now = x.could_be_pruned_by_triplet(limits, e.subspace, path, e.time);
    typed(t, "could_be_pruned_by_triplet", now, prunable, input);
}

/// An area as a 3d range: the same but for the end of the paths, where the Rust's is its own successor and ours the next greater
/// path.
pub fn from_area(set: &dyn Groups, a: &Area, t: &mut Tally) {
    let limits = set.limits();
    let input = |said: String| Input::new(limits, a.path.weight(), format!("{}: {said}", a.show()));
    let theirs = set.area_as_range(a);
    let Ok(path) = set.path(&a.path.parts) else {
        return t.same("3d range: from area", false, || {
            input("no path".to_string())
        });
    };
    let (next, successor) = (path.greater_but_not_prefixed(), path.successor());
    let model = converted_answer(&theirs, &next);
    let packed = |end: &Option<Parts>| match end {
        Some(end) => Made::Bytes(model::pack(end)),
        None => Made::Nothing,
    };
    let longest = limits.longest_packed();
    let ask = |out: &mut [u8]| plain::range_3d_from_area(limits, a.ours().into(), out);
    let written = ours(longest, |out| {
        let answer = ask(out);
        match (answer.status, answer.path_end_kind) {
            (0, 0) => Ok(None),
            (0, _) => Ok(Some(answer.written as usize)),
            (number, _) => Err(Refusal::from_number(number)),
        }
    });
    let now = ask(&mut vec![0; longest]);
    let same = written == next
        && now == model
        && packed(&theirs.1 .1) == successor
        && theirs.1 .0 == a.path.parts;
    let said = || {
        let end = theirs.1 .1.as_deref().map(model::show);
        let written = crate::sides::shown(&written);
        input(format!(
            "ours ending {written}, Rust ending {end:?}; {now:?}, meant {model:?}"
        ))
    };
    match same && next != successor {
        true => t.explained("3d range: from area", Class::FromArea, said),
        false => t.same("3d range: from area", same, said),
    }
    // One byte too short for the end, where there is one: 15, and every other number 0.
    if let Some(short) = (model.written as usize).checked_sub(1) {
        let now = ask(&mut vec![0; short]);
        let same = now == converted_refused(Refusal::OutTooSmall);
        t.same("3d range: from area, short", same, || {
            input(format!("a buffer of {short} bytes: {now:?}"))
        });
    }
    let parts = |made: &Made| match made {
        Made::Bytes(bytes) => model::read(limits, bytes, PathRef::whole(bytes).count()),
        _ => None,
    };
    let expected = (theirs.0, (theirs.1 .0, parts(&next)), theirs.2);
    let mut out = vec![0; longest];
    let now = wotskrale::Range3d::from_area(limits, a.ours(), &mut out);
    let now = now.map(|range| range_3d_parts(limits, range));
    typed(t, "from_area", now, expected, input);
}

/// The whole answer: subspaces and times as the Rust has them, the area's path, and the count and length of the end that was
/// written, both 0 where there is none.
fn converted_answer((subspaces, paths, times): &Range3dParts, end: &Made) -> ConvertedAnswer {
    let (subspace_end_kind, subspace_end) = end_numbers(subspaces.end);
    let (time_end_kind, time_end) = end_numbers(times.end);
    let (path_end_kind, end_count, written) = match end {
        Made::Bytes(bytes) => {
            let count = PathRef::whole(bytes).count();
            (1, count, bytes.len() as u64)
        }
        _ => (0, 0, 0),
    };
    ConvertedAnswer {
        status: 0,
        subspace_start: subspaces.start,
        subspace_end_kind,
        subspace_end,
        start_count: paths.0.len() as u64,
        path_end_kind,
        end_count,
        written,
        time_start: times.start,
        time_end_kind,
        time_end,
    }
}

/// A refusal: all numbers but the status are 0.
fn converted_refused(refusal: Refusal) -> ConvertedAnswer {
    ConvertedAnswer {
        status: refusal.number(),
        subspace_start: 0,
        subspace_end_kind: 0,
        subspace_end: 0,
        start_count: 0,
        path_end_kind: 0,
        end_count: 0,
        written: 0,
        time_start: 0,
        time_end_kind: 0,
        time_end: 0,
    }
}

/// Two entries.
pub fn entries(set: &dyn Groups, a: &Entry, b: &Entry, t: &mut Tally) {
    let limits = set.limits();
    let input = |said: String| {
        let text = format!("{} and {}: {said}", a.show(), b.show());
        Input::new(limits, a.path.weight() + b.path.weight(), text)
    };
    let theirs = set.entries(a, b);
    let (x, y) = (a.ours(), b.ours());
    let asked = |t: &mut Tally, call, now: Result<bool, Refusal>, theirs: bool| {
        equal(t, call, now, Ok(theirs), input);
    };
    asked(t, "entry: is_newer_than", x.is_newer_than(&y), theirs.newer);
    asked(t, "entry: prunes", x.prunes(limits, &y), theirs.prunes);
    let now = x.is_pruned_by(limits, &y);
    asked(t, "entry: is_pruned_by", now, theirs.pruned);
    asked(t, "entry: equal", x.equal(limits, &y), theirs.equal);
    let now = x.compare(limits, &y);
    equal(t, "entry: compare", now, Ok(theirs.order), input);
    let places = a.subspace.cmp(&b.subspace);
    let places = places.then_with(|| a.path.parts.cmp(&b.path.parts));
    let now = x.compare_places(limits, &y);
    equal(t, "entry: compare_places", now, Ok(places), input);
}
