//! One function for each kind of question.

use wotskrale::{
    construction, reading, writing, AreaMap, AreaOfInterest, Limits, Path, PathBuilder, PathRef,
    Range, Range3d, RangeEnd, Refusal,
};

use super::draw::Draw;
use super::show::{self, area, entry, interest, order, path, path_range, perhaps, range, yes};

/// A question and its answer.
pub type Question = (String, String);

/// A kind of question.
pub type Kind = fn(&mut Draw) -> Result<Question, Refusal>;

/// Every kind, in the order of the sheet.
pub const KINDS: &[Kind] = &[
    bounds,
    capacity_bound,
    component,
    packed,
    length,
    part,
    room,
    least,
    alone,
    greatest,
    paths_order,
    related,
    common,
    construction_of_components,
    lengths_lent,
    appending,
    builder,
    builder_from_prefix,
    includes_number,
    ranges,
    includes_range,
    ranges_order,
    includes_path,
    path_ranges,
    includes_path_range,
    area_triplet,
    areas,
    almost,
    areas_order,
    pruned_area,
    as_range,
    range_3d_triplet,
    ranges_3d,
    ranges_3d_order,
    pruned_range_3d,
    interests,
    newer,
    pruning,
    entries_order,
    map,
    map_room,
    #[cfg(feature = "store")]
    store,
];

fn bounds(draw: &mut Draw) -> Result<Question, Refusal> {
    let [mcl, mcc, mpl] = [1024, 1024, 4096].map(|most| most + draw.below(5) / 4);
    let limits = Limits::new(mcl, mcc, mpl);
    let question = format!(
        "The bounds of the limits are 1024 1024 4096. Are the limits {} accepted, or which refusal is given?",
        show::limits(limits)
    );
    Ok((question, show::passed(Path::new_empty(limits).map(|_| ()))))
}

fn capacity_bound(draw: &mut Draw) -> Result<Question, Refusal> {
    let capacity = 4095 + draw.below(3);
    let question = format!(
        "The bound of a map's capacity is 4096. Is a fresh map with room for {capacity} made, or which refusal is given?"
    );
    let made = AreaMap::fresh(Limits::new(0, 0, 0), capacity);
    Ok((question, show::passed(made.map(|_| ()))))
}

fn component(draw: &mut Draw) -> Result<Question, Refusal> {
    let (limits, length) = (draw.limits(), draw.below(4));
    let question = format!(
        "Limits {}. Is a component of length {length} accepted, or which refusal is given?",
        show::limits(limits)
    );
    let answer = reading::test_component(limits, &vec![1; length as usize]);
    Ok((question, show::passed(answer)))
}

fn packed(draw: &mut Draw) -> Result<Question, Refusal> {
    let limits = draw.limits();
    let mut reached = 0;
    let mut bytes = Vec::new();
    let count = draw.below(limits.mcc + 2);
    let mut lengths = Vec::new();
    for _ in 0..count {
        let step = draw.below(limits.mcl + 1) + u64::from(draw.seldom(8));
        reached = match draw.seldom(6) {
            true => step,
            false => reached + step,
        };
        lengths.push(reached);
    }
    let more = u64::from(draw.seldom(6));
    for number in [count].iter().chain(&lengths) {
        bytes.extend_from_slice(&number.to_le_bytes());
    }
    bytes.resize(bytes.len() + (reached + more) as usize, 1);
    let beside = draw.below(count + 1) + u64::from(draw.seldom(6));
    let question = format!(
        "Limits {}. A packed path is lent: the count in the buffer {count}; accumulated lengths: {}; bytes behind them: {}; the \
         count beside the buffer {beside}. Is it well formed, or which refusal is given?",
        show::limits(limits),
        show::list(&lengths),
        reached + more
    );
    let answer = reading::test(limits, PathRef::new(&bytes, beside));
    Ok((question, show::passed(answer)))
}

fn length(draw: &mut Draw) -> Result<Question, Refusal> {
    let limits = draw.limits();
    let p = draw.path(limits)?;
    let n = draw.below(4);
    let question = format!(
        "How many components and bytes has {}, and how many bytes are in the first {n} component(s) (none where there are fewer)?",
        path(limits, p.lent())?
    );
    let count = p.lent().component_count(limits)?;
    let bytes = p.lent().path_length(limits)?;
    let part = p.lent().path_length_of_prefix(limits, n)?;
    let part = perhaps(part, |bytes| Ok(bytes.to_string()))?;
    Ok((question, format!("{count}; {bytes}; {part}")))
}

fn part(draw: &mut Draw) -> Result<Question, Refusal> {
    let limits = draw.limits();
    let p = draw.path(limits)?;
    let (i, n) = (draw.below(3), draw.below(4));
    let question = format!(
        "Component {i} of {}, counted from 0, and its prefix of {n} component(s) (none where there are fewer)?",
        path(limits, p.lent())?
    );
    let component = p.lent().component(limits, i)?;
    let component = perhaps(component, |c| Ok(show::component(&c)))?;
    let prefix = p.lent().create_prefix(limits, n)?;
    let prefix = perhaps(prefix, |prefix| path(limits, prefix))?;
    Ok((question, format!("{component}; {prefix}")))
}

fn room(draw: &mut Draw) -> Result<Question, Refusal> {
    let limits = draw.limits();
    let p = draw.path(limits)?;
    let n = draw.below(p.lent().count() + 2);
    let mut out = vec![0; (8 * (n + 1) + draw.below(4)) as usize];
    let question = format!(
        "The prefix of {n} component(s) of {} is written packed to a buffer of {} bytes. How many bytes are written, \
         is there none (where the path has fewer components), or which refusal is given?",
        path(limits, p.lent())?,
        out.len()
    );
    let answer = match writing::write_prefix(limits, p.lent(), n, &mut out) {
        Ok(written) => perhaps(written, |bytes| Ok(bytes.to_string()))?,
        Err(refusal) => refusal.to_string(),
    };
    Ok((question, answer))
}

fn least(draw: &mut Draw) -> Result<Question, Refusal> {
    let limits = draw.limits();
    let from = draw.path(limits)?;
    let shown = path(limits, from.lent())?;
    let (words, found) = match draw.below(2) {
        0 => ("least path above", from.lent().successor(limits)?),
        _ => (
            "least path above, and not prefixed by,",
            from.lent().greater_but_not_prefixed(limits)?,
        ),
    };
    let question = format!("Limits {}. The {words} {shown}?", show::limits(limits));
    Ok((
        question,
        perhaps(found, |found| path(limits, found.lent()))?,
    ))
}

fn alone(draw: &mut Draw) -> Result<Question, Refusal> {
    let limits = draw.limits();
    let p = draw.path(limits)?;
    let question = format!(
        "Limits {}. The range that includes {} and no other path, its end the least path above it (no end where there is none)?",
        show::limits(limits),
        path(limits, p.lent())?
    );
    let end = p.lent().singleton_range(limits)?;
    let end = end.as_ref().map(Path::lent);
    let found = Range::new(p.lent(), end.map_or(RangeEnd::Open, RangeEnd::Closed));
    Ok((question, path_range(limits, found)?))
}

fn greatest(draw: &mut Draw) -> Result<Question, Refusal> {
    let limits = draw.limits();
    let question = format!("Limits {}. The greatest path?", show::limits(limits));
    Ok((question, path(limits, Path::new_max(limits)?.lent())?))
}

fn paths_order(draw: &mut Draw) -> Result<Question, Refusal> {
    let limits = draw.limits();
    let a = draw.path(limits)?;
    let b = draw.near(limits, &a)?;
    let (x, y) = (path(limits, a.lent())?, path(limits, b.lent())?);
    let question = format!("Is {x} smaller than, equal to or greater than {y}?");
    Ok((question, order(a.lent().compare(limits, b.lent())?)))
}

fn related(draw: &mut Draw) -> Result<Question, Refusal> {
    let limits = draw.limits();
    let a = draw.path(limits)?;
    let b = draw.near(limits, &a)?;
    let (x, y) = (path(limits, a.lent())?, path(limits, b.lent())?);
    let question =
        format!("Is {x} a prefix of {y}, and is either of the two a prefix of the other?");
    let prefix = yes(a.lent().is_prefix_of(limits, b.lent())?);
    let related = yes(a.lent().is_related(limits, b.lent())?);
    Ok((question, format!("{prefix}; {related}")))
}

fn common(draw: &mut Draw) -> Result<Question, Refusal> {
    let limits = draw.limits();
    let a = draw.path(limits)?;
    let b = draw.near(limits, &a)?;
    let (x, y) = (path(limits, a.lent())?, path(limits, b.lent())?);
    let question = format!("The longest path that is a prefix of {x} and of {y}?");
    let found = a.lent().longest_common_prefix(limits, b.lent())?;
    Ok((question, path(limits, found)?))
}

fn construction_of_components(draw: &mut Draw) -> Result<Question, Refusal> {
    let limits = draw.limits();
    let lengths: Vec<u64> = (0..draw.below(4)).map(|_| draw.below(4)).collect();
    let components: Vec<Vec<u8>> = lengths.iter().map(|n| vec![1; *n as usize]).collect();
    let slices: Vec<&[u8]> = components.iter().map(Vec::as_slice).collect();
    let question = format!(
        "Limits {}. Components of these lengths, all their bytes 01: {}. Which path do they make, or which refusal is given?",
        show::limits(limits),
        show::list(&lengths)
    );
    let answer = show::made(limits, Path::from_slices(limits, &slices))?;
    Ok((question, answer))
}

fn lengths_lent(draw: &mut Draw) -> Result<Question, Refusal> {
    let limits = draw.limits();
    let lengths: Vec<u64> = (0..1 + draw.below(2)).map(|_| draw.below(3)).collect();
    let sum = lengths.iter().sum::<u64>() + u64::from(draw.seldom(3));
    let numbers: Vec<u8> = lengths.iter().flat_map(|n| n.to_le_bytes()).collect();
    let (bytes, mut out) = (vec![1; sum as usize], vec![0; limits.longest_packed()]);
    let question = format!(
        "Limits {}. Component lengths are lent: {}; and with them so many bytes 01: {sum}. Which path is made, or which refusal is given?",
        show::limits(limits),
        show::list(&lengths)
    );
    let answer = match construction::from_slices(limits, &numbers, &bytes, &mut out) {
        Ok(_) => path(
            limits,
            PathRef::whole(&out[..8 * (lengths.len() + 1) + sum as usize]),
        )?,
        Err(refusal) => refusal.to_string(),
    };
    Ok((question, answer))
}

fn appending(draw: &mut Draw) -> Result<Question, Refusal> {
    let limits = draw.limits();
    let p = draw.path(limits)?;
    let component = vec![1; draw.below(4) as usize];
    let question = format!(
        "Limits {}. The path {} with the component {} behind it? Or which refusal is given?",
        show::limits(limits),
        path(limits, p.lent())?,
        show::component(&component)
    );
    let answer = show::made(limits, p.lent().append(limits, &component))?;
    Ok((question, answer))
}

fn builder(draw: &mut Draw) -> Result<Question, Refusal> {
    let limits = draw.limits();
    let mut components = draw.components(limits);
    let (length, count) = match draw.below(3) {
        0 => (draw.below(limits.mpl + 2), draw.below(limits.mcc + 2)),
        _ => (components.concat().len() as u64, components.len() as u64),
    };
    if draw.seldom(8) {
        components.push(vec![1; limits.mcl as usize + 1]);
    }
    let question = format!(
        "Limits {}. A builder is declared for a length of {length} and a count of {count}, then given these components one by one: \
         {}; then built. Which path comes of it, or which refusal is the first?",
        show::limits(limits),
        show::list(components.iter().map(|c| show::component(c)))
    );
    let built = || {
        let mut builder = PathBuilder::new(limits, length, count)?;
        for component in &components {
            builder.append_component(component)?;
        }
        builder.build()
    };
    Ok((question, show::made(limits, built())?))
}

fn builder_from_prefix(draw: &mut Draw) -> Result<Question, Refusal> {
    let limits = draw.limits();
    let p = draw.path(limits)?;
    let (length, count) = (draw.below(limits.mpl + 1), draw.below(limits.mcc + 1));
    let n = draw.below(p.lent().count() + 2);
    let question = format!(
        "Limits {}. A builder declared for a length of {length} and a count of {count} is started from the prefix of \
         {n} component(s) of {}, and built. Which path comes of it, or which refusal is the first?",
        show::limits(limits),
        path(limits, p.lent())?
    );
    let built = || PathBuilder::new_from_prefix(limits, length, count, p.lent(), n)?.build();
    Ok((question, show::made(limits, built())?))
}

fn includes_number(draw: &mut Draw) -> Result<Question, Refusal> {
    let a = draw.loose_range();
    let value = (a.start + draw.below(6)).saturating_sub(1);
    let question = format!("Does the range {} include {value}?", range(a));
    Ok((question, yes(a.includes(value)?)))
}

fn ranges(draw: &mut Draw) -> Result<Question, Refusal> {
    let (a, b) = (draw.loose_range(), draw.loose_range());
    let question = format!(
        "The intersection of the ranges {} and {}?",
        range(a),
        range(b)
    );
    Ok((question, perhaps(a.intersection(b)?, |met| Ok(range(met)))?))
}

fn includes_range(draw: &mut Draw) -> Result<Question, Refusal> {
    let (a, b) = (draw.times(), draw.times());
    let question = format!(
        "Does the range {} include all of the range {}?",
        range(a),
        range(b)
    );
    Ok((question, yes(a.includes_range(b)?)))
}

fn ranges_order(draw: &mut Draw) -> Result<Question, Refusal> {
    let a = draw.loose_range();
    let mut b = draw.loose_range();
    if draw.below(3) > 0 {
        b.start = a.start;
    }
    let question = format!(
        "Ranges are ordered by start, then by end, no end being greatest. Is the range {} smaller than, equal to or greater than the range {}?",
        range(a),
        range(b)
    );
    Ok((question, order(a.compare(b)?)))
}

fn includes_path(draw: &mut Draw) -> Result<Question, Refusal> {
    let limits = draw.limits();
    let (paths, p) = (draw.paths(limits)?, draw.path(limits)?);
    let question = format!(
        "Does the range of paths {} include {}?",
        path_range(limits, paths.lent())?,
        path(limits, p.lent())?
    );
    Ok((question, yes(paths.lent().includes_path(limits, p.lent())?)))
}

fn path_ranges(draw: &mut Draw) -> Result<Question, Refusal> {
    let limits = draw.limits();
    let (a, b, c) = (draw.path(limits)?, draw.path(limits)?, draw.path(limits)?);
    let (x, y) = (
        Range::new(a.lent(), RangeEnd::Closed(b.lent())),
        Range::new_open(c.lent()),
    );
    let question = format!(
        "The intersection of the ranges of paths {} and {}?",
        path_range(limits, x)?,
        path_range(limits, y)?
    );
    let met = x.intersection_of_paths(limits, y)?;
    Ok((question, perhaps(met, |met| path_range(limits, met))?))
}

fn includes_path_range(draw: &mut Draw) -> Result<Question, Refusal> {
    let limits = draw.limits();
    let (a, b) = (draw.paths(limits)?, draw.paths(limits)?);
    let question = format!(
        "Does the range of paths {} include all of {}?",
        path_range(limits, a.lent())?,
        path_range(limits, b.lent())?
    );
    let answer = a.lent().includes_range_of_paths(limits, b.lent())?;
    Ok((question, yes(answer)))
}

fn area_triplet(draw: &mut Draw) -> Result<Question, Refusal> {
    let limits = draw.limits();
    let p = draw.path(limits)?;
    let q = draw.near(limits, &p)?;
    let (a, id, time) = (draw.area(&p), draw.below(2), draw.below(12));
    let question = format!(
        "Does the area of {} include an entry of subspace {id}, path {}, time {time}?",
        area(limits, a)?,
        path(limits, q.lent())?
    );
    let answer = a.includes_triplet(limits, id, q.lent(), time)?;
    Ok((question, yes(answer)))
}

fn areas(draw: &mut Draw) -> Result<Question, Refusal> {
    let limits = draw.limits();
    let p = draw.path(limits)?;
    let q = draw.near(limits, &p)?;
    let (a, b) = (draw.area(&p), draw.area(&q));
    let question = format!(
        "Does the area of {} include all of that of {}, and what is their intersection, with the longer of the two paths?",
        area(limits, a)?,
        area(limits, b)?
    );
    let met = perhaps(a.intersection(limits, b)?, |met| area(limits, met))?;
    let includes = yes(a.includes_area(limits, b)?);
    Ok((question, format!("{includes}; {met}")))
}

fn almost(draw: &mut Draw) -> Result<Question, Refusal> {
    let limits = draw.limits();
    let p = draw.path(limits)?;
    let q = draw.near(limits, &p)?;
    let (a, mut b) = (draw.area(&p), draw.area(&q));
    if draw.below(3) > 0 {
        b.times = a.times;
    }
    let question = format!(
        "An area almost includes another if its path is a prefix of the other's, its times include all of the other's times, and \
         the subspaces are not two that differ (any subspace never clashes, on either side). Does the area of {} almost include \
         that of {}?",
        area(limits, a)?,
        area(limits, b)?
    );
    Ok((question, yes(a.almost_includes_area(limits, b)?)))
}

fn areas_order(draw: &mut Draw) -> Result<Question, Refusal> {
    let limits = draw.limits();
    let p = draw.path(limits)?;
    let q = draw.near(limits, &p)?;
    let (a, mut b) = (draw.area(&p), draw.area(&q));
    if draw.below(3) > 0 {
        b.subspace = a.subspace;
    }
    let question = format!(
        "Areas are ordered by subspace, any before each single one; then by path; then by the start of the times and then by \
         their end, no end being greatest. Is the area of {} smaller than, equal to or greater than that of {}?",
        area(limits, a)?,
        area(limits, b)?
    );
    Ok((question, order(a.compare(limits, b)?)))
}

fn pruned_area(draw: &mut Draw) -> Result<Question, Refusal> {
    let limits = draw.limits();
    let p = draw.path(limits)?;
    let q = draw.near(limits, &p)?;
    let (from, id, time) = (draw.area(&p), draw.below(2), draw.below(12));
    let question = format!(
        "Can some entry of subspace {id}, path {}, time {time} prune some entry of the same namespace in the area of {}?",
        path(limits, q.lent())?,
        area(limits, from)?
    );
    let answer = from.could_be_pruned_by_triplet(limits, id, q.lent(), time)?;
    Ok((question, yes(answer)))
}

fn as_range(draw: &mut Draw) -> Result<Question, Refusal> {
    let limits = draw.limits();
    let p = draw.path(limits)?;
    let from = draw.area(&p);
    let mut out = vec![0; limits.longest_packed()];
    let question = format!(
        "Limits {}. The 3d range that includes the same entries as the area of {}, each of its ends as small as can be and left \
         out where nothing lies past it?",
        show::limits(limits),
        area(limits, from)?
    );
    let found = Range3d::from_area(limits, from, &mut out)?;
    Ok((question, show::range_3d(limits, found)?))
}

fn range_3d_triplet(draw: &mut Draw) -> Result<Question, Refusal> {
    let limits = draw.limits();
    let (paths, q) = (draw.paths(limits)?, draw.path(limits)?);
    let (a, id, time) = (draw.range_3d(&paths), draw.below(3), draw.below(12));
    let question = format!(
        "Does the 3d range of {} include an entry of subspace {id}, path {}, time {time}?",
        show::range_3d(limits, a)?,
        path(limits, q.lent())?
    );
    let answer = a.includes_triplet(limits, id, q.lent(), time)?;
    Ok((question, yes(answer)))
}

fn ranges_3d(draw: &mut Draw) -> Result<Question, Refusal> {
    let limits = draw.limits();
    let (p, q) = (draw.paths(limits)?, draw.paths(limits)?);
    let (a, b) = (draw.range_3d(&p), draw.range_3d(&q));
    let question = format!(
        "Does the 3d range of {} include all of that of {}, and what is their intersection?",
        show::range_3d(limits, a)?,
        show::range_3d(limits, b)?
    );
    let met = a.intersection(limits, b)?;
    let met = perhaps(met, |met| show::range_3d(limits, met))?;
    let includes = yes(a.includes_range(limits, b)?);
    Ok((question, format!("{includes}; {met}")))
}

fn ranges_3d_order(draw: &mut Draw) -> Result<Question, Refusal> {
    let limits = draw.limits();
    let (p, q) = (draw.paths(limits)?, draw.paths(limits)?);
    let (a, mut b) = (draw.range_3d(&p), draw.range_3d(&q));
    if draw.below(3) > 0 {
        b.subspaces = a.subspaces;
    }
    let question = format!(
        "3d ranges are ordered by subspaces, then paths, then times, each of them by start, then by end, no end being greatest. \
         Is the 3d range of {} smaller than, equal to or greater than that of {}?",
        show::range_3d(limits, a)?,
        show::range_3d(limits, b)?
    );
    Ok((question, order(a.compare(limits, b)?)))
}

fn pruned_range_3d(draw: &mut Draw) -> Result<Question, Refusal> {
    let limits = draw.limits();
    let paths = draw.paths(limits)?;
    let q = draw.near(limits, &paths.start)?;
    let (a, id, time) = (draw.range_3d(&paths), draw.below(3), draw.below(12));
    let question = format!(
        "By the rule, a 3d range could be pruned by an entry if its subspaces include the entry's, the entry's time is not below \
         the start of its times, and the entry's path is in its paths, or is a prefix of their start, or has their start as a \
         prefix. Could the 3d range of {} be pruned, by this rule, by an entry of subspace {id}, path {}, time {time}?",
        show::range_3d(limits, a)?,
        path(limits, q.lent())?
    );
    let answer = a.could_be_pruned_by_triplet(limits, id, q.lent(), time)?;
    Ok((question, yes(answer)))
}

fn interests(draw: &mut Draw) -> Result<Question, Refusal> {
    let limits = draw.limits();
    let p = draw.path(limits)?;
    let mut drawn = || AreaOfInterest::new(draw.area(&p), draw.below(4), draw.below(9));
    let (a, b) = (drawn(), drawn());
    let question = format!(
        "Areas of interest are intersected by intersecting the areas and taking the smaller count and the smaller size, 0 being \
         smallest. The intersection of {} and {}?",
        interest(limits, a)?,
        interest(limits, b)?
    );
    let met = a.intersection(limits, b)?;
    Ok((question, perhaps(met, |met| interest(limits, met))?))
}

fn newer(draw: &mut Draw) -> Result<Question, Refusal> {
    let limits = draw.limits();
    let p = draw.path(limits)?;
    let (a, mut b) = (draw.entry(&p), draw.entry(&p));
    if draw.below(3) > 0 {
        b.timestamp = a.timestamp;
    }
    let question = format!(
        "Is the entry of {} newer than that of {}?",
        entry(limits, &a)?,
        entry(limits, &b)?
    );
    Ok((question, yes(a.is_newer_than(&b)?)))
}

fn pruning(draw: &mut Draw) -> Result<Question, Refusal> {
    let limits = draw.limits();
    let p = draw.path(limits)?;
    let q = draw.near(limits, &p)?;
    let (a, b) = (draw.entry(&p), draw.entry(&q));
    let (a, b) = if draw.below(3) > 0 { (b, a) } else { (a, b) };
    let question = format!(
        "Does the entry of {} prune that of {}?",
        entry(limits, &a)?,
        entry(limits, &b)?
    );
    Ok((question, yes(a.prunes(limits, &b)?)))
}

fn entries_order(draw: &mut Draw) -> Result<Question, Refusal> {
    let limits = draw.limits();
    let p = draw.path(limits)?;
    let q = draw.near(limits, &p)?;
    let (a, b) = (draw.entry(&p), draw.entry(&q));
    let question = format!(
        "Entries are ordered by namespace, subspace, path, time, digest, payload length, in turn. Is the entry of {} smaller \
         than, equal to or greater than that of {}?",
        entry(limits, &a)?,
        entry(limits, &b)?
    );
    Ok((question, order(a.compare(limits, &b)?)))
}

fn map(draw: &mut Draw) -> Result<Question, Refusal> {
    let limits = draw.limits();
    let base = draw.path(limits)?;
    let mut map = AreaMap::fresh(limits, 4)?;
    let mut question = "A map has rules for these areas:".to_string();
    for value in 0..3 {
        let p = draw.near(limits, &base)?;
        let rule = draw.area(&p);
        question += &format!(" ({}) {};", map.insert(rule, value)?, area(limits, rule)?);
    }
    let asked = draw.area(&base);
    question += &format!(
        " which of them intersect the area of {}?",
        area(limits, asked)?
    );
    Ok((question, show::list(map.intersecting(asked)?)))
}

fn map_room(draw: &mut Draw) -> Result<Question, Refusal> {
    let limits = draw.limits();
    let p = draw.path(limits)?;
    let (capacity, each) = (draw.below(4), draw.area(&p));
    let mut map = AreaMap::fresh(limits, capacity)?;
    let mut answers = Vec::new();
    for value in 0..3 {
        answers.push(match map.insert(each, value) {
            Ok(position) => position.to_string(),
            Err(refusal) => refusal.to_string(),
        });
    }
    let question = format!(
        "Three times the area of {} is inserted into a fresh map with room for {capacity}. Which position, counted from 0, does \
         each take, or which refusal is given?",
        area(limits, each)?
    );
    Ok((question, answers.join("; ")))
}

#[cfg(feature = "store")]
fn store(draw: &mut Draw) -> Result<Question, Refusal> {
    let limits = draw.limits();
    let capacity = 1 + draw.below(3);
    let mut store = wotskrale::Store::fresh(limits, capacity, 0)?;
    let base = draw.path(limits)?;
    let mut question =
        format!("A fresh store of namespace 0 with room for {capacity} is offered, in turn:");
    let mut answers = Vec::new();
    let near: Result<Vec<Path>, Refusal> = (0..4).map(|_| draw.near(limits, &base)).collect();
    let near = near?;
    let mut last = None;
    for (i, p) in (1..).zip(&near) {
        let offer = match last {
            Some(last) if draw.seldom(6) => last,
            _ => draw.entry(p),
        };
        last = Some(offer);
        question += &format!(" ({i}) {};", entry(limits, &offer)?);
        answers.push(match store.offer(&offer) {
            Ok(wotskrale::Offered::Taken(pruned)) => format!("taken, pruning {pruned}"),
            Ok(wotskrale::Offered::Outdated) => "outdated".to_string(),
            Ok(wotskrale::Offered::Repeat) => "repeat".to_string(),
            Err(refusal) => refusal.to_string(),
        });
    }
    question += " is each taken, pruning how many, or outdated, or a repeat, or which refusal is given? And which payload \
                 lengths are held and let go after them?";
    let numbers = store.numbers()?;
    let (held, let_go) = (show::number(numbers.held), show::number(numbers.let_go));
    let answers = answers.join("; ");
    Ok((question, format!("{answers}; held {held}, let go {let_go}")))
}
