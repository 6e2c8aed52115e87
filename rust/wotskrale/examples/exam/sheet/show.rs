//! How everything is written, in questions and in the key.

use std::cmp::Ordering;

use wotskrale::{
    Area, AreaOfInterest, AreaSubspace, Entry, Limits, Path, PathRef, Range, Range3d, RangeEnd,
    Refusal,
};

pub fn component(bytes: &[u8]) -> String {
    match bytes {
        [] => "-".to_string(),
        _ => bytes.iter().map(|b| format!("{b:02x}")).collect(),
    }
}

/// Several things with commas between them.
pub fn list(all: impl IntoIterator<Item = impl ToString>) -> String {
    let all: Vec<String> = all.into_iter().map(|one| one.to_string()).collect();
    match all.is_empty() {
        true => "none".to_string(),
        false => all.join(", "),
    }
}

/// A number, the greatest ones by what they lack to 2^64.
pub fn number(n: u64) -> String {
    match u64::MAX - n {
        lacking @ 0..1000 => format!("2^64 − {}", lacking + 1),
        _ => n.to_string(),
    }
}

pub fn path(limits: Limits, path: PathRef<'_>) -> Result<String, Refusal> {
    let components = path.components(limits)?;
    let shown: Vec<String> = components.iter().map(|c| component(c)).collect();
    Ok(match shown.is_empty() {
        true => "()".to_string(),
        false => shown.join("/"),
    })
}

/// What was found, or that there is none.
pub fn perhaps<T>(
    found: Option<T>,
    show: impl FnOnce(T) -> Result<String, Refusal>,
) -> Result<String, Refusal> {
    found.map_or(Ok("none".to_string()), show)
}

/// A path that was made, or why not.
pub fn made(limits: Limits, made: Result<Path, Refusal>) -> Result<String, Refusal> {
    match made {
        Ok(made) => path(limits, made.lent()),
        Err(refusal) => Ok(refusal.to_string()),
    }
}

/// Yes where something passed, or why not.
pub fn passed(passed: Result<(), Refusal>) -> String {
    match passed {
        Ok(()) => yes(true),
        Err(refusal) => refusal.to_string(),
    }
}

pub fn range(range: Range<u64>) -> String {
    match range.end {
        RangeEnd::Open => format!("from {}", range.start),
        RangeEnd::Closed(end) => format!("[{}, {end})", range.start),
    }
}

pub fn path_range(limits: Limits, range: Range<PathRef<'_>>) -> Result<String, Refusal> {
    let start = path(limits, range.start)?;
    Ok(match range.end {
        RangeEnd::Open => format!("from {start}"),
        RangeEnd::Closed(end) => format!("[{start}, {})", path(limits, end)?),
    })
}

fn subspace(subspace: AreaSubspace) -> String {
    match subspace {
        AreaSubspace::Any => "any subspace".to_string(),
        AreaSubspace::Id(id) => format!("subspace {id}"),
    }
}

pub fn area(limits: Limits, area: Area<'_>) -> Result<String, Refusal> {
    let (subspace, times) = (subspace(area.subspace), range(area.times));
    let path = path(limits, area.path)?;
    Ok(format!("{subspace}, path {path}, times {times}"))
}

pub fn interest(limits: Limits, interest: AreaOfInterest<'_>) -> Result<String, Refusal> {
    let area = area(limits, interest.area)?;
    let (count, size) = (interest.max_count, interest.max_size);
    Ok(format!("{area}, count {count}, size {size}"))
}

pub fn range_3d(limits: Limits, found: Range3d<'_>) -> Result<String, Refusal> {
    let (subspaces, times) = (range(found.subspaces), range(found.times));
    let paths = path_range(limits, found.paths)?;
    Ok(format!(
        "subspaces {subspaces}, paths {paths}, times {times}"
    ))
}

/// An entry whose digest is one byte 32 times.
pub fn entry(limits: Limits, entry: &Entry<'_>) -> Result<String, Refusal> {
    Ok(format!(
        "namespace {}, subspace {}, path {}, time {}, payload length {}, digest 32 times {:02x}",
        entry.namespace,
        entry.subspace,
        path(limits, entry.path)?,
        entry.timestamp,
        number(entry.payload_length),
        entry.digest[0]
    ))
}

pub fn yes(yes: bool) -> String {
    if yes { "yes" } else { "no" }.to_string()
}

pub fn order(order: Ordering) -> String {
    match order {
        Ordering::Less => "smaller",
        Ordering::Equal => "equal",
        Ordering::Greater => "greater",
    }
    .to_string()
}

pub fn limits(limits: Limits) -> String {
    format!("{} {} {}", limits.mcl, limits.mcc, limits.mpl)
}
