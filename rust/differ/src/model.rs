//! Plain models, written from the documents and from neither side: the packed form and its test, the rule for the raised
//! component, and the way in which paths are shown.

use std::cmp::Ordering;

use wotskrale::Limits;

/// A path as its components.
pub type Parts = Vec<Vec<u8>>;

/// The packed form: the count, the accumulated lengths, the bytes.
pub fn pack<C: AsRef<[u8]>>(parts: &[C]) -> Vec<u8> {
    let bytes: usize = parts.iter().map(|p| p.as_ref().len()).sum();
    // No byte more is allocated, so that valgrind sees a read behind it.
    let mut out = Vec::with_capacity(8 * (parts.len() + 1) + bytes);
    out.extend((parts.len() as u64).to_le_bytes());
    let mut end = 0u64;
    for part in parts {
        end += part.as_ref().len() as u64;
        out.extend(end.to_le_bytes());
    }
    for part in parts {
        out.extend(part.as_ref());
    }
    out
}

/// Component lengths as 8-byte numbers, and the bytes end to end.
pub fn split<C: AsRef<[u8]>>(parts: &[C]) -> (Vec<u8>, Vec<u8>) {
    let lengths = parts
        .iter()
        .flat_map(|p| (p.as_ref().len() as u64).to_le_bytes());
    let bytes = parts.iter().flat_map(|p| p.as_ref().iter().copied());
    (lengths.collect(), bytes.collect())
}

fn number(buffer: &[u8], at: usize) -> Option<u64> {
    let bytes = buffer.get(at..at.checked_add(8)?)?;
    Some(u64::from_le_bytes(bytes.try_into().ok()?))
}

/// The components of a lent buffer with a count, or nothing where it is not well formed.
pub fn read(limits: Limits, buffer: &[u8], count: u64) -> Option<Parts> {
    let k = number(buffer, 0)?;
    if k > limits.mcc || count > k {
        return None;
    }
    let start = 8 * (k as usize + 1);
    let (mut parts, mut end) = (Parts::new(), 0u64);
    for i in 0..k as usize {
        let next = number(buffer, 8 * (i + 1))?;
        if next < end || next - end > limits.mcl || next > limits.mpl {
            return None;
        }
        parts.push(
            buffer
                .get(start + end as usize..start + next as usize)?
                .to_vec(),
        );
        end = next;
    }
    if buffer.len() != start + end as usize {
        return None;
    }
    parts.truncate(count as usize);
    Some(parts)
}

/// How many bytes in all components.
pub fn total(parts: &[Vec<u8>]) -> usize {
    parts.iter().map(Vec::len).sum()
}

/// Whether components are a path under the limits.
pub fn valid(limits: Limits, parts: &[Vec<u8>]) -> bool {
    parts.len() as u64 <= limits.mcc
        && total(parts) as u64 <= limits.mpl
        && parts.iter().all(|p| p.len() as u64 <= limits.mcl)
}

/// What is known to differ in `successor`: the path has MCC components, and the component that is raised ends in ff. Gives
/// then the least path above (the component cut after its last byte below ff and that byte raised) and the Rust's answer (the
/// component counted up at its width).
pub fn raised_before_ff(limits: Limits, parts: &[Vec<u8>]) -> Option<(Parts, Parts)> {
    if parts.len() as u64 != limits.mcc {
        return None;
    }
    let mut end = total(parts) as u64;
    for (i, part) in parts.iter().enumerate().rev() {
        if (part.len() as u64) < limits.mcl && end < limits.mpl {
            return None;
        }
        if let Some(place) = part.iter().rposition(|b| *b < 0xff) {
            if place + 1 == part.len() {
                return None;
            }
            let mut least = parts[..=i].to_vec();
            least[i].truncate(place + 1);
            least[i][place] += 1;
            let mut counted_up = least.clone();
            counted_up[i].resize(part.len(), 0);
            return Some((least, counted_up));
        }
        end -= part.len() as u64;
    }
    None
}

/// Bytes in hexadecimal, components split by /, - an empty component, () the empty path.
pub fn show<C: AsRef<[u8]>>(parts: &[C]) -> String {
    let one = |part: &C| match part.as_ref() {
        [] => "-".to_string(),
        bytes => bytes.iter().map(|b| format!("{b:02x}")).collect(),
    };
    match parts {
        [] => "()".to_string(),
        _ => parts.iter().map(one).collect::<Vec<String>>().join("/"),
    }
}

/// The order of two ends, open (none) being greatest.
pub fn end_order<T: Ord>(a: Option<&T>, b: Option<&T>) -> Ordering {
    match (a, b) {
        (None, None) => Ordering::Equal,
        (None, Some(_)) => Ordering::Greater,
        (Some(_), None) => Ordering::Less,
        (Some(a), Some(b)) => a.cmp(b),
    }
}

/// The order of two ranges: by start, then by end.
pub fn range_order<T: Ord>(a: (&T, Option<&T>), b: (&T, Option<&T>)) -> Ordering {
    a.0.cmp(b.0).then_with(|| end_order(a.1, b.1))
}

/// What the Rust answers for it (docs/DIFFERENCES.md, `Range`'s order): equal for equal starts, and the order of the ends where
/// the first start is greater.
pub fn range_order_of_the_rust<T: Ord>(a: (&T, Option<&T>), b: (&T, Option<&T>)) -> Ordering {
    match a.0.cmp(b.0) {
        Ordering::Greater => end_order(a.1, b.1),
        order => order,
    }
}
