//! Components that are too long or too many: what is handed to the core has bounded size, and is refused as the whole would be.

use wotskrale::{construction, Limits, Path, PathRef, Refusal};

/// Lengths as 8-byte numbers and the bytes, all of them.
fn whole(components: &[&[u8]]) -> (Vec<u8>, Vec<u8>) {
    let lengths = components.iter().map(|c| (c.len() as u64).to_le_bytes());
    (lengths.flatten().collect(), components.concat())
}

fn made(call: impl FnOnce(&mut [u8]) -> Result<usize, Refusal>) -> Result<Vec<u8>, Refusal> {
    let mut out = vec![0; Limits::BOUNDS.longest_packed()];
    let length = call(&mut out)?;
    out.truncate(length);
    Ok(out)
}

/// Limits at and beside the bounds.
const LIMITS: [Limits; 10] = [
    Limits::new(0, 0, 0),
    Limits::new(2, 2, 3),
    Limits::new(1024, 1024, 4096),
    Limits::new(1024, 1024, 4095),
    Limits::new(1024, 1023, 4096),
    Limits::new(1023, 1024, 4096),
    Limits::new(1025, 1024, 4096),
    Limits::new(1024, 1025, 4096),
    Limits::new(1024, 1024, 4097),
    Limits::new(u64::MAX, u64::MAX, u64::MAX),
];

/// Counts and total lengths at and beside the limits and the bounds.
fn shapes() -> Vec<Vec<usize>> {
    let mut shapes = Vec::new();
    for count in [0, 1, 2, 3, 4, 5, 1022, 1023, 1024, 1025, 1026, 3000] {
        for total in [
            0, 1, 2, 3, 4, 5, 1023, 1024, 1025, 4094, 4095, 4096, 4097, 4098, 9000,
        ] {
            // All in the first, all in the last, and as even as can be.
            for form in 0..3 {
                let mut lengths = vec![0; count];
                if let Some(last) = count.checked_sub(1) {
                    match form {
                        0 => lengths[0] = total,
                        1 => lengths[last] = total,
                        _ => (0..count).for_each(|i| {
                            lengths[i] = total / count + usize::from(i < total % count);
                        }),
                    }
                }
                shapes.push(lengths);
            }
        }
    }
    shapes
}

#[test]
fn answers_at_the_edges_are_those_of_the_whole() {
    let bytes: Vec<u8> = (0..9000_u32).map(|n| n as u8).collect();
    let (empty, one) = ([0; 8], {
        let mut one = [1_u64, 1].map(u64::to_le_bytes).concat();
        one.push(7);
        one
    });
    let paths = [
        PathRef::new(&empty, 0),
        PathRef::new(&one, 1),
        PathRef::new(&one, 0),
        PathRef::new(&one, 2),
        PathRef::new(&one[..16], 1),
    ];
    let mut refused = std::collections::BTreeSet::new();
    for lengths in shapes() {
        let mut rest = &bytes[..];
        let mut components = Vec::new();
        for length in &lengths {
            let (component, behind) = rest.split_at(*length);
            components.push(component);
            rest = behind;
        }
        let (numbers, all) = whole(&components);
        let total = all.len() as u64;
        for limits in LIMITS {
            let ours = Path::from_slices(limits, &components).map(Path::into_bytes);
            let core = made(|out| construction::from_slices(limits, &numbers, &all, out));
            assert_eq!(ours, core, "{limits:?} {lengths:?}");
            refused.extend(core.err().map(Refusal::number));
            for stated in [
                0,
                total.saturating_sub(1),
                total,
                total + 1,
                4096,
                4097,
                u64::MAX,
            ] {
                let ours = Path::new_from_iter(limits, stated, components.iter().copied());
                let core =
                    made(|out| construction::new_from_iter(limits, stated, &numbers, &all, out));
                assert_eq!(
                    ours.map(Path::into_bytes),
                    core,
                    "{limits:?} {stated} {lengths:?}"
                );
                refused.extend(core.err().map(Refusal::number));
            }
            for path in paths {
                let ours = path.append_slice(limits, &components).map(Path::into_bytes);
                let core =
                    made(|out| construction::append_slice(limits, path, &numbers, &all, out));
                assert_eq!(ours, core, "{limits:?} {path:?} {lengths:?}");
                refused.extend(core.err().map(Refusal::number));
            }
        }
    }
    assert_eq!(refused, [1, 5, 6, 7, 8, 9].into());
}

#[test]
fn what_could_not_be_copied_is_refused() {
    let big = vec![1; 1 << 20];
    let limits = Limits::new(2, 2, 3);
    let many = vec![&big[..]; 1 << 20];
    assert_eq!(Path::from_slices(limits, &many), Err(Refusal::PathTooLong));
    let path = Path::new_empty(limits).expect("limits within the bounds");
    let long = path.lent().append_slice(limits, &many);
    assert_eq!(long, Err(Refusal::PathTooLong));
    let bad = PathRef::new(&[], 0).append_slice(limits, &many);
    assert_eq!(bad, Err(Refusal::BadPath));
    let over = Path::from_slices(Limits::new(2, 2, 4097), &many);
    assert_eq!(over, Err(Refusal::BadLimits));
    let empty: Vec<&[u8]> = vec![&[]; 1 << 20];
    assert_eq!(
        Path::from_slices(limits, &empty),
        Err(Refusal::TooManyComponents)
    );
}

#[test]
fn an_iterator_is_not_kept() {
    let big = vec![1; 1 << 20];
    let limits = Limits::new(2, 2, 3);
    let some = std::iter::repeat_n(&big[..], 1 << 20);
    let stated = Path::new_from_iter(limits, 1 << 40, some.clone());
    assert_eq!(stated, Err(Refusal::PathTooLong));
    for other in [0, 4096, 4097, (1 << 40) - 1, (1 << 40) + 1, u64::MAX] {
        let refused = Path::new_from_iter(limits, other, some.clone());
        assert_eq!(refused, Err(Refusal::BadLengths), "{other}");
    }
    let empty = std::iter::repeat_n(&[][..], 1 << 24);
    let many = Path::new_from_iter(limits, 0, empty);
    assert_eq!(many, Err(Refusal::TooManyComponents));
    let endless = Path::new_from_iter(limits, 5, std::iter::repeat(&big[..]));
    assert_eq!(endless, Err(Refusal::BadLengths));
}
