//! The calls on paths.

use std::hint::black_box;

use oracle::{Component, Path, PathBuilder};
use wotskrale::{construction, least, plain, reading, relation, Limits, PathRef};

use crate::harness::Bench;
use crate::repeated;

impl Bench {
    /// All calls on one path.
    pub fn paths<const MCL: usize, const MCC: usize, const MPL: usize>(
        &self,
        name: &str,
        parts: &[Vec<u8>],
    ) {
        let limits = Limits::new(MCL as u64, MCC as u64, MPL as u64);
        let last = |p: &mut Vec<Vec<u8>>| {
            if let Some(byte) = p.last_mut().and_then(|c| c.last_mut()) {
                *byte += 1;
            }
        };
        let first = |p: &mut Vec<Vec<u8>>| {
            if let Some(byte) = p.first_mut().and_then(|c| c.first_mut()) {
                *byte += 1;
            }
        };
        let changed = |change: &dyn Fn(&mut Vec<Vec<u8>>)| {
            let mut other = parts.to_vec();
            change(&mut other);
            other
        };
        let rust = |parts: &[Vec<u8>]| Path::<MCL, MCC, MPL>::from_slices(parts).unwrap();
        let slices: Vec<&[u8]> = parts.iter().map(Vec::as_slice).collect();
        let mine = |parts: &[Vec<u8>]| {
            let slices: Vec<&[u8]> = parts.iter().map(Vec::as_slice).collect();
            wotskrale::Path::from_slices(limits, &slices).unwrap()
        };
        let (x, a) = (rust(parts), mine(parts));
        let p = a.lent();

        for (which, other) in [
            ("equal", parts.to_vec()),
            ("first byte differs", changed(&first)),
            ("last byte differs", changed(&last)),
        ] {
            let (y, b) = (rust(&other), mine(&other));
            let q = b.lent();
            self.both(
                name,
                &format!("compare, {which}"),
                repeated!(relation::compare(
                    *black_box(&limits),
                    *black_box(&p),
                    *black_box(&q)
                )),
                repeated!(black_box(&x).cmp(black_box(&y))),
            );
            self.both(
                name,
                &format!("is_prefix_of, {which}"),
                repeated!(relation::is_prefix_of(
                    *black_box(&limits),
                    *black_box(&p),
                    *black_box(&q)
                )),
                repeated!(black_box(&x).is_prefix_of(black_box(&y))),
            );
            self.both(
                name,
                &format!("longest_common_prefix, {which}"),
                repeated!(relation::longest_common_prefix(
                    *black_box(&limits),
                    *black_box(&p),
                    *black_box(&q)
                )),
                repeated!(black_box(&x).longest_common_prefix(black_box(&y))),
            );
        }
        self.making::<MCL, MCC, MPL>(name, limits, &slices, &x, p);
        self.alone(
            name,
            "test alone",
            repeated!(reading::test(*black_box(&limits), *black_box(&p))),
        );
    }

    /// The calls that make a path.
    fn making<const MCL: usize, const MCC: usize, const MPL: usize>(
        &self,
        name: &str,
        limits: Limits,
        slices: &[&[u8]],
        x: &Path<MCL, MCC, MPL>,
        p: PathRef<'_>,
    ) {
        let lengths = slices.iter().flat_map(|s| (s.len() as u64).to_le_bytes());
        let (lengths, bytes): (Vec<u8>, Vec<u8>) = (lengths.collect(), slices.concat());
        let mut out = vec![0; limits.longest_packed()];
        let from_slices = || Path::<MCL, MCC, MPL>::from_slices(black_box(slices));
        self.both(
            name,
            "from_slices",
            repeated!(construction::from_slices(
                *black_box(&limits),
                black_box(&lengths),
                black_box(&bytes),
                black_box(&mut out)
            )),
            repeated!(from_slices()),
        );
        self.both(
            name,
            "from_slices, slices gathered and answer allocated",
            repeated!(wotskrale::Path::from_slices(
                *black_box(&limits),
                black_box(slices)
            )),
            repeated!(from_slices()),
        );
        self.both(
            name,
            "successor",
            repeated!(least::successor(
                *black_box(&limits),
                *black_box(&p),
                black_box(&mut out)
            )),
            repeated!(black_box(x).successor()),
        );
        self.both(
            name,
            "greater_but_not_prefixed",
            repeated!(least::greater_but_not_prefixed(
                *black_box(&limits),
                *black_box(&p),
                black_box(&mut out)
            )),
            repeated!(black_box(x).greater_but_not_prefixed()),
        );
        if MCL * MCC >= MPL {
            self.both(
                name,
                "new_max",
                repeated!(least::new_max(*black_box(&limits), black_box(&mut out))),
                repeated!(Path::<MCL, MCC, MPL>::new_max()),
            );
        }
        self.both(
            name,
            "builder, from start to path",
            repeated!(built(*black_box(&limits), black_box(slices), &mut out)),
            repeated!(built_by_the_rust::<MCL, MCC, MPL>(black_box(slices))),
        );
    }
}

/// A path put together in a lent buffer: how many bytes it has.
fn built(limits: Limits, slices: &[&[u8]], out: &mut [u8]) -> u64 {
    let length = slices.iter().map(|s| s.len() as u64).sum();
    let mut state = plain::builder_new(limits, length, slices.len() as u64, out).state;
    for slice in slices {
        state = plain::builder_append_component(state, out, slice).state;
    }
    plain::builder_build(state, out).value
}

fn built_by_the_rust<const MCL: usize, const MCC: usize, const MPL: usize>(
    slices: &[&[u8]],
) -> Path<MCL, MCC, MPL> {
    let length = slices.iter().map(|s| s.len()).sum();
    let mut builder = PathBuilder::new(length, slices.len()).unwrap();
    for slice in slices {
        builder.append_component(Component::new(slice).unwrap());
    }
    builder.build()
}
