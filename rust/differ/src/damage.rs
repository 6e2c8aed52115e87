//! Ours alone: lent memory that is not what it should be, against the model of the packed form.

use wotskrale::{construction, least, reading, relation, writing, Limits, PathRef, Refusal};

use crate::guard::Guarded;
use crate::model::{pack, read, total};
use crate::sides::ours;
use crate::tally::{Input, Tally};
use crate::theirs::Made;

/// A sound path to stand beside a damaged one.
const EMPTY: [u8; 8] = [0; 8];

/// What every call says to a lent path that may be damaged. It is lent in a buffer of its own, so that a read or a write behind
/// it is seen, and it has to stay as it is.
pub fn lent(limits: Limits, buffer: &[u8], count: u64, t: &mut Tally) {
    let guarded = Guarded::of(buffer);
    let expected = match read(limits, buffer, count) {
        _ if !limits.within_bounds() => Err(Refusal::BadLimits),
        None => Err(Refusal::BadPath),
        Some(parts) => Ok(parts),
    };
    let path = PathRef::new(guarded.lent(), count);
    let input = |call: &str, said: String| {
        let text = format!("{call} of {buffer:02x?} with count {count}: {said}");
        Input::new(limits, buffer.len(), text)
    };
    let tested = reading::test(limits, path);
    let model = expected.as_ref().map(|_| ()).map_err(|r| *r);
    t.same("damaged: test", tested == model, || {
        input("test", format!("{tested:?}"))
    });
    match expected {
        Err(refusal) => refused(limits, path, refusal, t, &input),
        Ok(parts) => {
            let length = reading::path_length(limits, path);
            let same = length == Ok(total(&parts) as u64);
            t.same("damaged: still a path", same, || {
                input("path_length", format!("{length:?}"))
            });
            let made = ours(limits.longest_packed(), |out| {
                writing::write_prefix(limits, path, count, out)
            });
            let same = made == Made::Bytes(pack(&parts));
            t.same("damaged: still a path", same, || {
                input("write_prefix", format!("{made:?}"))
            });
        }
    }
    t.same("damaged: lent stays", guarded.holds(buffer), || {
        input("some call", format!("left {:02x?}", guarded.lent()))
    });
}

/// Every call refuses with this number and leaves its buffer alone, whatever else is wrong.
fn refused(
    limits: Limits,
    path: PathRef<'_>,
    refusal: Refusal,
    t: &mut Tally,
    input: &dyn Fn(&str, String) -> Input,
) {
    let empty = Guarded::of(&EMPTY);
    let sound = PathRef::new(empty.lent(), 0);
    let (over, three) = (Guarded::of(&[0; 2000]), Guarded::of(&[1, 2, 3]));
    let read = [
        (
            "component_count",
            reading::component_count(limits, path).map(|_| ()),
        ),
        ("is_empty", reading::is_empty(limits, path).map(|_| ())),
        (
            "path_length",
            reading::path_length(limits, path).map(|_| ()),
        ),
        (
            "path_length_of_prefix",
            reading::path_length_of_prefix(limits, path, 0).map(|_| ()),
        ),
        (
            "create_prefix",
            reading::create_prefix(limits, path, 0).map(|_| ()),
        ),
        (
            "component_length",
            reading::component_length(limits, path, 0).map(|_| ()),
        ),
        (
            "compare",
            relation::compare(limits, path, sound).map(|_| ()),
        ),
        (
            "compare, second",
            relation::compare(limits, sound, path).map(|_| ()),
        ),
        ("equal", relation::equal(limits, path, sound).map(|_| ())),
        (
            "equal, second",
            relation::equal(limits, sound, path).map(|_| ()),
        ),
        (
            "is_prefix_of",
            relation::is_prefix_of(limits, path, sound).map(|_| ()),
        ),
        (
            "is_prefix_of, second",
            relation::is_prefix_of(limits, sound, path).map(|_| ()),
        ),
        (
            "is_prefixed_by",
            relation::is_prefixed_by(limits, path, sound).map(|_| ()),
        ),
        (
            "is_prefixed_by, second",
            relation::is_prefixed_by(limits, sound, path).map(|_| ()),
        ),
        (
            "is_related",
            relation::is_related(limits, path, sound).map(|_| ()),
        ),
        (
            "is_related, second",
            relation::is_related(limits, sound, path).map(|_| ()),
        ),
        (
            "common",
            relation::longest_common_prefix(limits, path, sound).map(|_| ()),
        ),
        (
            "common, second",
            relation::longest_common_prefix(limits, sound, path).map(|_| ()),
        ),
    ];
    for (call, answer) in read {
        let same = answer == Err(refusal);
        t.same("damaged: read", same, || input(call, format!("{answer:?}")));
    }
    let longest = Limits::BOUNDS.longest_packed().min(200);
    type Write<'a> = &'a dyn Fn(&mut [u8]) -> Result<Option<usize>, Refusal>;
    let write: [(&str, Write); 9] = [
        ("write_component", &|out| {
            writing::write_component(limits, path, 0, out)
        }),
        ("write_prefix", &|out| {
            writing::write_prefix(limits, path, 0, out)
        }),
        ("write common", &|out| {
            writing::write_longest_common_prefix(limits, path, sound, out).map(Some)
        }),
        ("write common, second", &|out| {
            writing::write_longest_common_prefix(limits, sound, path, out).map(Some)
        }),
        ("append", &|out| {
            construction::append(limits, path, over.lent(), out).map(Some)
        }),
        ("append_slice", &|out| {
            construction::append_slice(limits, path, three.lent(), over.lent(), out).map(Some)
        }),
        ("successor", &|out| least::successor(limits, path, out)),
        ("greater_but_not_prefixed", &|out| {
            least::greater_but_not_prefixed(limits, path, out)
        }),
        ("singleton_range", &|out| {
            least::singleton_range(limits, path, out)
        }),
    ];
    for (call, run) in write {
        let made = ours(longest, run);
        let same = made == Made::Refused(refusal.number());
        t.same("damaged: write", same, || input(call, format!("{made:?}")));
    }
    let same = empty.holds(&EMPTY) && over.holds(&[0; 2000]) && three.holds(&[1, 2, 3]);
    t.same("damaged: lent stays", same, || {
        input("some call", "changed what stands beside".to_string())
    });
}

/// A packed path with its bytes changed one at a time, cut, extended, and with other counts. `step` skips bytes of long ones.
pub fn around(limits: Limits, packed: &[u8], step: usize, t: &mut Tally) {
    let count = PathRef::whole(packed).count();
    for at in (0..packed.len()).step_by(step.max(1)) {
        let old = packed[at];
        for new in [
            old ^ 1,
            old ^ 0x80,
            old.wrapping_add(1),
            old.wrapping_sub(1),
            0,
            0xff,
        ] {
            if new != old {
                let mut buffer = packed.to_vec();
                buffer[at] = new;
                lent(limits, &buffer, count, t);
                lent(limits, &buffer, PathRef::whole(&buffer).count(), t);
            }
        }
    }
    for cut in (0..packed.len()).step_by(step.max(1)) {
        lent(limits, &packed[..cut], count, t);
        lent(limits, &packed[..cut], 0, t);
    }
    for more in [1, 7, 8, 9] {
        let mut buffer = packed.to_vec();
        buffer.resize(packed.len() + more, 0);
        lent(limits, &buffer, count, t);
    }
    for wrong in [count + 1, count + 2, 1 << 32, 1 << 61, 1 << 63, u64::MAX] {
        lent(limits, packed, wrong, t);
    }
}

/// Limits over the bounds are refused first, whatever else is wrong.
pub fn limits_over(t: &mut Tally) {
    for over in [1, 2, 1 << 32, u64::MAX - 4096] {
        for limits in [
            Limits::new(1024 + over, 2, 3),
            Limits::new(2, 1024 + over, 3),
            Limits::new(2, 2, 4096 + over),
        ] {
            for buffer in [&EMPTY[..], &[], &[1; 30]] {
                lent(limits, buffer, 0, t);
                lent(limits, buffer, u64::MAX, t);
            }
            lengths(limits, &[0; 9], &[0; 3], t);
        }
    }
}

/// Lengths that do not add up to the bytes lent with them.
pub fn lengths(limits: Limits, lengths: &[u8], bytes: &[u8], t: &mut Tally) {
    let numbers = lengths
        .chunks(8)
        .map(|n| n.try_into().map(u64::from_le_bytes));
    let sum: Result<u128, _> = numbers.map(|n| n.map(u128::from)).sum();
    if limits.within_bounds() && sum.ok() == Some(bytes.len() as u128) {
        return;
    }
    let number = if limits.within_bounds() { 6 } else { 1 };
    let all = [&EMPTY, lengths, bytes];
    let guarded = all.map(Guarded::of);
    let [empty, numbers, parts] = guarded.each_ref().map(Guarded::lent);
    let sound = PathRef::new(empty, 0);
    let total = bytes.len() as u64;
    type Write<'a> = &'a dyn Fn(&mut [u8]) -> Result<Option<usize>, Refusal>;
    let calls: [(&str, Write); 3] = [
        ("from_slices", &|out| {
            construction::from_slices(limits, numbers, parts, out).map(Some)
        }),
        ("new_from_iter", &|out| {
            construction::new_from_iter(limits, total, numbers, parts, out).map(Some)
        }),
        ("append_slice", &|out| {
            construction::append_slice(limits, sound, numbers, parts, out).map(Some)
        }),
    ];
    let input = |said: String| {
        let text = format!("lengths {lengths:02x?}, bytes {bytes:02x?}: {said}");
        Input::new(limits, lengths.len() + bytes.len(), text)
    };
    for (call, run) in calls {
        let made = ours(200, run);
        t.same("damaged: lengths", made == Made::Refused(number), || {
            input(format!("{call}: {made:?}"))
        });
    }
    let same = guarded.iter().zip(all).all(|(g, lent)| g.holds(lent));
    t.same("damaged: lent stays", same, || {
        input("changed by some call".to_string())
    });
}
