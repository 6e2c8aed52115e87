//! Cases of the documents, refusals, and buffers that have to stay as they were.

use std::cmp::Ordering;

use wotskrale::{
    construction, least, plain, reading, relation, writing, Area, AreaMap, AreaSubspace, Limits,
    Path, PathBuilder, PathRef, Range, Range3d, RangeEnd, Refusal,
};

fn path(limits: Limits, components: Components) -> Path {
    Path::from_slices(limits, components).expect("a path within the limits")
}

type Components<'a> = &'a [&'a [u8]];

#[test]
fn the_marked_cases_of_least_paths() {
    let cases: [(Limits, bool, Components, Option<Components>); 6] = [
        (Limits::new(2, 1, 2), true, &[&[1, 255]], Some(&[&[2]])),
        (Limits::new(2, 2, 3), true, &[], Some(&[&[]])),
        (Limits::new(2, 2, 3), true, &[&[1]], Some(&[&[1], &[]])),
        (
            Limits::new(3, 2, 3),
            false,
            &[&[1, 255], &[255]],
            Some(&[&[1, 255, 0]]),
        ),
        (Limits::new(2, 2, 2), false, &[&[255, 255], &[]], None),
        (Limits::new(2, 2, 3), false, &[&[1]], Some(&[&[1, 0]])),
    ];
    for (limits, successor, from, to) in cases {
        let from = path(limits, from);
        let got = match successor {
            true => from.lent().successor(limits),
            false => from.lent().greater_but_not_prefixed(limits),
        };
        assert_eq!(got, Ok(to.map(|to| path(limits, to))));
    }
}

#[test]
fn the_marked_cases_of_construction() {
    let limits = Limits::new(2, 1, 3);
    let too_long = Path::from_slices(limits, &[&[1, 1], &[1, 1]]);
    assert_eq!(too_long, Err(Refusal::PathTooLong));
    let too_many = Path::from_slices(limits, &[&[1], &[1]]);
    assert_eq!(too_many, Err(Refusal::TooManyComponents));
    assert!(Path::new_empty(Limits::new(1024, 1024, 4096)).is_ok());
    for over in [
        Limits::new(1025, 0, 0),
        Limits::new(0, 1025, 0),
        Limits::new(0, 0, 4097),
    ] {
        assert_eq!(Path::new_empty(over), Err(Refusal::BadLimits));
    }
}

#[test]
fn a_wrong_total_and_wrong_lengths_are_bad_lengths() {
    let limits = Limits::new(2, 2, 3);
    let parts: [&[u8]; 2] = [&[1], &[2]];
    assert!(Path::new_from_iter(limits, 2, parts).is_ok());
    assert_eq!(
        Path::new_from_iter(limits, 3, parts),
        Err(Refusal::BadLengths)
    );
    let mut out = [0; 27];
    let odd = construction::from_slices(limits, &[0; 9], &[], &mut out);
    assert_eq!(odd, Err(Refusal::BadLengths));
}

#[test]
fn refusals_and_none_leave_the_buffer_as_it_was() {
    let limits = Limits::new(2, 2, 3);
    let p = path(limits, &[&[1], &[2]]);
    let mut out = [0xee; 40];
    assert_eq!(
        writing::write_component(limits, p.lent(), 2, &mut out),
        Ok(None)
    );
    assert_eq!(
        least::successor(limits, PathRef::new(&[1], 0), &mut out),
        Err(Refusal::BadPath)
    );
    let long = construction::append(limits, p.lent(), &[3], &mut out);
    assert_eq!(long, Err(Refusal::TooManyComponents));
    let short = writing::write_prefix(limits, p.lent(), 2, &mut out[..25]);
    assert_eq!(short, Err(Refusal::OutTooSmall));
    assert_eq!(out, [0xee; 40]);
    let common = writing::write_longest_common_prefix(limits, p.lent(), p.lent(), &mut out);
    assert_eq!(common, Ok(26));
    assert_eq!(&out[..26], p.bytes());
    assert_eq!(out[26..], [0xee; 14]);
}

#[test]
fn relations_and_readings() {
    let limits = Limits::new(2, 2, 3);
    let (a, b) = (path(limits, &[&[1]]), path(limits, &[&[1], &[]]));
    assert_eq!(a.lent().compare(limits, b.lent()), Ok(Ordering::Less));
    assert_eq!(b.lent().compare(limits, a.lent()), Ok(Ordering::Greater));
    assert_eq!(a.lent().compare(limits, a.lent()), Ok(Ordering::Equal));
    assert_eq!(a.lent().is_prefix_of(limits, b.lent()), Ok(true));
    assert_eq!(a.lent().is_prefixed_by(limits, b.lent()), Ok(false));
    assert_eq!(a.lent().is_related(limits, b.lent()), Ok(true));
    assert_eq!(relation::equal(limits, a.lent(), b.lent()), Ok(false));
    let common = b
        .lent()
        .longest_common_prefix(limits, a.lent())
        .expect("two paths");
    assert_eq!(common.to_path(limits), Ok(a.clone()));
    assert_eq!(reading::component_length(limits, a.lent(), 0), Ok(Some(1)));
    assert_eq!(b.lent().components(limits), Ok(vec![vec![1], vec![]]));
    assert_eq!(a.lent().append_slice(limits, &[&[]]), Ok(b.clone()));
    assert_eq!(a.lent().append(limits, &[]), Ok(b.clone()));
    assert_eq!(Path::new_singleton(limits, &[1]), Ok(a.clone()));
    assert_eq!(a.lent().singleton_range(limits), Ok(Some(b)));
}

#[test]
fn the_marked_cases_of_the_greatest_path() {
    let cases: [(Limits, Components); 3] = [
        (Limits::new(4, 2, 6), &[&[255; 4], &[255; 2]]),
        (Limits::new(1, 2, 5), &[&[255], &[255]]),
        (Limits::new(3, 0, 7), &[]),
    ];
    for (limits, components) in cases {
        assert_eq!(Path::new_max(limits), Ok(path(limits, components)));
    }
}

#[test]
fn the_marked_cases_of_ranges_and_areas() {
    let open = Range::new_open(9);
    let touching = Range::new(3, RangeEnd::Closed(9));
    assert_eq!(touching.intersection(open), Ok(None));
    let meeting = Range::new(3, RangeEnd::Closed(10)).intersection(open);
    assert_eq!(meeting, Ok(Some(Range::new(9, RangeEnd::Closed(10)))));
    let limits = Limits::new(2, 2, 3);
    let (base, end) = (path(limits, &[&[1]]), path(limits, &[&[1, 0]]));
    let mut out = [0xee; 27];
    let area = Area::new(AreaSubspace::Any, base.lent(), Range::FULL);
    let range = Range3d::from_area(limits, area, &mut out).expect("an area");
    let found = range.paths.get_end().map(|end| end.to_path(limits));
    assert_eq!(found, Some(Ok(end)));
    let mut short = [0; 17];
    let refused = Range3d::from_area(limits, area, &mut short).map(|_| ());
    assert_eq!(refused, Err(Refusal::OutTooSmall));
}

#[test]
fn kinds_that_are_neither_are_refused() {
    let end = plain::End { kind: 2, end: 0 };
    let range = plain::Range { start: 0, end };
    assert_eq!(plain::range_is_open(range).status, 3);
    let area = plain::Area {
        times: range,
        ..Area::new_full().into()
    };
    let mut map = AreaMap::fresh(Limits::new(1, 1, 1), 1).expect("sizes within the bounds");
    let before = map.bytes().to_vec();
    let mut sheet = before.clone();
    assert_eq!(plain::map_insert(&mut sheet, area, 1).status, 3);
    assert_eq!(sheet, before);
    assert_eq!(plain::map_insert(&mut sheet[1..], area, 1).status, 2);
    assert_eq!(map.insert(Area::new_full(), 1), Ok(0));
}

#[test]
fn a_builder_in_a_lent_buffer_leaves_what_is_behind() {
    let limits = Limits::new(2, 2, 3);
    let mut buffer = [0xee; 30];
    let mut builder =
        PathBuilder::in_buffer(limits, 3, 2, &mut buffer[..]).expect("room for the path");
    assert_eq!(
        builder.append_component(&[1, 2, 3]),
        Err(Refusal::ComponentTooLong)
    );
    assert_eq!(builder.append_component(&[1, 2]), Ok(()));
    assert_eq!(builder.append_component(&[3]), Ok(()));
    assert_eq!(builder.build(), Ok(path(limits, &[&[1, 2], &[3]])));
    assert_eq!(buffer[27..], [0xee; 3]);
    let short = PathBuilder::in_buffer(limits, 3, 2, &mut buffer[..26]);
    assert_eq!(short.err(), Some(Refusal::OutTooSmall));
}

#[cfg(feature = "store")]
#[test]
fn offers_that_are_refused_leave_the_store_as_it_was() {
    use wotskrale::{Entry, Offered, Store};

    let limits = Limits::new(1, 1, 1);
    let p = path(limits, &[&[1]]);
    let q = path(limits, &[&[2]]);
    let entry = Entry {
        namespace: 3,
        subspace: 0,
        path: p.lent(),
        timestamp: 1,
        payload_length: u64::MAX,
        digest: [0; 32],
    };
    let mut store = Store::fresh(limits, 1, 3).expect("sizes within the bounds");
    assert_eq!(store.offer(&entry), Ok(Offered::Taken(0)));
    let before = store.bytes().to_vec();
    for (offer, refusal) in [
        (
            Entry {
                namespace: 4,
                ..entry
            },
            Refusal::WrongNamespace,
        ),
        (
            Entry {
                path: PathRef::new(p.bytes(), 2),
                ..entry
            },
            Refusal::BadPath,
        ),
        (entry, Refusal::TotalFull),
        (
            Entry {
                path: q.lent(),
                payload_length: 0,
                ..entry
            },
            Refusal::NoRoom,
        ),
    ] {
        assert_eq!(store.offer(&offer), Err(refusal));
        assert_eq!(store.bytes(), before);
    }
    assert_eq!(store.entry_path(0), Ok(Some(p)));
    assert_eq!(store.entry_path(1), Ok(None));
}

#[test]
fn numbers_of_refusals() {
    for (i, refusal) in Refusal::NAMED.into_iter().enumerate() {
        assert_eq!(refusal.number(), i as u64 + 1);
        assert_eq!(Refusal::from_number(refusal.number()), refusal);
    }
    assert_eq!(Refusal::from_number(16).number(), 16);
}
