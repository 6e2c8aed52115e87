//! That the supplied files run: one question to each of them.

use oracle::{Area, AreaOfInterest, AreaSubspace, Entry, Path, Range, Range3d, RangeEnd};

type P = Path<2, 2, 3>;

#[test]
fn paths() {
    let path = P::from_slices(&[[1]]).unwrap();
    assert_eq!(
        path.successor(),
        Some(P::from_slices(&[&[1][..], &[]]).unwrap())
    );
    assert_eq!(
        path.greater_but_not_prefixed(),
        Some(P::from_slices(&[[1, 0]]).unwrap())
    );
}

#[test]
fn groupings() {
    let (low, high) = (Range::new(3, RangeEnd::Closed(10)), Range::new_open(9));
    assert_eq!(
        low.intersection(&high),
        Some(Range::new(9, RangeEnd::Closed(10)))
    );
    let path = P::from_slices(&[[1]]).unwrap();
    let area = Area::new(AreaSubspace::Id(u64::MAX), path.clone(), low);
    assert!(area.includes_triplet(&u64::MAX, &path, 3));
    let interest = AreaOfInterest::from(area.clone());
    assert_eq!(interest.intersection(&interest), Some(interest.clone()));
    let range = Range3d::from(area);
    assert_eq!(range.subspaces(), &Range::new_open(u64::MAX));
}

#[test]
fn entries() {
    let path = P::from_slices(&[[1]]).unwrap();
    let new = Entry::new(0u64, 0u64, P::new_empty(), 6, 1, [0u8; 32]);
    let old = Entry::new(0u64, 0u64, path, 5, 10, [0u8; 32]);
    assert!(new.prunes(&old) && !old.prunes(&new));
}
