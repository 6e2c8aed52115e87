//! Ours against all paths that there are, of all bytes, at limits so small that they can be listed: what is meant by the least
//! path above, the greatest path and an area's triplets, with no rule in between.

use std::cmp::Ordering;

use wotskrale::{
    least, relation, AreaSubspace, Limits, PathRef, Range, Range3d, RangeEnd, Refusal,
};

use crate::groups::{Area, Lent};
use crate::model::{pack, show, Parts};
use crate::sides::{ours, shown};
use crate::tally::{Input, Tally};
use crate::theirs::Made;

/// All paths, in order.
fn all(limits: Limits) -> Vec<Parts> {
    let mut components: Vec<Vec<u8>> = vec![Vec::new()];
    let mut from = 0;
    for _ in 0..limits.mcl.min(limits.mpl) {
        let to = components.len();
        for i in from..to {
            for byte in 0..=255 {
                let longer = [&components[i][..], &[byte]].concat();
                components.push(longer);
            }
        }
        from = to;
    }
    let mut paths = vec![Parts::new()];
    let mut from = 0;
    for _ in 0..limits.mcc {
        let to = paths.len();
        for i in from..to {
            let left = limits.mpl as usize - crate::model::total(&paths[i]);
            for component in components.iter().filter(|c| c.len() <= left) {
                let longer = [&paths[i][..], std::slice::from_ref(component)].concat();
                paths.push(longer);
            }
        }
        from = to;
    }
    paths.sort();
    paths
}

/// The least paths above each path, the greatest of all, and the order of neighbours.
pub fn paths(limits: Limits, t: &mut Tally) {
    let all = all(limits);
    let longest = limits.longest_packed();
    let made = |path: Option<&Parts>| path.map_or(Made::Nothing, |p| Made::Bytes(pack(p)));
    for (i, path) in all.iter().enumerate() {
        let packed = pack(path);
        let lent = PathRef::whole(&packed);
        let above = &all[i + 1..];
        let below = above.partition_point(|q| q.starts_with(path));
        let mut same = |call, now: Made, model: Made| {
            t.same(call, now == model, || {
                let text = format!(
                    "{}: ours {}, meant {}",
                    show(path),
                    shown(&now),
                    shown(&model)
                );
                Input::new(limits, packed.len(), text)
            });
        };
        let now = ours(longest, |out| least::successor(limits, lent, out));
        same("meaning: successor", now, made(above.first()));
        let now = ours(longest, |out| least::singleton_range(limits, lent, out));
        same("meaning: singleton_range", now, made(above.first()));
        let now = ours(longest, |out| {
            least::greater_but_not_prefixed(limits, lent, out)
        });
        same("meaning: next greater", now, made(above.get(below)));
        if let Some(next) = above.first() {
            let next = pack(next);
            let now = relation::compare(limits, lent, PathRef::whole(&next));
            t.same("meaning: compare", now == Ok(Ordering::Less), || {
                Input::new(limits, packed.len(), format!("{}: {now:?}", show(path)))
            });
        }
    }
    let now = ours(longest, |out| least::new_max(limits, out).map(Some));
    t.same("meaning: new_max", now == made(all.last()), || {
        Input::new(limits, 0, format!("ours {}", shown(&now)))
    });
}

/// Whether an area includes a triplet, by what the words mean: its subspace is any or that one, the triplet's path begins with
/// the area's components, and its time is not before the start and before the end, where there is one.
fn includes(area: &Area, subspace: u64, path: &Parts, time: u64) -> bool {
    let subspaces = match area.subspace {
        AreaSubspace::Any => true,
        AreaSubspace::Id(id) => id == subspace,
    };
    let before_the_end = match area.times.end {
        RangeEnd::Open => true,
        RangeEnd::Closed(end) => time < end,
    };
    let below = path.starts_with(&area.path.parts);
    subspaces && below && area.times.start <= time && before_the_end
}

/// In how many turns there is each of three things with each of five.
const TURNS: usize = 15;

/// An area and the 3d range made of it include the triplets that are meant. Where there are few paths, every area and triplet of
/// these subspaces and times is taken; else each path takes the next of them.
pub fn triplets(limits: Limits, t: &mut Tally) {
    let all: Vec<Lent> = all(limits).into_iter().map(Lent::new).collect();
    let turns = if all.len() < 20 { TURNS } else { 1 };
    let kinds = [
        AreaSubspace::Any,
        AreaSubspace::Id(1),
        AreaSubspace::Id(u64::MAX),
    ];
    let times = [
        Range::new(0, RangeEnd::Closed(2)),
        Range::new(1, RangeEnd::Closed(2)),
        Range::new(0, RangeEnd::Open),
        Range::new(1, RangeEnd::Open),
        Range::new(2, RangeEnd::Closed(1)),
    ];
    for (at, path) in all.iter().enumerate() {
        for turn in at..at + turns {
            let area = Area {
                subspace: kinds[turn % 3],
                path: path.clone(),
                times: times[turn % 5],
            };
            triplets_of(limits, &area, &all, turns, t);
        }
    }
}

/// One area and all paths.
fn triplets_of(limits: Limits, area: &Area, all: &[Lent], turns: usize, t: &mut Tally) {
    let mut out = vec![0; limits.longest_packed()];
    let Ok(range) = Range3d::from_area(limits, area.ours(), &mut out) else {
        return t.same("meaning: area to 3d range", false, || {
            Input::new(limits, 0, format!("{} refused", area.show()))
        });
    };
    let subspaces = [0, 1, 2, u64::MAX - 1, u64::MAX];
    let own = match area.subspace {
        AreaSubspace::Any => 1,
        AreaSubspace::Id(id) => id,
    };
    for (at, path) in all.iter().enumerate() {
        let asked = (at..at + turns).map(|turn| (subspaces[turn % 5], turn as u64 % 3));
        for (subspace, time) in asked.chain([(own, 1)]) {
            let meant = includes(area, subspace, &path.parts, time);
            let input = |now: Result<bool, Refusal>| {
                let what = format!("{} at {subspace} {} {time}", area.show(), path.show());
                let weight = area.path.weight() + path.weight();
                Input::new(limits, weight, format!("{what}: {now:?}, meant {meant}"))
            };
            let lent = path.lent();
            let now = area.ours().includes_triplet(limits, subspace, lent, time);
            t.same("meaning: area", now == Ok(meant), || input(now));
            let now = range.includes_triplet(limits, subspace, lent, time);
            t.same("meaning: area to 3d range", now == Ok(meant), || input(now));
        }
    }
}
