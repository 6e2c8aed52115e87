//! The paths that are compared: all of a small alphabet at tiny limits, and random ones around the edges.

use crate::damage;
use crate::inputs::{lists, strings, Random};
use crate::model::{pack, show};
use crate::sides::{self, View};
use crate::tally::{Input, Tally};
use crate::theirs::Set;

/// All paths of the alphabet, and all components and lists that pass a limit by one. Pairs are of cut paths too, where that
/// stays small.
pub fn exhaustive(set: &dyn Set, whole_run: bool, t: &mut Tally) {
    let limits = set.limits();
    let (mcl, mcc, mpl) = (
        limits.mcl as usize,
        limits.mcc as usize,
        limits.mpl as usize,
    );
    let paths = lists(mcl, mcc, mpl);
    let whole: Vec<View> = paths.iter().filter_map(|p| View::new(set, p)).collect();
    let cut = |v| {
        (0..=View::count(v))
            .filter_map(|n| v.cut(n))
            .collect::<Vec<_>>()
    };
    let views: Vec<View> = whole.iter().flat_map(cut).collect();
    sides::bare(set, t);
    for view in &views {
        view.one(t);
    }
    let pairs = if views.len() <= 300 { &views } else { &whole };
    for a in pairs {
        for b in pairs.iter().step_by(if whole_run { 1 } else { 7 }) {
            a.two(b, t);
        }
    }
    let components = strings(mcl + 1);
    let few = lists(mcl.min(1) + 1, 2, 2);
    for view in views.iter().step_by(if whole_run { 1 } else { 11 }) {
        for component in &components {
            view.extend(component, t);
        }
        for more in &few {
            view.extend_by(more, t);
        }
    }
    let around = lists(mcl + 1, mcc + 1, mpl + 1);
    for parts in around.iter().step_by(if whole_run { 1 } else { 11 }) {
        sides::make(set, parts, t);
    }
    for path in paths.iter().step_by(if whole_run { 5 } else { 37 }) {
        damage::around(limits, &pack(path), 1, t);
    }
}

/// Random paths near the limits, each with one that is nearly the same.
pub fn random(set: &dyn Set, turns: usize, random: &mut Random, t: &mut Tally) {
    let limits = set.limits();
    sides::bare(set, t);
    for turn in 0..turns {
        let path = random.path(limits);
        let other = match random.below(8) {
            0 => random.path(limits),
            _ => random.beside(limits, &path),
        };
        let (Some(a), Some(b)) = (View::new(set, &path), View::new(set, &other)) else {
            // Both are within the limits, so the Rust makes both.
            t.same("random inputs", false, || {
                Input::new(limits, 0, format!("{} or {}", show(&path), show(&other)))
            });
            continue;
        };
        let (a, b) = (perhaps_cut(a, random), perhaps_cut(b, random));
        a.one(t);
        a.two(&b, t);
        b.two(&a, t);
        a.two(&a, t);
        let around = random.around(limits);
        sides::make(set, &around, t);
        a.extend(around.last().map_or(&[], |p| p), t);
        a.extend_by(
            &around[around.len() - random.below(around.len().min(3) + 1)..],
            t,
        );
        let packed = pack(&path);
        if turn % 16 == 0 {
            damage::around(limits, &packed, packed.len() / 24, t);
        }
        let noise: Vec<u8> = (0..random.below(40))
            .map(|_| random.next() as u8 & 3)
            .collect();
        damage::lent(limits, &noise, random.below(3) as u64, t);
        damage::lengths(limits, &noise, &packed[..random.below(packed.len())], t);
        let wraps = [u64::MAX, 1, noise.len() as u64]
            .into_iter()
            .flat_map(u64::to_le_bytes);
        damage::lengths(limits, &wraps.collect::<Vec<u8>>(), &noise, t);
    }
}

fn perhaps_cut<'s>(view: View<'s>, random: &mut Random) -> View<'s> {
    match random.below(3) {
        0 => view
            .cut(random.below(view.count() as usize + 1) as u64)
            .unwrap_or(view),
        _ => view,
    }
}
