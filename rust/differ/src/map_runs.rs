//! Area maps: ours against the plain model in every byte, and against the Rust's values as multisets.

use wotskrale::plain::{self, Answer, RuleAnswer};
use wotskrale::{AreaMap, AreaSubspace, Limits, PathRef, Range, RangeEnd, Refusal, MAX_CAPACITY};

use crate::grouping::number;
use crate::groups::{Area, Lent};
use crate::guard::Guarded;
use crate::inputs::Random;
use crate::model::{self, pack, show};
use crate::sheets::{changed, Map, Rule};
use crate::sides::{allocated, ours, owned};
use crate::tally::{Input, Tally};
use crate::their_groups::Groups;
use crate::theirs::Made;

/// Bytes behind the sheet that have to stay.
const BEHIND: usize = 9;

fn refused(number: u64) -> Answer {
    Answer {
        status: number,
        value: 0,
    }
}

fn as_rule(area: &Area, value: u64) -> Rule {
    Rule {
        subspace: area.subspace,
        path: area.path.parts.clone(),
        times: area.times,
        value,
    }
}

fn input(map: &Map, said: String) -> Input {
    let rules: Vec<String> = map
        .rules
        .iter()
        .map(|r| format!("{:?} {} {:?}", r.subspace, show(&r.path), r.times))
        .collect();
    let text = format!("map for {} of {rules:?}: {said}", map.capacity);
    Input::new(map.limits, map.rules.len() * 100 + map.layout().len(), text)
}

/// A map made fresh in a buffer of each length around its own, which it reads nothing of.
pub fn fresh(limits: Limits, capacity: u64, t: &mut Tally) -> Guarded {
    let map = Map {
        limits,
        capacity,
        rules: Vec::new(),
    };
    let sheet = map.layout();
    let made = ours(sheet.len(), |out| {
        let answer = plain::map_fresh(limits, capacity, out);
        match answer.status {
            0 => Ok(Some(answer.value as usize)),
            number => Err(Refusal::from_number(number)),
        }
    });
    t.same("map: fresh", made == Made::Bytes(sheet.clone()), || {
        input(&map, "fresh".to_string())
    });
    let owned = AreaMap::fresh(limits, capacity).map(|m| m.bytes().to_vec());
    t.same("typed forms", owned == Ok(sheet.clone()), || {
        input(&map, "fresh, allocated".to_string())
    });
    Guarded::of(&[&sheet[..], &[0x5a; BEHIND]].concat())
}

/// An area as it is passed, with a number beside each kind 0, which is not to be read.
fn with_noise(area: &Area, noise: u64) -> plain::Area<'_> {
    let mut passed = plain::Area::from(area.ours());
    if passed.kind == 0 {
        passed.id = noise;
    }
    if passed.times.end.kind == 0 {
        passed.times.end.end = noise;
    }
    passed
}

/// Kinds that are neither and paths that are none: 3, then 5, and nothing is written.
fn wrong(map: &Map, sheet: &mut Guarded, area: &Area, random: &mut Random, t: &mut Tally) {
    let mut asked = with_noise(area, random.number());
    for kind in [&mut asked.kind, &mut asked.times.end.kind] {
        *kind = [*kind, *kind, 2, u64::MAX][random.below(4)];
    }
    let bad = random.below(2) == 0;
    if bad {
        asked.path = PathRef::new(asked.path.bytes(), u64::MAX);
    }
    let kinds = asked.kind > 1 || asked.times.end.kind > 1;
    let number = match (kinds, bad) {
        (true, _) => 3,
        (false, true) => 5,
        (false, false) => return,
    };
    let old = sheet.lent().to_vec();
    let now = plain::map_insert(sheet.lent_mut(), asked, 1);
    let same = now == refused(number) && sheet.holds(&old);
    t.same("map: insert", same, || {
        input(map, format!("insert {asked:?}: ours {now:?}"))
    });
    let now = listed(sheet.lent(), asked, map.rules.len());
    t.same("map: intersecting", now == Made::Refused(number), || {
        input(map, format!("listing of {asked:?}: ours {now:?}"))
    });
}

/// A rule inserted, and every byte compared.
pub fn insert(map: &mut Map, sheet: &mut Guarded, area: &Area, value: u64, t: &mut Tally) {
    let position = map.rules.len() as u64;
    let model = match position < map.capacity {
        true => number(position),
        false => refused(14),
    };
    let mut typed = AreaMap::lent(sheet.lent().to_vec());
    let said = typed.insert(area.ours(), value);
    let now = plain::map_insert(sheet.lent_mut(), with_noise(area, value), value);
    if model.status == 0 {
        map.rules.push(as_rule(area, value));
    }
    let content = [&map.layout()[..], &[0x5a; BEHIND]].concat();
    let same = now == model && sheet.holds(&content);
    t.same("map: insert", same, || {
        input(map, format!("insert {}: ours {now:?}", area.show()))
    });
    let model = match model.status {
        0 => Ok(model.value),
        number => Err(Refusal::from_number(number)),
    };
    let same = said == model && typed.bytes() == content;
    t.same("typed forms", same, || {
        input(map, format!("insert {}: typed {said:?}", area.show()))
    });
}

fn positions_bytes(positions: &[u64]) -> Vec<u8> {
    positions.iter().flat_map(|p| p.to_le_bytes()).collect()
}

/// What is listed of a map by ours: the positions as bytes, tried in buffers of several lengths.
fn listed(sheet: &[u8], area: plain::Area<'_>, rules: usize) -> Made {
    ours(8 * rules, |out| {
        let answer = plain::map_intersecting(sheet, area, out);
        match answer.status {
            0 => Ok(Some(8 * answer.value as usize)),
            number => Err(Refusal::from_number(number)),
        }
    })
}

/// A listing, and every rule read back.
pub fn ask(set: &dyn Groups, map: &Map, sheet: &Guarded, area: &Area, t: &mut Tally) {
    let asked = as_rule(area, 0);
    let positions = map.intersecting(&asked);
    let lent = sheet.lent();
    let now = listed(lent, with_noise(area, 9), map.rules.len());
    let same = now == Made::Bytes(positions_bytes(&positions));
    t.same("map: intersecting", same, || {
        input(map, format!("listing of {}: ours {now:?}", area.show()))
    });
    let typed = AreaMap::lent(lent).intersecting(area.ours());
    t.same("typed forms", typed.as_ref() == Ok(&positions), || {
        input(map, format!("listing of {}: {typed:?}", area.show()))
    });
    against_the_rust(set, map, &positions, area, t);
}

fn against_the_rust(set: &dyn Groups, map: &Map, positions: &[u64], area: &Area, t: &mut Tally) {
    let rules: Vec<(Area, u64)> = map
        .rules
        .iter()
        .map(|r| {
            let area = Area {
                subspace: r.subspace,
                path: Lent::new(r.path.clone()),
                times: r.times,
            };
            (area, r.value)
        })
        .collect();
    let (mut values, pairs) = set.map(&rules, area);
    let rule = |p: &u64| &map.rules[*p as usize];
    let mut mine: Vec<u64> = positions.iter().map(|p| rule(p).value).collect();
    values.sort_unstable();
    mine.sort_unstable();
    t.same("map: against the Rust's values", values == mine, || {
        input(
            map,
            format!("listing of {}: {mine:?}, Rust {values:?}", area.show()),
        )
    });
    let key = |(subspace, path, times, value): (AreaSubspace, Vec<Vec<u8>>, Range<u64>, u64)| {
        format!("{subspace:?} {path:?} {times:?} {value}")
    };
    let mut theirs: Vec<String> = pairs
        .into_iter()
        .map(|((s, p, r), v)| key((s, p, r, v)))
        .collect();
    let mut mine: Vec<String> = positions
        .iter()
        .map(rule)
        .map(|r| key((r.subspace, r.path.clone(), r.times, r.value)))
        .collect();
    theirs.sort();
    mine.sort();
    t.same("map: against the Rust's pairs", theirs == mine, || {
        input(map, format!("listing of {}", area.show()))
    });
}

/// A rule as the core should hand it back.
fn rule_answer(rule: Option<&Rule>) -> RuleAnswer {
    let end = rule.and_then(|r| r.times.get_end().copied());
    let id = rule.and_then(|r| match r.subspace {
        AreaSubspace::Any => None,
        AreaSubspace::Id(id) => Some(id),
    });
    RuleAnswer {
        status: if rule.is_some() { 0 } else { 255 },
        subspace_kind: u64::from(id.is_some()),
        subspace: id.unwrap_or(0),
        count: rule.map_or(0, |r| r.path.len() as u64),
        start: rule.map_or(0, |r| r.times.start),
        end_kind: u64::from(end.is_some()),
        end: end.unwrap_or(0),
        value: rule.map_or(0, |r| r.value),
    }
}

/// Everything that can be read of a map, and positions past the last.
pub fn read_back(map: &Map, sheet: &[u8], t: &mut Tally) {
    let now = (plain::map_test(sheet), plain::map_count(sheet));
    let same = now == (0, number(map.rules.len() as u64));
    t.same("map: test and count", same, || {
        input(map, format!("{now:?}"))
    });
    let typed = AreaMap::lent(sheet);
    let past = map.rules.len() as u64;
    let now = (typed.test(), typed.count());
    t.same("typed forms", now == (Ok(()), Ok(past)), || {
        input(map, format!("test and count: {now:?}"))
    });
    for i in (0..=past).chain([u64::MAX]) {
        let rule = map.rules.get(i as usize);
        let now = plain::map_rule(sheet, i);
        let same = now == rule_answer(rule);
        t.same("map: rule", same, || {
            input(map, format!("rule {i}: {now:?}"))
        });
        let path = ours(map.limits.longest_packed(), |out| {
            typed.write_rule_path(i, out)
        });
        let model = rule.map_or(Made::Nothing, |r| Made::Bytes(pack(&r.path)));
        t.same("map: rule_path", path == model, || {
            input(map, format!("path of rule {i}: {path:?}"))
        });
        let now = owned(typed.rule_path(i));
        allocated(t, "rule_path", now, &path, |said| input(map, said));
        let now = typed
            .rule(i)
            .map(|r| r.map(|r| (r.subspace, r.times, r.value, r.count)));
        let model = rule.map(|r| (r.subspace, r.times, r.value, r.path.len() as u64));
        t.same("typed forms", now == Ok(model), || {
            input(map, format!("{now:?}"))
        });
    }
}

/// Bytes that may be no map: every call against the model of the layout.
pub fn damaged(bytes: &[u8], area: &Area, t: &mut Tally) {
    let model = Map::read(bytes);
    let now = plain::map_test(Guarded::of(bytes).lent());
    let expected = if model.is_some() { 0 } else { 2 };
    t.same("damaged: map test", now == expected, || {
        Input::of_bytes(bytes, "test", format!("{now}"))
    });
    match model {
        Some(map) => still_a_map(map, bytes, area, t),
        None => no_map(bytes, area, t),
    }
}

/// Every call refuses with 2, whatever else is wrong, and nothing is written.
fn no_map(bytes: &[u8], area: &Area, t: &mut Tally) {
    let mut sheet = Guarded::of(bytes);
    let mut refuses = |call: &str, same: bool, said: String| {
        t.same("damaged: map calls", same, || {
            Input::of_bytes(bytes, call, said)
        });
    };
    let bad = plain::Area {
        kind: 7,
        id: 0,
        path: PathRef::new(&[1], 9),
        times: Range::new(0, RangeEnd::Open).into(),
    };
    for area in [area.ours().into(), bad] {
        let now = plain::map_insert(sheet.lent_mut(), area, 1);
        let same = now == refused(2) && sheet.holds(bytes);
        refuses("insert", same, format!("{now:?}"));
        let now = listed(sheet.lent(), area, 4);
        refuses("listing", now == Made::Refused(2), format!("{now:?}"));
    }
    let now = plain::map_count(sheet.lent());
    refuses("count", now == refused(2), format!("{now:?}"));
    let now = plain::map_rule(sheet.lent(), 0);
    let none = RuleAnswer {
        status: 2,
        ..rule_answer(None)
    };
    refuses("rule", now == none, format!("{now:?}"));
    let lent = AreaMap::lent(sheet.lent());
    let now = ours(60, |out| lent.write_rule_path(0, out));
    refuses("path", now == Made::Refused(2), format!("{now:?}"));
    let now = owned(lent.rule_path(0));
    refuses("path, typed", now == Made::Refused(2), format!("{now:?}"));
    let now = (lent.test(), lent.count(), lent.rule(0));
    let bad = Refusal::BadSheet;
    let same = now == (Err(bad), Err(bad), Err(bad));
    refuses("typed forms", same, format!("{now:?}"));
}

/// A map that was changed and is one all the same: read, listed and inserted into. The area's path may be none under its limits.
fn still_a_map(mut map: Map, bytes: &[u8], area: &Area, t: &mut Tally) {
    let mut sheet = Guarded::of(bytes);
    read_back(&map, sheet.lent(), t);
    let lent = area.path.lent();
    let readable = model::read(map.limits, lent.bytes(), lent.count()).is_some();
    let now = listed(sheet.lent(), area.ours().into(), map.rules.len());
    let expected = match readable {
        true => Made::Bytes(positions_bytes(&map.intersecting(&as_rule(area, 0)))),
        false => Made::Refused(5),
    };
    t.same("damaged: still a map", now == expected, || {
        Input::of_bytes(bytes, "listing", format!("{now:?}"))
    });
    let behind = bytes[map.layout().len()..].to_vec();
    let position = map.rules.len() as u64;
    let expected = match (readable, position < map.capacity) {
        (false, _) => refused(5),
        (true, false) => refused(14),
        (true, true) => number(position),
    };
    if expected.status == 0 {
        map.rules.push(as_rule(area, 3));
    }
    let now = plain::map_insert(sheet.lent_mut(), area.ours().into(), 3);
    let same = now == expected && sheet.holds(&[map.layout(), behind].concat());
    t.same("damaged: still a map", same, || {
        Input::of_bytes(bytes, "insert", format!("{now:?}"))
    });
}

/// A map of so many rules at the most, filled with one more and asked after each.
fn filled(
    set: &dyn Groups,
    (capacity, rules): (u64, usize),
    random: &mut Random,
    t: &mut Tally,
) -> (Map, Guarded) {
    let limits = set.limits();
    let mut sheet = fresh(limits, capacity, t);
    let mut map = Map {
        limits,
        capacity,
        rules: Vec::new(),
    };
    let base = random.lent(limits, None);
    for _ in 0..rules {
        let path = random.lent(limits, Some(&base.parts));
        let area = random.area(&path);
        let value = random.number();
        insert(&mut map, &mut sheet, &area, value, t);
        let path = random.lent(limits, Some(&base.parts));
        let asked = random.area(&path);
        ask(set, &map, &sheet, &asked, t);
        wrong(&map, &mut sheet, &asked, random, t);
    }
    read_back(&map, sheet.lent(), t);
    (map, sheet)
}

/// Maps of few rules; every sixty-fourth is damaged too.
pub fn random(set: &dyn Groups, turns: usize, random: &mut Random, t: &mut Tally) {
    let limits = set.limits();
    for turn in 0..turns {
        let capacity = random.below(6);
        let (map, _) = filled(set, (capacity as u64, capacity + 1), random, t);
        let sheet = map.layout();
        if turn % 64 == 0 && sheet.len() < 3000 {
            let path = random.lent(limits, map.rules.first().map(|r| &r.path));
            let area = random.area(&path);
            changed(&sheet, sheet.len() / 300, random, |bytes| {
                damaged(bytes, &area, t)
            });
        }
    }
}

/// The largest sheet that there is, and a map of many rules.
pub fn largest(bounds: &dyn Groups, small: &dyn Groups, random: &mut Random, t: &mut Tally) {
    filled(bounds, (MAX_CAPACITY, 2), random, t);
    filled(small, (MAX_CAPACITY, 200), random, t);
}

/// Capacities over the bound, and limits.
pub fn over(t: &mut Tally) {
    for (limits, capacity, status) in [
        (Limits::new(1, 1, 1), 4097, 1),
        (Limits::new(1025, 1, 1), 1, 1),
        (Limits::new(1, 1025, 1), 1, 1),
        (Limits::new(1, 1, 4097), 1, 1),
        (Limits::new(1, 1, 1), u64::MAX, 1),
        (Limits::new(1, 1, 1), 4096, 15),
    ] {
        let mut out = Guarded::new(100);
        let now = plain::map_fresh(limits, capacity, out.lent_mut());
        let same = now == refused(status) && out.holds(&out.as_made());
        t.same("map: fresh", same, || {
            Input::new(limits, 0, format!("fresh for {capacity}: {now:?}"))
        });
    }
}
