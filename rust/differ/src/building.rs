//! The builder, step by step: ours against a plain model of document 01 at every step, and against the Rust where that neither
//! panics nor overruns.

use wotskrale::plain::{self, Builder};
use wotskrale::{Limits, PathBuilder, PathRef};

use crate::guard::Guarded;
use crate::inputs::Random;
use crate::model::{self, pack, show, total, Parts};
use crate::tally::{Class, Input, Tally};
use crate::theirs::{Made, Set};

/// What a builder is asked for: sizes, a reference with how many of its components come first, the components behind them.
pub struct Script {
    /// The declared length.
    pub length: u64,
    /// The declared count.
    pub count: u64,
    /// The reference as it is lent, and how many of its components.
    pub prefix: Option<(Parts, u64, u64)>,
    /// The components that are appended.
    pub components: Parts,
}

impl Script {
    fn show(&self) -> String {
        let prefix = self.prefix.as_ref();
        let prefix = prefix.map(|(p, count, n)| format!(" from {n} of {} count {count}", show(p)));
        let prefix = prefix.unwrap_or_default();
        let (length, count) = (self.length, self.count);
        format!(
            "length {length} count {count}{prefix} append {}",
            show(&self.components)
        )
    }
}

/// The model's state beside the buffer.
fn state(limits: Limits, length: u64, count: u64, appended: u64) -> Builder {
    Builder {
        mcl: limits.mcl,
        mcc: limits.mcc,
        mpl: limits.mpl,
        length,
        count,
        appended,
    }
}

fn limits_of(state: Builder) -> Limits {
    Limits::new(state.mcl, state.mcc, state.mpl)
}

/// The bytes of the declared path: a whole number.
fn size(state: Builder) -> u128 {
    8 * (u128::from(state.count) + 1) + u128::from(state.length)
}

/// The components that a buffer holds, if it agrees with its counts.
fn held(state: Builder, buffer: &[u8]) -> Option<Parts> {
    let number = |i: u64| {
        let at = 8 * usize::try_from(i).ok()?;
        let bytes = buffer.get(at..at + 8)?;
        Some(u64::from_le_bytes(bytes.try_into().ok()?))
    };
    if number(0)? != state.count || state.appended > state.count {
        return None;
    }
    let start = 8 * (state.count as usize + 1);
    let (mut parts, mut end) = (Parts::new(), 0);
    for i in 1..=state.count {
        let next = number(i)?;
        if i > state.appended {
            if next != 0 {
                return None;
            }
            continue;
        }
        if next < end || next - end > state.mcl || next > state.length {
            return None;
        }
        parts.push(buffer[start + end as usize..start + next as usize].to_vec());
        end = next;
    }
    Some(parts)
}

/// The smallest number whose condition holds, or 0.
fn smallest(conditions: &[(bool, u64)]) -> u64 {
    let apply = conditions.iter().filter(|(holds, _)| *holds);
    apply.map(|(_, number)| *number).min().unwrap_or(0)
}

/// 1, 5, 7, 8 and 15: what every call on a state judges, with the components held if the buffer can be read.
fn of_state(state: Builder, buffer: &[u8]) -> (Vec<(bool, u64)>, Option<Parts>) {
    let short = (buffer.len() as u128) < size(state);
    let bounds = !limits_of(state).within_bounds();
    let parts = if short || bounds {
        None
    } else {
        held(state, buffer)
    };
    let conditions = vec![
        (bounds, 1),
        (!short && !bounds && parts.is_none(), 5),
        (state.length > state.mpl, 7),
        (state.count > state.mcc, 8),
        (short, 15),
    ];
    (conditions, parts)
}

/// What `append_component` refuses with, or the buffer's new content.
fn append(state: Builder, buffer: &[u8], component: &[u8]) -> Result<Vec<u8>, u64> {
    let (mut conditions, parts) = of_state(state, buffer);
    let known = parts.as_ref().map_or(0, |p| total(p));
    conditions.push((component.len() as u64 > state.mcl, 9));
    let over = state
        .appended
        .checked_add(1)
        .is_none_or(|n| n > state.count);
    conditions.push((over || (known + component.len()) as u64 > state.length, 11));
    match (smallest(&conditions), parts) {
        (0, Some(mut parts)) => {
            parts.push(component.to_vec());
            Ok(filled(state.count, &parts, buffer))
        }
        (number, _) => Err(number),
    }
}

/// What `build` refuses with, or the length of the path.
fn build(state: Builder, buffer: &[u8]) -> Result<u64, u64> {
    let (mut conditions, parts) = of_state(state, buffer);
    let short = match parts {
        Some(parts) => (total(&parts) as u64) < state.length,
        None => state.appended == 0 && state.length > 0,
    };
    conditions.push((state.appended < state.count || short, 12));
    match smallest(&conditions) {
        0 => Ok(size(state) as u64),
        number => Err(number),
    }
}

/// A buffer with these components in it, for a declared count.
fn filled(count: u64, parts: &[Vec<u8>], buffer: &[u8]) -> Vec<u8> {
    let mut front = pack(parts);
    let bytes = front.split_off(8 * (parts.len() + 1));
    front[..8].copy_from_slice(&count.to_le_bytes());
    front.resize(8 * (count as usize + 1), 0);
    front.extend(bytes);
    front.extend_from_slice(&buffer[front.len()..]);
    front
}

/// What a start refuses with, or the state and the buffer's new content.
fn start(limits: Limits, script: &Script, buffer: &[u8]) -> Result<(Builder, Vec<u8>), u64> {
    let n = script.prefix.as_ref().map_or(0, |(_, _, n)| *n);
    let state = state(limits, script.length, script.count, n);
    let read = script.prefix.as_ref().map(|(parts, count, _)| {
        let packed = pack(parts);
        model::read(limits, &packed, *count)
    });
    let bad = matches!(read, Some(None));
    let reference = read.flatten().unwrap_or_default();
    let first: Vec<Vec<u8>> = reference.iter().take(n as usize).cloned().collect();
    let number = smallest(&[
        (!limits.within_bounds(), 1),
        (bad, 5),
        (state.length > limits.mpl, 7),
        (state.count > limits.mcc, 8),
        (script.prefix.is_some() && n > reference.len() as u64, 10),
        (n > state.count || total(&first) as u64 > state.length, 11),
        ((buffer.len() as u128) < size(state), 15),
    ]);
    match number {
        0 => Ok((state, filled(state.count, &first, buffer))),
        number => Err(number),
    }
}

/// What comes of a whole script on our side, every step of it held to the model. `room` is the buffer's length.
pub fn steps(limits: Limits, script: &Script, room: usize, t: &mut Tally) -> Made {
    let input = |step: &str, said: String| {
        let text = format!("{} in {room} bytes: {step}: {said}", script.show());
        Input::new(
            limits,
            script.components.len() + total(&script.components),
            text,
        )
    };
    let mut guarded = Guarded::new(room);
    let model = start(limits, script, guarded.lent());
    let now = begin(limits, script, guarded.lent_mut());
    let zeros = state(Limits::new(0, 0, 0), 0, 0, 0);
    let (status, kept) = match &model {
        Ok((state, buffer)) => (0, (*state, buffer.clone())),
        Err(number) => (*number, (zeros, guarded.as_made())),
    };
    let same = (now.status, now.state) == (status, kept.0) && guarded.holds(&kept.1);
    let call = match script.prefix {
        Some(_) => "builder: new_from_prefix",
        None => "builder: new",
    };
    t.same(call, same, || {
        input(call, format!("ours {now:?}, model {status}"))
    });
    if status != 0 || !same {
        return Made::Refused(status);
    }
    let mut state = now.state;
    for component in &script.components {
        built(limits, script, state, &mut guarded, t);
        let old = guarded.lent().to_vec();
        let model = append(state, &old, component);
        let now = plain::builder_append_component(state, guarded.lent_mut(), component);
        let grown = Builder {
            appended: state.appended.wrapping_add(1),
            ..state
        };
        let (status, kept, buffer) = match model {
            Ok(buffer) => (0, grown, buffer),
            Err(number) => (number, state, old),
        };
        let same = (now.status, now.state) == (status, kept) && guarded.holds(&buffer);
        t.same("builder: append_component", same, || {
            input(
                "append",
                format!("{} ours {now:?}, model {status}", show(&[component])),
            )
        });
        if status != 0 || !same {
            return Made::Refused(status);
        }
        state = now.state;
    }
    built(limits, script, state, &mut guarded, t)
}

fn begin(limits: Limits, script: &Script, out: &mut [u8]) -> plain::BuilderAnswer {
    match &script.prefix {
        None => plain::builder_new(limits, script.length, script.count, out),
        Some((parts, count, n)) => {
            let packed = pack(parts);
            let reference = PathRef::new(&packed, *count);
            let (length, total) = (script.length, script.count);
            plain::builder_new_from_prefix(limits, length, total, reference, *n, out)
        }
    }
}

/// A build from this state: what it gives, held to the model. It writes nothing.
fn built(
    limits: Limits,
    script: &Script,
    state: Builder,
    guarded: &mut Guarded,
    t: &mut Tally,
) -> Made {
    let model = build(state, guarded.lent());
    let old = guarded.lent().to_vec();
    let now = plain::builder_build(state, guarded.lent());
    let (status, value, kept) = match model {
        Ok(length) => (0, length, self::state(Limits::new(0, 0, 0), 0, 0, 0)),
        Err(number) => (number, 0, state),
    };
    let same = (now.status, now.value, now.state) == (status, value, kept) && guarded.holds(&old);
    t.same("builder: build", same, || {
        let text = format!("{}: build: ours {now:?}, model {model:?}", script.show());
        Input::new(
            limits,
            script.components.len() + total(&script.components),
            text,
        )
    });
    match status {
        0 => Made::Bytes(old[..value as usize].to_vec()),
        number => Made::Refused(number),
    }
}

/// A script on both sides. The Rust is handed no component over MCL and no reference that is no path.
pub fn both(set: &dyn Set, script: &Script, t: &mut Tally) {
    let limits = set.limits();
    let made = steps(limits, script, limits.longest_packed(), t);
    let Some(theirs) = set.build(script) else {
        return;
    };
    let said = || {
        let text = format!("{}: ours {made:?}, Rust {theirs:?}", script.show());
        Input::new(
            limits,
            script.components.len() + total(&script.components),
            text,
        )
    };
    let call = "builder: whole";
    match (&made, &theirs) {
        (Made::Refused(10), Made::Panic) => t.explained(call, Class::NoSuchPrefix, said),
        (Made::Refused(11), Made::Panic) => t.explained(call, Class::Overfilled, said),
        (Made::Refused(12), Made::Panic) => t.explained(call, Class::Unfinished, said),
        _ => t.same(call, made == theirs, said),
    }
    typed(limits, script, &made, t);
}

/// The typed builder gives the same.
fn typed(limits: Limits, script: &Script, made: &Made, t: &mut Tally) {
    let whole = || {
        let (length, count) = (script.length, script.count);
        let mut builder = match &script.prefix {
            None => PathBuilder::new(limits, length, count)?,
            Some((parts, k, n)) => {
                let packed = pack(parts);
                PathBuilder::new_from_prefix(limits, length, count, PathRef::new(&packed, *k), *n)?
            }
        };
        for component in &script.components {
            builder.append_component(component)?;
        }
        builder.build()
    };
    let now = match whole() {
        Ok(path) => Made::Bytes(path.into_bytes()),
        Err(refusal) => Made::Refused(refusal.number()),
    };
    t.same("typed forms", now == *made, || {
        let text = format!("{}: builder {now:?}", script.show());
        Input::new(limits, total(&script.components), text)
    });
}

/// Any state beside any buffer, which need not fit together: ours against the model.
pub fn stray(limits: Limits, state: Builder, buffer: &[u8], component: &[u8], t: &mut Tally) {
    let input = |call: &str, said: String| {
        let text = format!("{call} of {state:?}, {buffer:02x?} and {component:02x?}: {said}");
        Input::new(limits, buffer.len() + component.len(), text)
    };
    let mut guarded = Guarded::of(buffer);
    let model = append(state, buffer, component);
    let now = plain::builder_append_component(state, guarded.lent_mut(), component);
    let status = model.as_ref().err().copied().unwrap_or(0);
    let kept = Builder {
        appended: state.appended.wrapping_add(u64::from(status == 0)),
        ..state
    };
    let content = model.unwrap_or_else(|_| buffer.to_vec());
    let same = (now.status, now.state) == (status, kept) && guarded.holds(&content);
    t.same("damaged: builder append", same, || {
        input("append", format!("ours {now:?}, model {status}"))
    });
    let mut guarded = Guarded::of(buffer);
    let model = build(state, buffer);
    let now = plain::builder_build(state, guarded.lent_mut());
    let same = (now.status, now.value) == (model.err().unwrap_or(0), model.unwrap_or(0))
        && guarded.holds(buffer);
    t.same("damaged: builder build", same, || {
        input("build", format!("ours {now:?}, model {model:?}"))
    });
}

/// A script for components, with declared sizes that fit or nearly do.
fn script(limits: Limits, random: &mut Random) -> Script {
    let components = match random.below(4) {
        0 => random.around(limits),
        _ => random.path(limits),
    };
    let reference = random.path(limits);
    let (parts, n) = (reference.len(), random.below(reference.len() + 2));
    let cut = if random.below(4) == 0 {
        random.below(parts + 2)
    } else {
        parts
    };
    let prefix = (random.below(2) == 0).then_some((reference, cut as u64, n as u64));
    let first = prefix
        .as_ref()
        .map_or(0, |(p, _, n)| total(&p[..(*n as usize).min(p.len())]));
    let before = prefix.as_ref().map_or(0, |(_, _, n)| *n);
    let near = |n: u64, random: &mut Random| match random.below(6) {
        0 => n + 1,
        1 => n.saturating_sub(1),
        2 => [0, 1, u64::MAX, 1 << 61][random.below(4)],
        _ => n,
    };
    Script {
        length: near((first + total(&components)) as u64, random),
        count: near(before + components.len() as u64, random),
        prefix,
        components,
    }
}

/// Random scripts, whole and in buffers of other lengths, and states beside buffers that do not fit.
pub fn random(set: &dyn Set, turns: usize, random: &mut Random, t: &mut Tally) {
    let limits = set.limits();
    for _ in 0..turns {
        let script = script(limits, random);
        both(set, &script, t);
        let room = random.below(limits.longest_packed() + 20);
        steps(limits, &script, room, t);
        let mut state = state(
            limits,
            script.length,
            script.count,
            [0, 1, script.count, u64::MAX][random.below(4)],
        );
        let mut buffer = pack(&script.components);
        let noise = random.below(24);
        buffer.resize(buffer.len() + noise, 0);
        if random.below(2) == 0 {
            state.count = script.components.len() as u64;
            state.appended = state.count.saturating_sub(random.below(2) as u64);
            state.length = (total(&script.components) + random.below(2)) as u64;
        }
        let component = vec![random.next() as u8; random.below(limits.mcl as usize + 2)];
        stray(limits, state, &buffer, &component, t);
        let at = random.below(buffer.len());
        buffer[at] ^= 1 << random.below(8);
        stray(limits, state, &buffer, &component, t);
        buffer.truncate(random.below(buffer.len()));
        stray(limits, state, &buffer, &component, t);
        state.mpl = 4097;
        stray(limits, state, &buffer, &component, t);
    }
}
