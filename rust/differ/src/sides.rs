//! One case on both sides.

use std::rc::Rc;

use wotskrale::{construction, least, reading, relation, writing, Limits, PathRef, Refusal};

use crate::guard::Guarded;
use crate::model::{pack, raised_before_ff, read, show, split, total, Parts};
use crate::tally::{Class, Input, Tally};
use crate::theirs::{Made, Set, TheirPath};

/// The same path on both sides: for the Rust, and packed with a count for ours.
pub struct View<'s> {
    set: &'s dyn Set,
    rust: Box<dyn TheirPath>,
    packed: Rc<Vec<u8>>,
    count: u64,
}

/// Calls ours with a long buffer, one that just holds the answer, one that is a byte too short, and an empty one. What is
/// given is spoilt where bytes outside the answer or around a buffer have changed or the four do not fit together.
pub fn ours(longest: usize, call: impl Fn(&mut [u8]) -> Result<Option<usize>, Refusal>) -> Made {
    let mut long = Guarded::new(longest + 9);
    let first = call(long.lent_mut());
    let length = match first {
        Ok(Some(length)) if length <= longest => length,
        Ok(Some(_)) => return Made::Spoilt("longer than it can be"),
        _ if !long.untouched_from(0) => return Made::Spoilt("written without an answer"),
        other if call(&mut []) != other => return Made::Spoilt("another with an empty buffer"),
        Ok(None) => return Made::Nothing,
        Err(refusal) => return Made::Refused(refusal.number()),
    };
    if !long.untouched_from(length) {
        return Made::Spoilt("written behind the answer");
    }
    let answer = long.lent()[..length].to_vec();
    let mut exact = Guarded::new(length);
    if call(exact.lent_mut()) != first || !exact.holds(&answer) {
        return Made::Spoilt("another with a buffer of its length");
    }
    if length > 0 {
        let mut short = Guarded::new(length - 1);
        if call(short.lent_mut()) != Err(Refusal::OutTooSmall) || !short.untouched_from(0) {
            return Made::Spoilt("no 15, or written, with a buffer too short");
        }
    }
    Made::Bytes(answer)
}

/// What the form that allocates its answer gives: the same.
pub fn owned(path: Result<Option<wotskrale::Path>, Refusal>) -> Made {
    match path {
        Ok(path) => path.map_or(Made::Nothing, |p| Made::Bytes(p.into_bytes())),
        Err(refusal) => Made::Refused(refusal.number()),
    }
}

/// A form that allocates its answer, against the one that writes into a buffer.
pub fn allocated(
    t: &mut Tally,
    call: &str,
    now: Made,
    made: &Made,
    input: impl FnOnce(String) -> Input,
) {
    t.same("allocated forms", now == *made, || {
        input(format!("{call} {}, written {}", shown(&now), shown(made)))
    });
}

/// What was made, in words.
pub fn shown(made: &Made) -> String {
    let parts = match made {
        Made::Bytes(bytes) => read(Limits::BOUNDS, bytes, PathRef::whole(bytes).count()),
        _ => None,
    };
    parts.map_or_else(|| format!("{made:?}"), |parts| show(&parts))
}

impl<'s> View<'s> {
    /// Components that are a path under the limits.
    pub fn new(set: &'s dyn Set, parts: &[Vec<u8>]) -> Option<Self> {
        let rust = set.path(parts).ok()?;
        let (packed, count) = (Rc::new(pack(parts)), parts.len() as u64);
        Some(View {
            set,
            rust,
            packed,
            count,
        })
    }

    /// The first components alone, in the same buffer.
    pub fn cut(&self, count: u64) -> Option<Self> {
        let rust = self.rust.create_prefix(count)?;
        let (set, packed) = (self.set, self.packed.clone());
        Some(View {
            set,
            rust,
            packed,
            count,
        })
    }

    /// The count beside the buffer.
    pub fn count(&self) -> u64 {
        self.count
    }

    fn lent(&self) -> PathRef<'_> {
        PathRef::new(&self.packed, self.count)
    }

    fn parts(&self) -> Parts {
        self.rust.parts()
    }

    fn input(&self, what: String) -> Input {
        let whole = PathRef::whole(&self.packed).count();
        let behind = match whole == self.count {
            true => String::new(),
            false => format!(" (of {whole} in the buffer)"),
        };
        let text = format!("{}{behind}: {what}", show(&self.parts()));
        // Components and bytes of all that is in the buffer.
        let weight = self.packed.len() - 7 * whole as usize - 8;
        Input::new(self.set.limits(), weight, text)
    }

    /// All calls on one path.
    pub fn one(&self, t: &mut Tally) {
        let (limits, lent, rust) = (self.set.limits(), self.lent(), &self.rust);
        let number = |t: &mut Tally, call, now: Result<u64, Refusal>, theirs: u64| {
            t.same(call, now == Ok(theirs), || {
                self.input(format!("ours {now:?}, Rust {theirs}"))
            });
        };
        number(t, "test", reading::test(limits, lent).map(|()| 0), 0);
        let count = rust.component_count();
        number(
            t,
            "component_count",
            reading::component_count(limits, lent),
            count,
        );
        let empty = reading::is_empty(limits, lent).map(u64::from);
        number(t, "is_empty", empty, u64::from(rust.is_empty()));
        number(
            t,
            "path_length",
            reading::path_length(limits, lent),
            rust.path_length(),
        );
        for n in 0..=count + 2 {
            // Of many components the first and the last.
            if n <= 4 || n + 4 >= count {
                self.at(t, n);
            }
        }
        self.least(t);
    }

    /// The calls on a component or a prefix by its number.
    fn at(&self, t: &mut Tally, n: u64) {
        let (limits, lent, rust) = (self.set.limits(), self.lent(), &self.rust);
        let longest = limits.longest_packed();

        let now = reading::path_length_of_prefix(limits, lent, n);
        let theirs = rust.path_length_of_prefix(n);
        let input = || self.input(format!("n {n}: ours {now:?}, Rust {theirs:?}"));
        let call = "path_length_of_prefix";
        // Past the count the Rust reads the n-th number of its buffer, whatever stands there, and panics behind its end.
        let stray = self.packed.chunks_exact(8).nth(n as usize);
        let stray = stray.map(|b| b.iter().rev().fold(0, |n, b| n << 8 | u64::from(*b)));
        match (now, theirs) {
            (Ok(None), None) if n > self.count && stray.is_none() => {
                t.explained(call, Class::LengthPanics, input)
            }
            (Ok(None), Some(_)) if n > self.count && theirs == stray => {
                t.explained(call, Class::LengthNumber, input)
            }
            _ => t.same(call, now == Ok(theirs) && n <= self.count, input),
        }

        let theirs = rust.create_prefix(n);
        let now = reading::create_prefix(limits, lent, n).map(|p| p.map(PathRef::count));
        let same = now == Ok(theirs.as_ref().map(|p| p.component_count()));
        t.same("create_prefix", same, || {
            self.input(format!("n {n}: ours {now:?}"))
        });
        let made = ours(longest, |out| writing::write_prefix(limits, lent, n, out));
        if n == self.count {
            let now = owned(lent.to_path(limits).map(Some));
            self.allocated(t, "to_path", now, &made);
        }
        let theirs = theirs.map_or(Made::Nothing, |p| Made::Bytes(pack(&p.parts())));
        self.same(t, "write_prefix", made, theirs);

        let theirs = rust.component(n);
        let now = reading::component_length(limits, lent, n);
        let same = now == Ok(theirs.as_ref().map(|c| c.len() as u64));
        t.same("component_length", same, || {
            self.input(format!("i {n}: ours {now:?}"))
        });
        let made = ours(longest, |out| {
            writing::write_component(limits, lent, n, out)
        });
        let now = match lent.component(limits, n) {
            Ok(component) => component.map_or(Made::Nothing, Made::Bytes),
            Err(refusal) => Made::Refused(refusal.number()),
        };
        self.allocated(t, "component", now, &made);
        let theirs = theirs.map_or(Made::Nothing, Made::Bytes);
        t.same("write_component", made == theirs, || {
            self.input(format!("i {n}: ours {made:?}, Rust {theirs:?}"))
        });
    }

    fn same(&self, t: &mut Tally, call: &'static str, made: Made, theirs: Made) {
        t.same(call, made == theirs, || {
            self.input(format!("ours {}, Rust {}", shown(&made), shown(&theirs)))
        });
    }

    fn allocated(&self, t: &mut Tally, call: &str, now: Made, made: &Made) {
        allocated(t, call, now, made, |said| self.input(said));
    }

    /// The least paths above.
    fn least(&self, t: &mut Tally) {
        let (limits, lent) = (self.set.limits(), self.lent());
        let longest = limits.longest_packed();
        let made = ours(longest, |out| {
            least::greater_but_not_prefixed(limits, lent, out)
        });
        let now = owned(lent.greater_but_not_prefixed(limits));
        self.allocated(t, "greater_but_not_prefixed", now, &made);
        self.same(
            t,
            "greater_but_not_prefixed",
            made,
            self.rust.greater_but_not_prefixed(),
        );
        let made = ours(longest, |out| least::successor(limits, lent, out));
        self.allocated(t, "successor", owned(lent.successor(limits)), &made);
        self.next(
            t,
            "successor",
            Class::Successor,
            made,
            self.rust.successor(),
        );
        let made = ours(longest, |out| least::singleton_range(limits, lent, out));
        let now = owned(lent.singleton_range(limits));
        self.allocated(t, "singleton_range", now, &made);
        self.next(
            t,
            "singleton_range",
            Class::Singleton,
            made,
            self.rust.singleton_range(),
        );
    }

    /// A successor: differs exactly where the raised component ends in ff, and there exactly as it should.
    fn next(&self, t: &mut Tally, call: &'static str, class: Class, made: Made, theirs: Made) {
        let Some((least, counted_up)) = raised_before_ff(self.set.limits(), &self.parts()) else {
            return self.same(t, call, made, theirs);
        };
        let input = || self.input(format!("ours {}, Rust {}", shown(&made), shown(&theirs)));
        let as_known =
            made == Made::Bytes(pack(&least)) && theirs == Made::Bytes(pack(&counted_up));
        match as_known {
            true => t.explained(call, class, input),
            false => t.same(call, false, input),
        }
    }

    /// All calls on two paths.
    pub fn two(&self, other: &Self, t: &mut Tally) {
        let (limits, a, b) = (self.set.limits(), self.lent(), other.lent());
        let (x, y) = (&self.rust, &*other.rust);
        let what = |said: String| self.input(format!("and {}: {said}", show(&other.parts())));

        let (now, theirs) = (relation::compare(limits, a, b), x.compare(y));
        t.same("compare", now == Ok(theirs), || {
            what(format!("ours {now:?}, Rust {theirs:?}"))
        });
        let asked = |t: &mut Tally, call, now: Result<bool, Refusal>, theirs: bool| {
            t.same(call, now == Ok(theirs), || {
                what(format!("ours {now:?}, Rust {theirs:?}"))
            });
        };
        asked(t, "equal", relation::equal(limits, a, b), x.equal(y));
        asked(
            t,
            "is_prefix_of",
            relation::is_prefix_of(limits, a, b),
            x.is_prefix_of(y),
        );
        asked(
            t,
            "is_prefixed_by",
            relation::is_prefixed_by(limits, a, b),
            x.is_prefixed_by(y),
        );
        asked(
            t,
            "is_related",
            relation::is_related(limits, a, b),
            x.is_related(y),
        );

        let common = x.longest_common_prefix(y);
        let now = relation::longest_common_prefix(limits, a, b);
        let theirs = common.component_count();
        t.same("longest_common_prefix", now == Ok(theirs), || {
            what(format!("ours {now:?}, Rust {theirs:?}"))
        });
        let typed = a.longest_common_prefix(limits, b);
        let same = typed.map(PathRef::count) == now
            && typed.is_ok_and(|p| std::ptr::eq(p.bytes(), a.bytes()));
        t.same("typed forms", same, || {
            what(format!("longest_common_prefix {typed:?}"))
        });
        let made = ours(limits.longest_packed(), |out| {
            writing::write_longest_common_prefix(limits, a, b, out).map(Some)
        });
        let theirs = Made::Bytes(pack(&common.parts()));
        t.same("write_longest_common_prefix", made == theirs, || {
            what(format!("ours {}, Rust {}", shown(&made), shown(&theirs)))
        });
    }

    /// A component behind the path: against `append` where the Rust can be given it, and against `from_slices` of all.
    pub fn extend(&self, component: &[u8], t: &mut Tally) {
        let (limits, lent) = (self.set.limits(), self.lent());
        let made = ours(limits.longest_packed(), |out| {
            construction::append(limits, lent, component, out).map(Some)
        });
        let now = owned(lent.append(limits, component).map(Some));
        self.allocated(t, "append", now, &made);
        let mut all = self.parts();
        all.push(component.to_vec());
        let direct = self.rust.append(component);
        both(
            t,
            "append",
            made,
            by_slices(self.set, &all),
            direct,
            |said| self.input(format!("and component {}: {said}", show(&[component]))),
        );
    }

    /// Components behind the path, likewise.
    pub fn extend_by(&self, more: &[Vec<u8>], t: &mut Tally) {
        let (limits, lent) = (self.set.limits(), self.lent());
        let (lengths, bytes) = split(more);
        let made = ours(limits.longest_packed(), |out| {
            construction::append_slice(limits, lent, &lengths, &bytes, out).map(Some)
        });
        let slices: Vec<&[u8]> = more.iter().map(Vec::as_slice).collect();
        let now = owned(lent.append_slice(limits, &slices).map(Some));
        self.allocated(t, "append_slice", now, &made);
        let mut all = self.parts();
        all.extend_from_slice(more);
        let direct = self.rust.append_slice(more);
        both(
            t,
            "append_slice",
            made,
            by_slices(self.set, &all),
            direct,
            |said| self.input(format!("and components {}: {said}", show(more))),
        );
    }
}

/// What `from_slices` of the Rust makes.
fn by_slices(set: &dyn Set, parts: &[Vec<u8>]) -> Made {
    match set.path(parts) {
        Ok(path) => Made::Bytes(pack(&path.parts())),
        Err(number) => Made::Refused(number),
    }
}

/// A construction of ours against `from_slices` of the Rust, and against its own call where that can be made.
fn both(
    t: &mut Tally,
    call: &'static str,
    made: Made,
    by_slices: Made,
    direct: Option<Made>,
    input: impl FnOnce(String) -> Input,
) {
    let same = made == by_slices && direct.as_ref().is_none_or(|d| *d == made);
    t.same(call, same, || {
        let direct = direct.as_ref().map(shown);
        input(format!(
            "ours {}, Rust {} and {direct:?}",
            shown(&made),
            shown(&by_slices)
        ))
    });
}

/// All constructions from any components, within the limits or not.
pub fn make(set: &dyn Set, parts: &[Vec<u8>], t: &mut Tally) {
    let limits = set.limits();
    let longest = limits.longest_packed();
    let (lengths, bytes) = split(parts);
    let input = |said: String| {
        let text = format!("components {}: {said}", show(parts));
        Input::new(limits, total(parts) + parts.len(), text)
    };
    let theirs = by_slices(set, parts);
    let made = ours(longest, |out| {
        construction::from_slices(limits, &lengths, &bytes, out).map(Some)
    });
    let slices: Vec<&[u8]> = parts.iter().map(Vec::as_slice).collect();
    let now = owned(wotskrale::Path::from_slices(limits, &slices).map(Some));
    allocated(t, "from_slices", now, &made, input);
    both(
        t,
        "from_slices",
        made,
        theirs.clone(),
        set.new_from_slice(parts),
        input,
    );

    let sum = bytes.len() as u64;
    let wrong = [sum + 1, sum.wrapping_sub(1), limits.mpl + 1, u64::MAX];
    from_iter(set, parts, sum, &theirs, t);
    for stated in wrong.into_iter().filter(|n| *n != sum) {
        from_iter(set, parts, stated, &theirs, t);
    }

    if let [component] = parts {
        let made = ours(longest, |out| {
            construction::new_singleton(limits, component, out).map(Some)
        });
        let now = owned(wotskrale::Path::new_singleton(limits, component).map(Some));
        allocated(t, "new_singleton", now, &made, input);
        both(
            t,
            "new_singleton",
            made,
            theirs,
            set.new_singleton(component),
            input,
        );
        let now = reading::test_component(limits, component);
        let theirs = match set.is_component(component) {
            true => Ok(()),
            false => Err(Refusal::ComponentTooLong),
        };
        t.same("test_component", now == theirs, || {
            input(format!("ours {now:?}, Rust {theirs:?}"))
        });
    }
}

/// `new_from_iter` with a stated total, right or wrong.
fn from_iter(set: &dyn Set, parts: &[Vec<u8>], stated: u64, by_slices: &Made, t: &mut Tally) {
    let limits = set.limits();
    let (lengths, bytes) = split(parts);
    let made = ours(limits.longest_packed(), |out| {
        construction::new_from_iter(limits, stated, &lengths, &bytes, out).map(Some)
    });
    let direct = set.new_from_iter(stated, parts);
    let call = "new_from_iter";
    let text = |said: String| {
        let text = format!("components {} with total {stated}: {said}", show(parts));
        Input::new(limits, total(parts) + parts.len(), text)
    };
    let slices = parts.iter().map(Vec::as_slice);
    let now = owned(wotskrale::Path::new_from_iter(limits, stated, slices).map(Some));
    allocated(t, call, now, &made, text);
    if stated == bytes.len() as u64 {
        return both(t, call, made, by_slices.clone(), direct, text);
    }
    let input = || text(format!("ours {}, Rust {direct:?}", shown(&made)));
    // The Rust looks at the stated total, then at the count, and then finds out when it builds.
    let known = match (stated > limits.mpl, parts.len() as u64 > limits.mcc) {
        (true, _) => Made::Refused(7),
        (false, true) => Made::Refused(8),
        (false, false) => Made::Panic,
    };
    let refused = made == Made::Refused(6);
    match direct {
        // A component over MCL cannot be handed to the Rust.
        None => t.same(call, refused, input),
        Some(Made::Panic) if refused && known == Made::Panic => {
            t.explained(call, Class::TotalPanics, input)
        }
        Some(ref theirs) if refused && *theirs == known => {
            t.explained(call, Class::TotalRefused, input)
        }
        _ => t.same(call, false, input),
    }
}

/// The calls that take limits alone.
pub fn bare(set: &dyn Set, t: &mut Tally) {
    let limits = set.limits();
    let made = ours(limits.longest_packed(), |out| {
        construction::new_empty(limits, out).map(Some)
    });
    let same = made == set.new_empty();
    t.same("new_empty", same, || {
        Input::new(limits, 0, format!("ours {made:?}"))
    });
    let input = |said: String| Input::new(limits, 0, said);
    let now = owned(wotskrale::Path::new_empty(limits).map(Some));
    allocated(t, "new_empty", now, &made, input);

    let theirs = set.new_max();
    let made = ours(limits.longest_packed(), |out| {
        least::new_max(limits, out).map(Some)
    });
    let now = owned(wotskrale::Path::new_max(limits).map(Some));
    allocated(t, "new_max", now, &made, input);
    let greatest = Made::Bytes(pack(&greatest(limits)));
    let input = || {
        let said = format!("ours {}, Rust {}", shown(&made), shown(&theirs));
        Input::new(limits, 0, said)
    };
    let fits = limits.mcl * limits.mcc >= limits.mpl;
    match theirs {
        Made::Panic if !fits && made == greatest => t.explained("new_max", Class::Greatest, input),
        _ => t.same("new_max", fits && theirs == made && made == greatest, input),
    }
}

/// The greatest path: as many components as there may be, each as long as it may be, of bytes ff.
fn greatest(limits: Limits) -> Parts {
    let mut left = limits.mpl;
    let mut parts = Parts::new();
    for _ in 0..limits.mcc {
        let length = left.min(limits.mcl);
        parts.push(vec![0xff; length as usize]);
        left -= length;
    }
    parts
}
