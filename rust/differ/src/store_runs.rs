//! Stores: lists of offers, each answer and every byte of the sheet after it against the plain model of demand 3, which works the
//! whole history out anew each time.

use wotskrale::plain::{self, EntryAnswer, OfferAnswer, StoreAnswer};
use wotskrale::store::{Head, Numbers};
use wotskrale::{Entry, Limits, Offered, PathRef, Refusal, MAX_CAPACITY};

use crate::guard::Guarded;
use crate::inputs::Random;
use crate::model::{pack, show};
use crate::sheets::changed;
use crate::sides::{allocated, ours, owned};
use crate::store_model::{Fate, Filed, Offer, Store};
use crate::tally::{Input, Tally};
use crate::theirs::Made;

/// Bytes behind the sheet that have to stay.
const BEHIND: [u8; 9] = [0x5a; 9];

/// How seldom an offer to a small store has a great payload.
const SELDOM: usize = 20;

fn answer(fate: Fate) -> OfferAnswer {
    let (status, answer, pruned) = match fate {
        Fate::Refused(number) => (number, 0, 0),
        Fate::Taken(pruned) => (0, 0, pruned),
        Fate::Outdated => (0, 1, 0),
        Fate::Repeat => (0, 2, 0),
    };
    OfferAnswer {
        status,
        answer,
        pruned,
    }
}

fn entry(offer: &Offer) -> Entry<'_> {
    Entry {
        namespace: offer.namespace,
        subspace: offer.subspace,
        path: PathRef::new(&offer.path.0, offer.path.1),
        timestamp: offer.timestamp,
        payload_length: offer.payload_length,
        digest: offer.digest,
    }
}

fn offer_to(sheet: &mut [u8], offer: &Offer) -> OfferAnswer {
    let place = plain::Place {
        subspace: offer.subspace,
        path: PathRef::new(&offer.path.0, offer.path.1),
    };
    let age = plain::Age {
        timestamp: offer.timestamp,
        payload_length: offer.payload_length,
        digest: &offer.digest,
    };
    let namespace = offer.namespace;
    plain::store_offer(
        sheet,
        plain::Entry {
            namespace,
            place,
            age,
        },
    )
}

fn shown(offer: &Offer) -> String {
    let parts = crate::model::read(Limits::BOUNDS, &offer.path.0, offer.path.1);
    let path = parts.map_or("no path".to_string(), |p| show(&p));
    let (n, s, time, length) = (
        offer.namespace,
        offer.subspace,
        offer.timestamp,
        offer.payload_length,
    );
    let digest = (offer.digest[0], offer.digest[31]);
    format!("{n} {s} {path} time {time} length {length} digest {digest:x?}")
}

/// A store under way: the list so far, and the sheet as ours left it.
pub struct Run {
    limits: Limits,
    capacity: u64,
    namespace: u64,
    history: Vec<Filed>,
    list: Vec<Offer>,
    sheet: Guarded,
}

impl Run {
    /// A fresh store, made in buffers of several lengths.
    pub fn fresh(limits: Limits, capacity: u64, namespace: u64, t: &mut Tally) -> Option<Run> {
        let empty = Store::of_history(limits, capacity, namespace, &[]);
        let sheet = empty.layout()?;
        let made = ours(sheet.len(), |out| {
            let answer = plain::store_fresh(limits, capacity, namespace, out);
            match answer.status {
                0 => Ok(Some(answer.value as usize)),
                number => Err(Refusal::from_number(number)),
            }
        });
        let owned = wotskrale::Store::fresh(limits, capacity, namespace);
        let owned = owned.map(|s| s.bytes().to_vec());
        let same = made == Made::Bytes(sheet.clone()) && owned.as_ref() == Ok(&sheet);
        t.same("store: fresh", same, || {
            Input::new(
                limits,
                sheet.len(),
                format!("fresh for {capacity} of {namespace}"),
            )
        });
        Some(Run {
            limits,
            capacity,
            namespace,
            history: Vec::new(),
            list: Vec::new(),
            sheet: Guarded::of(&[&sheet[..], &BEHIND].concat()),
        })
    }

    fn model(&self) -> Store {
        Store::of_history(self.limits, self.capacity, self.namespace, &self.history)
    }

    fn input(&self, said: String) -> Input {
        let list: Vec<String> = self.list.iter().map(shown).collect();
        let text = format!(
            "N {} namespace {}: {list:?}: {said}",
            self.capacity, self.namespace
        );
        Input::new(self.limits, self.list.len(), text)
    }

    /// One more offer.
    pub fn offer(&mut self, offer: Offer, t: &mut Tally) {
        let before = self.model();
        let fate = before.fate(&offer);
        if let (false, Some(entry)) = (matches!(fate, Fate::Refused(_)), before.offered(&offer)) {
            self.history.push(entry);
        }
        let mut typed = wotskrale::Store::lent(self.sheet.lent().to_vec());
        let said = typed.offer(&entry(&offer));
        let now = offer_to(self.sheet.lent_mut(), &offer);
        self.list.push(offer);
        let sheet = self.model().layout().unwrap_or_default();
        let content = [&sheet[..], &BEHIND].concat();
        let call = match fate {
            Fate::Refused(4) => "store: offer, refused 4",
            Fate::Refused(5) => "store: offer, refused 5",
            Fate::Refused(13) => "store: offer, refused 13",
            Fate::Refused(_) => "store: offer, refused 14",
            Fate::Taken(0) => "store: offer, taken",
            Fate::Taken(_) => "store: offer, taken with pruning",
            Fate::Outdated => "store: offer, outdated",
            Fate::Repeat => "store: offer, repeat",
        };
        let same = now == answer(fate) && self.sheet.holds(&content);
        t.same(call, same, || {
            self.input(format!("ours {now:?}, model {fate:?}"))
        });
        let model = match fate {
            Fate::Refused(number) => Err(Refusal::from_number(number)),
            Fate::Taken(pruned) => Ok(Offered::Taken(pruned)),
            Fate::Outdated => Ok(Offered::Outdated),
            Fate::Repeat => Ok(Offered::Repeat),
        };
        let same = said == model && typed.bytes() == content;
        t.same("typed forms", same, || {
            self.input(format!("typed {said:?}"))
        });
    }

    /// Everything that can be read of the store.
    pub fn read_back(&self, t: &mut Tally) {
        read_back(&self.model(), self.sheet.lent(), t);
    }
}

fn numbers(store: &Store) -> StoreAnswer {
    let limits = store.limits;
    StoreAnswer {
        status: 0,
        mcl: limits.mcl,
        mcc: limits.mcc,
        mpl: limits.mpl,
        capacity: store.capacity,
        count: store.entries.len() as u64,
        namespace: store.namespace,
        held: store.held() as u64,
        let_go: store.let_go as u64,
    }
}

fn entry_answer(entry: Option<&Filed>) -> EntryAnswer {
    EntryAnswer {
        status: if entry.is_some() { 0 } else { 255 },
        subspace: entry.map_or(0, |e| e.subspace),
        timestamp: entry.map_or(0, |e| e.timestamp),
        payload_length: entry.map_or(0, |e| e.payload_length),
        count: entry.map_or(0, |e| e.path.len() as u64),
        digest: entry.map_or([0; 32], |e| e.digest),
    }
}

fn read_back(store: &Store, sheet: &[u8], t: &mut Tally) {
    let input = |said: String| {
        let text = format!("store of {} entries: {said}", store.entries.len());
        Input::new(store.limits, sheet.len(), text)
    };
    let now = (plain::store_test(sheet), plain::store_numbers(sheet));
    let same = now == (0, numbers(store));
    t.same("store: test and numbers", same, || {
        input(format!("{now:?}"))
    });
    let typed = wotskrale::Store::lent(sheet);
    let past = store.entries.len() as u64;
    for i in (0..=past).chain([u64::MAX]) {
        let entry = store.entries.get(i as usize);
        let now = plain::store_entry(sheet, i);
        let same = now == entry_answer(entry);
        t.same("store: entry", same, || {
            input(format!("entry {i}: {now:?}"))
        });
        let path = ours(store.limits.longest_packed(), |out| {
            typed.write_entry_path(i, out)
        });
        let model = entry.map_or(Made::Nothing, |e| Made::Bytes(pack(&e.path)));
        t.same("store: entry_path", path == model, || {
            input(format!("path of entry {i}: {path:?}"))
        });
        let now = owned(typed.entry_path(i));
        allocated(t, "entry_path", now, &path, input);
        let now = typed.entry(i);
        let model = entry.map(|e| Head {
            subspace: e.subspace,
            timestamp: e.timestamp,
            payload_length: e.payload_length,
            count: e.path.len() as u64,
            digest: e.digest,
        });
        t.same("typed forms", now == Ok(model), || {
            input(format!("entry {i}: {now:?}"))
        });
    }
    let now = typed.numbers();
    let model = Numbers {
        limits: store.limits,
        capacity: store.capacity,
        count: past,
        namespace: store.namespace,
        held: store.held() as u64,
        let_go: store.let_go as u64,
    };
    let same = now == Ok(model) && typed.test() == Ok(());
    t.same("typed forms", same, || input(format!("numbers {now:?}")));
}

/// Bytes that may be no store: every call against the model of the layout.
pub fn damaged(bytes: &[u8], offer: &Offer, t: &mut Tally) {
    let model = Store::read(bytes);
    let now = plain::store_test(Guarded::of(bytes).lent());
    let expected = if model.is_some() { 0 } else { 2 };
    t.same("damaged: store test", now == expected, || {
        Input::of_bytes(bytes, "test", format!("{now}"))
    });
    match model {
        Some(store) => still_a_store(&store, bytes, offer, t),
        None => no_store(bytes, offer, t),
    }
}

/// Every call refuses with 2, whatever else is wrong, and nothing is written.
fn no_store(bytes: &[u8], offer: &Offer, t: &mut Tally) {
    let mut sheet = Guarded::of(bytes);
    let mut refuses = |call: &str, same: bool, said: String| {
        t.same("damaged: store calls", same, || {
            Input::of_bytes(bytes, call, said)
        });
    };
    let now = offer_to(sheet.lent_mut(), offer);
    let same = now == answer(Fate::Refused(2)) && sheet.holds(bytes);
    refuses("offer", same, format!("{now:?}"));
    let now = plain::store_numbers(sheet.lent());
    let empty = Store::of_history(Limits::new(0, 0, 0), 0, 0, &[]);
    let none = StoreAnswer {
        status: 2,
        ..numbers(&empty)
    };
    refuses("numbers", now == none, format!("{now:?}"));
    let now = plain::store_entry(sheet.lent(), 0);
    let none = EntryAnswer {
        status: 2,
        ..entry_answer(None)
    };
    refuses("entry", now == none, format!("{now:?}"));
    let lent = wotskrale::Store::lent(sheet.lent());
    let now = ours(60, |out| lent.write_entry_path(0, out));
    refuses("path", now == Made::Refused(2), format!("{now:?}"));
    let now = owned(lent.entry_path(0));
    refuses("path, typed", now == Made::Refused(2), format!("{now:?}"));
    let now = (lent.test(), lent.numbers(), lent.entry(0));
    let bad = Refusal::BadSheet;
    let same = now == (Err(bad), Err(bad), Err(bad));
    refuses("typed forms", same, format!("{now:?}"));
}

/// A store that was changed and is one all the same: read and offered to.
fn still_a_store(store: &Store, bytes: &[u8], offer: &Offer, t: &mut Tally) {
    read_back(store, bytes, t);
    let mut sheet = Guarded::of(bytes);
    let now = offer_to(sheet.lent_mut(), offer);
    let fate = store.fate(offer);
    let after = match (fate, store.offered(offer)) {
        (Fate::Refused(_), _) | (_, None) => store.clone(),
        (_, Some(entry)) => store.after(&entry),
    };
    let length = store.layout().map_or(0, |s| s.len());
    let content = [&after.layout().unwrap_or_default()[..], &bytes[length..]].concat();
    let same = now == answer(fate) && sheet.holds(&content);
    t.same("damaged: still a store", same, || {
        let said = format!("{}: ours {now:?}, model {fate:?}", shown(offer));
        Input::of_bytes(bytes, "offer", said)
    });
}

/// Sheets that are laid out well and hold the wrong entries: two of them exchanged, one twice, one that another prunes.
fn swapped(store: &Store, offer: &Offer, t: &mut Tally) {
    let mut try_it = |entries: Vec<Filed>| {
        let wrong = Store {
            entries,
            ..store.clone()
        };
        if let Some(sheet) = wrong.layout() {
            damaged(&sheet, offer, t);
        }
    };
    for i in 1..store.entries.len() {
        let mut entries = store.entries.clone();
        entries.swap(i - 1, i);
        try_it(entries);
        let mut entries = store.entries.clone();
        entries[i] = entries[i - 1].clone();
        try_it(entries);
        for timestamp in [0, 1, u64::MAX] {
            let mut entries = store.entries.clone();
            entries[i].timestamp = timestamp;
            try_it(entries);
        }
    }
}

/// An offer of few values, so that offers meet. One in `seldom` has a payload that brings the totals near their bound.
fn offer(limits: Limits, namespace: u64, seldom: usize, random: &mut Random) -> Offer {
    let mut parts = random.path(limits);
    for byte in parts.iter_mut().flatten() {
        *byte = [0, 1, 0xff][random.below(3)];
    }
    let mut packed = pack(&parts);
    let mut count = parts.len() as u64;
    match random.below(24) {
        0 => count += 1,
        1 => count = count.saturating_sub(1),
        2 => packed.push(0),
        _ => {}
    }
    let mut digest = [0; 32];
    digest[[0, 31][random.below(2)]] = [0, 1, 0x80][random.below(3)];
    Offer {
        namespace: if random.below(20) == 0 {
            namespace ^ 1
        } else {
            namespace
        },
        subspace: [0, 1, u64::MAX][[0, 0, 0, 1, 2][random.below(5)]],
        path: (packed, count),
        timestamp: [0, 1, 2, u64::MAX][[0, 1, 1, 2, 2, 3][random.below(6)]],
        payload_length: match random.below(seldom) {
            0 => [u64::MAX, 1 << 63, u64::MAX - 3][random.below(3)],
            _ => random.below(4) as u64,
        },
        digest,
    }
}

/// Random lists of offers to small stores; every fortieth store is damaged too.
pub fn random(limits: Limits, lists: usize, random: &mut Random, t: &mut Tally) {
    for turn in 0..lists {
        let (capacity, offers) = (random.below(6) as u64, random.below(14));
        let Some(run) = list(limits, (capacity, offers, SELDOM), random, t) else {
            continue;
        };
        let (store, next) = (run.model(), offer(limits, run.namespace, SELDOM, random));
        let sheet = store.layout().unwrap_or_default();
        if turn % 40 == 0 && sheet.len() < 3000 {
            changed(&sheet, sheet.len() / 300, random, |bytes| {
                damaged(bytes, &next, t)
            });
        }
        swapped(&store, &next, t);
    }
}

/// Longer lists of offers to stores that hold many entries, among them paths below paths below paths.
pub fn nested(limits: Limits, lists: usize, random: &mut Random, t: &mut Tally) {
    for _ in 0..lists {
        let (capacity, offers) = (10 + random.below(40) as u64, 30 + random.below(50));
        if let Some(run) = list(limits, (capacity, offers, 100 * SELDOM), random, t) {
            swapped(
                &run.model(),
                &offer(limits, run.namespace, SELDOM, random),
                t,
            );
        }
    }
}

/// The largest sheet that there is, and a long list to a store with much room.
pub fn largest(random: &mut Random, t: &mut Tally) {
    list(Limits::BOUNDS, (MAX_CAPACITY, 3, SELDOM), random, t);
    let limits = Limits::new(2, 6, 8);
    list(limits, (MAX_CAPACITY, 250, 100 * SELDOM), random, t);
}

/// A list of so many offers to a fresh store, some of them made before.
fn list(
    limits: Limits,
    (capacity, offers, seldom): (u64, usize, usize),
    random: &mut Random,
    t: &mut Tally,
) -> Option<Run> {
    let namespace = [0, 7, u64::MAX][random.below(3)];
    let mut run = Run::fresh(limits, capacity, namespace, t)?;
    for _ in 0..offers {
        let next = match run.list.is_empty() || random.below(5) > 0 {
            true => offer(limits, namespace, seldom, random),
            false => run.list[random.below(run.list.len())].clone(),
        };
        run.offer(next, t);
    }
    run.read_back(t);
    Some(run)
}

/// All lists of three offers from a few, at each small capacity.
pub fn exhaustive(limits: Limits, paths: &[Vec<Vec<u8>>], t: &mut Tally) {
    let mut offers = Vec::new();
    for path in paths {
        for timestamp in [1, 2] {
            offers.push(Offer {
                namespace: 0,
                subspace: 0,
                path: (pack(path), path.len() as u64),
                timestamp,
                payload_length: 1 << (offers.len() % 60),
                digest: [0; 32],
            });
        }
    }
    for capacity in 0..3 {
        for a in &offers {
            for b in &offers {
                for c in &offers {
                    let Some(mut run) = Run::fresh(limits, capacity, 0, t) else {
                        return;
                    };
                    for offer in [a, b, c] {
                        run.offer(offer.clone(), t);
                    }
                    run.read_back(t);
                }
            }
        }
    }
}

/// Sizes over the bounds, a short buffer, and the greatest sizes.
pub fn over(t: &mut Tally) {
    for (limits, capacity, status) in [
        (Limits::new(1, 1, 1), 4097, 1),
        (Limits::new(1025, 1, 1), 1, 1),
        (Limits::new(1, 1025, 1), 1, 1),
        (Limits::new(1, 1, 4097), 1, 1),
        (Limits::new(1, 1, 1), u64::MAX, 1),
        (Limits::new(1, 1, 1), 4096, 15),
        (Limits::BOUNDS, 0, 0),
    ] {
        let mut out = Guarded::new(100);
        let old = out.as_made();
        let now = plain::store_fresh(limits, capacity, 3, out.lent_mut());
        let same = now.status == status && (status == 0 || out.holds(&old));
        t.same("store: fresh", same, || {
            Input::new(limits, 0, format!("fresh for {capacity}: {now:?}"))
        });
    }
}
