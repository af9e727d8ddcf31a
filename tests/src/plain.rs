//! A finder in plain Rust, as fast as its kind allows and with no proof: what the benchmark sets beside the archive's `find`. It
//! works as that one does: class by template number, support counted from the words alone, one replay of each trace for each
//! constraint that pruning keeps, and one before that where the list might not fit; no memory but what is lent. Traces that do not count
//! for the constraint's class are passed over, told by their words. A replay keeps
//! one state of the constraint's own automaton and looks the next one up. It counts support for each constraint, and not once a
//! pair, as it has no place to remember it, and activated traces for each constraint whose count meets the threshold. A second finder is what
//! a user might write without words: it does not look at them, and lets the standard library search the events, for support, for what is
//! activated and for what is to be replayed.

use crate::calls::{FindAnswer, Settings};
use crate::lent::{Memory, Record};
use crate::oracle::finder::{room_for_all, NUMBERS};
use crate::oracle::ledger::{in_range, refusal, Refusal};
use crate::oracle::templates::{verdict, Verdict};
use std::collections::HashMap;

const STATES: usize = 16;

/// For each template its automaton over the letters other, a and b, which are 0, 1 and 2. State 0 is the start. A state is kept as
/// four times its number, so that it and a letter add up to the next one's place.
pub struct Automaton {
    next: [[u8; 4 * STATES]; 25],
    fulfilled: [[bool; STATES]; 25],
}

/// All words over three letters of at most this length.
fn words(longest: usize) -> Vec<Vec<u8>> {
    let mut all = vec![vec![]];
    let mut from = 0;
    for _ in 0..longest {
        let to = all.len();
        for k in from..to {
            for x in 0..3 {
                let mut w: Vec<u8> = all[k].clone();
                w.push(x);
                all.push(w);
            }
        }
        from = to;
    }
    all
}

impl Automaton {
    /// Made from the templates' meaning: two words lead to one state when no continuation of up to four events tells them apart.
    /// For one-step templates the letter b does not come.
    #[allow(clippy::new_without_default)]
    pub fn new() -> Automaton {
        let mut made = Automaton { next: [[0; 4 * STATES]; 25], fulfilled: [[false; STATES]; 25] };
        let suffixes = words(4);
        for template in 1..=24 {
            let letters: &[u8] = if template <= 8 { &[0, 1] } else { &[0, 1, 2] };
            let told = |w: &[u8]| -> Vec<Verdict> { suffixes.iter().map(|s| verdict(template, 1, 2, &[w, s].concat())).collect() };
            let mut states: Vec<Vec<u8>> = vec![vec![]];
            let mut known = HashMap::from([(format!("{:?}", told(&[])), 0)]);
            let mut k = 0;
            while k < states.len() {
                for &x in letters {
                    let mut w = states[k].clone();
                    w.push(x);
                    let to = *known.entry(format!("{:?}", told(&w))).or_insert_with(|| {
                        states.push(w);
                        states.len() - 1
                    });
                    made.next[template as usize][4 * k + x as usize] = 4 * to as u8;
                    if template <= 8 && x == 1 {
                        made.next[template as usize][4 * k + 3] = 4 * to as u8;
                    }
                }
                made.fulfilled[template as usize][k] = verdict(template, 1, 2, &states[k]) == Verdict::Fulfilled;
                k += 1;
            }
            assert!(states.len() <= STATES);
        }
        made
    }

    #[inline]
    fn fulfilled(&self, template: u8, a: u8, b: u8, trace: &[u8]) -> bool {
        // For one-step templates a letter 3 comes, where a is b; it is a.
        let next = &self.next[template as usize];
        let mut state = 0;
        for &event in trace {
            let letter = (event == a) as usize + 2 * (event == b) as usize;
            state = next[(state as usize + letter) % (4 * STATES)];
        }
        self.fulfilled[template as usize][state as usize / 4]
    }
}

/// What is kept: a memory's record and its slices, looked up once for all constraints.
#[derive(Clone, Copy)]
struct Kept<'a> {
    record: Record,
    events: &'a [u8],
    ends: &'a [u32],
    words: &'a [u32],
}

/// Nothing where N, the number of traces or the ends are not sound.
fn kept(memory: &Memory) -> Option<Kept<'_>> {
    let (record, events, ends, words) = (memory.record, memory.events.get(), memory.ends.get(), memory.words.get());
    let count = record.traces as usize;
    if !(1..=32).contains(&record.activities) || count > 4095 || count > ends.len() {
        return None;
    }
    let mut last = 0;
    for &end in &ends[..count] {
        if end < last || end - last > 4096 {
            return None;
        }
        last = end;
    }
    Some(Kept { record, events: events.get(..last as usize)?, ends, words })
}

/// The kept traces as parts of the events.
fn all_traces(Kept { record, events, ends, .. }: Kept<'_>) -> impl Iterator<Item = &[u8]> {
    let mut from = 0;
    ends[..record.traces as usize].iter().map(move |&end| {
        let trace = &events[from..end as usize];
        from = end as usize;
        trace
    })
}

/// Those of length 1 or more.
fn traces(store: Kept<'_>) -> impl Iterator<Item = &[u8]> {
    all_traces(store).filter(|w| !w.is_empty())
}

/// What is kept, where each kept word is that of its trace and each kept activity is declared. Each event is looked at once, for
/// both: an activity that is not declared leaves a bit from N on.
fn sound_with_words(memory: &Memory) -> Option<Kept<'_>> {
    let store = kept(memory)?;
    let words = store.words.get(..store.record.traces as usize)?;
    let sound = all_traces(store).zip(words).all(|(trace, &word)| {
        let made = trace.iter().fold(0, |made, &x| made | 1u64 << x.min(63));
        made == word as u64 && made >> store.record.activities == 0
    });
    sound.then_some(Kept { words, ..store })
}

/// What stands for the words of a finder that has none.
static NO_WORDS: [u32; 4095] = [0; 4095];

/// What is kept, where each kept activity is declared, whatever the words.
fn sound_without_words(memory: &Memory) -> Option<Kept<'_>> {
    let store = kept(memory).filter(|store| store.events.iter().all(|&x| (x as u32) < store.record.activities))?;
    Some(Kept { words: &NO_WORDS[..store.record.traces as usize], ..store })
}

fn count_of(words: &[u32], counts: impl Fn(u32) -> bool) -> u32 {
    words.iter().map(|&word| counts(word) as u32).sum()
}

/// The kept traces that count for the constraint's class, one mask and one comparison a word; r is all of length 1 or more.
fn support_by_words(Kept { words, .. }: Kept, r: u32, template: u8, a: u8, b: u8) -> u32 {
    let either = 1 << a | 1 << b;
    match template {
        1..=3 | 7..=8 => count_of(words, |word| word & 1 << a != 0),
        4..=6 => r,
        9..=10 | 12 | 23..=24 => count_of(words, |word| word & either != 0),
        _ => count_of(words, |word| word & either == either),
    }
}

/// The kept traces in which the constraint is activated; r is all of length 1 or more.
fn activated_by_words(Kept { words, .. }: Kept, r: u32, template: u8, a: u8, b: u8) -> u32 {
    let some = match template {
        1..=10 => return r,
        13..=16 => 1 << a,
        17..=19 => 1 << b,
        _ => 1 << a | 1 << b,
    };
    count_of(words, |word| word & some != 0)
}

/// Several bytes at a time, as the standard library does, where the trace is long enough for that.
#[inline]
fn has(trace: &[u8], x: u8) -> bool {
    if trace.len() < 16 {
        trace.iter().any(|&event| event == x)
    } else {
        trace.contains(&x)
    }
}

/// The same without words.
fn support_by_library(store: Kept, r: u32, template: u8, a: u8, b: u8) -> u32 {
    let all = traces(store);
    let count = match template {
        1..=3 | 7..=8 => all.filter(|w| has(w, a)).count(),
        4..=6 => r as usize,
        9..=10 | 12 | 23..=24 => all.filter(|w| has(w, a) || has(w, b)).count(),
        _ => all.filter(|w| has(w, a) && has(w, b)).count(),
    };
    count as u32
}

/// The same without words.
fn activated_by_library(store: Kept, r: u32, template: u8, a: u8, b: u8) -> u32 {
    let all = traces(store);
    let count = match template {
        1..=10 => r as usize,
        13..=16 => all.filter(|w| has(w, a)).count(),
        17..=19 => all.filter(|w| has(w, b)).count(),
        _ => all.filter(|w| has(w, a) || has(w, b)).count(),
    };
    count as u32
}

/// How many traces count for a constraint, or activate it: of a store and its R.
type Count = fn(Kept, u32, u8, u8, u8) -> u32;

/// How a finder counts traces without replay.
#[derive(Clone, Copy)]
struct Counts {
    support: Count,
    activated: Count,
}

/// How a finder tells which traces count for a constraint.
trait Tells {
    fn of(template: u8, a: u8, b: u8) -> Self;
    fn counts(&self, trace: &[u8], word: u32) -> bool;
}

/// By their words: one of some bits is set, and all of others.
struct ByWord {
    some: u32,
    all: u32,
}

impl Tells for ByWord {
    #[inline]
    fn of(template: u8, a: u8, b: u8) -> ByWord {
        let (a, b) = (1 << a, 1 << b);
        let (some, all) = match template {
            1..=3 | 7..=8 => (a, 0),
            4..=6 => (u32::MAX, 0),
            9..=10 | 12 | 23..=24 => (a | b, 0),
            _ => (u32::MAX, a | b),
        };
        ByWord { some, all }
    }

    #[inline]
    fn counts(&self, _: &[u8], word: u32) -> bool {
        word & self.some != 0 && word & self.all == self.all
    }
}

/// By a search of their events.
struct BySearch {
    template: u8,
    a: u8,
    b: u8,
}

impl Tells for BySearch {
    #[inline]
    fn of(template: u8, a: u8, b: u8) -> BySearch {
        BySearch { template, a, b }
    }

    #[inline]
    fn counts(&self, trace: &[u8], _: u32) -> bool {
        match self.template {
            1..=3 | 7..=8 => has(trace, self.a),
            4..=6 => !trace.is_empty(),
            9..=10 | 12 | 23..=24 => has(trace, self.a) || has(trace, self.b),
            _ => has(trace, self.a) && has(trace, self.b),
        }
    }
}

/// So many of a number of traces are enough for these thousandths.
fn meets(count: u32, thousandths: u32, traces: u32) -> bool {
    1000 * count >= thousandths * traces
}

/// The fulfilled traces of a constraint, and how many events were read for it.
#[inline]
fn replay<T: Tells>(automaton: &Automaton, store: Kept, template: u8, a: u8, b: u8) -> (u32, u64) {
    let tells = T::of(template, a, b);
    let (mut fulfilled, mut events_read) = (0, 0);
    for (trace, &word) in all_traces(store).zip(store.words) {
        if tells.counts(trace, word) {
            fulfilled += automaton.fulfilled(template, a, b, trace) as u32;
            events_read += trace.len() as u64;
        }
    }
    (fulfilled, events_read)
}

/// Goes over the constraints in their order and hands each one to be listed on, with its counts. Gives the replayed number, and that of the
/// events read.
fn walk<T: Tells>(
    automaton: &Automaton,
    counts: Counts,
    store: Kept,
    r: u32,
    Settings { threshold, confidence }: Settings,
    mut listed: impl FnMut([u16; NUMBERS]),
) -> (u32, u64) {
    let n = store.record.activities as u8;
    let (mut replayed, mut events_read) = (0, 0);
    for template in 1..=24u8 {
        for a in 0..n {
            let (from, to) = match template {
                1..=8 => (a, a + 1),
                9..=12 => (a + 1, n),
                _ => (0, n),
            };
            for b in from..to {
                if template > 12 && a == b {
                    continue;
                }
                if !meets((counts.support)(store, r, template, a, b), threshold, r) {
                    continue;
                }
                let (count, read) = replay::<T>(automaton, store, template, a, b);
                replayed += 1;
                events_read += read;
                if !meets(count, threshold, r) {
                    continue;
                }
                let activated = (counts.activated)(store, r, template, a, b);
                if meets(count, confidence, activated) {
                    listed([template as u16, a as u16, b as u16, count as u16, activated as u16]);
                }
            }
        }
    }
    (replayed, events_read)
}

/// The find of a sound store with r traces of length 1 or more.
fn find<T: Tells>(
    automaton: &Automaton,
    counts: Counts,
    store: Kept,
    r: u32,
    settings: Settings,
    list: &mut [u16],
) -> Result<FindAnswer, Refusal> {
    in_range(settings)?;
    if r == 0 {
        return Err(refusal(11, 0));
    }
    if list.len() < room_for_all(store.record.activities) {
        let mut needed = 0;
        walk::<T>(automaton, counts, store, r, settings, |_| needed += 1);
        if list.len() < NUMBERS * needed {
            return Err(refusal(10, needed));
        }
    }
    let mut listed = 0;
    let mut places = list.chunks_exact_mut(NUMBERS);
    let (replayed, events_read) = walk::<T>(automaton, counts, store, r, settings, |rule| {
        places.next().unwrap().copy_from_slice(&rule);
        listed += 1;
    });
    Ok(FindAnswer { listed, replayed, traces: r, events_read })
}

/// Support, activated traces and R from the words, as the proved code has them.
pub fn by_words(automaton: &Automaton, memory: &Memory, settings: Settings, list: &mut [u16]) -> Result<FindAnswer, Refusal> {
    let store = sound_with_words(memory).ok_or(refusal(1, 0))?;
    let r = count_of(store.words, |word| word != 0);
    let counts = Counts { support: support_by_words, activated: activated_by_words };
    find::<ByWord>(automaton, counts, store, r, settings, list)
}

/// Support, activated traces and R from the traces, without words.
pub fn by_library(automaton: &Automaton, memory: &Memory, settings: Settings, list: &mut [u16]) -> Result<FindAnswer, Refusal> {
    let store = sound_without_words(memory).ok_or(refusal(1, 0))?;
    let r = traces(store).count() as u32;
    let counts = Counts { support: support_by_library, activated: activated_by_library };
    find::<BySearch>(automaton, counts, store, r, settings, list)
}
