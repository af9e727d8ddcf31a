//! Histories of calls, each compared with the model (every byte that is lent) and with the ledger (what is answered).

use crate::calls::{Calls, FindAnswer, Settings};
use crate::gen;
use crate::lent::{Lent, Memory};
use crate::oracle::finder::{room_for_all, NUMBERS};
use crate::oracle::ledger::{Ledger, Refusal};
use crate::oracle::memory::Model;
use crate::rng::Rng;
use std::cmp::Ordering;

#[derive(Clone, Debug)]
pub enum Call {
    Open(u32),
    Add(Vec<u8>),
    Read(Vec<u8>),
    Find(Settings, Lent<u16>),
}

/// What a call answered, in one shape for all four.
#[derive(Clone, Copy, PartialEq, Eq, Debug)]
pub enum Said {
    Opened,
    Added,
    Read(u32),
    Found(FindAnswer),
    Refused(Refusal),
}

/// Makes one call on a memory.
pub fn make(calls: &mut dyn Calls, memory: &mut Memory, call: &mut Call) -> Said {
    let said = match call {
        Call::Open(n) => calls.open(*n).map(|opened| {
            memory.record = opened;
            Said::Opened
        }),
        Call::Add(trace) => calls.add(memory, trace).map(|()| Said::Added),
        Call::Read(log) => calls.read(memory, log).map(Said::Read),
        Call::Find(settings, list) => calls.find(memory, *settings, list.get_mut()).map(Said::Found),
    };
    said.unwrap_or_else(Said::Refused)
}

fn arguments_kept(before: &Call, after: &Call) -> bool {
    match (before, after) {
        (Call::Add(x), Call::Add(y)) | (Call::Read(x), Call::Read(y)) => x == y,
        _ => true,
    }
}

/// Makes a call on the memory and on a copy by the model, and compares the answers and every byte after them.
pub fn compare(subject: &mut dyn Calls, memory: &mut Memory, call: &Call) -> Result<Said, String> {
    let (mut modelled, mut subjects) = (call.clone(), call.clone());
    let mut expected = memory.clone();
    let before = memory.clone();
    let wanted = make(&mut Model, &mut expected, &mut modelled);
    let said = make(subject, memory, &mut subjects);
    let failed = |what: &str| Err(format!("{what}: {call:?} on {before:?} said {said:?} where {wanted:?} was expected; left {memory:?}"));
    if wanted != said {
        return failed("answer");
    }
    if let Some(part) = memory.difference(&expected) {
        return failed(part);
    }
    if let (Call::Find(_, list), Call::Find(_, wanted)) = (&subjects, &modelled) {
        if list != wanted {
            return failed("list");
        }
    }
    if !arguments_kept(call, &subjects) {
        return failed("arguments");
    }
    Ok(said)
}

/// What the ledger answers.
fn in_ledger(ledger: &mut Ledger, call: &Call) -> Said {
    let said = match call {
        Call::Open(n) => ledger.open(*n).map(|()| Said::Opened),
        Call::Add(trace) => ledger.add(trace).map(|()| Said::Added),
        Call::Read(log) => ledger.read(log).map(Said::Read),
        Call::Find(settings, list) => ledger.find(*settings, list.get().len()).map(|found| Said::Found(found.answer())),
    };
    said.unwrap_or_else(Said::Refused)
}

/// How often each answer was given: accepted calls under 0, refusals under their numbers.
pub type Tally = [usize; 16];

/// A history in progress: the memory as the calls left it, and the ledger that was fed their arguments alone.
pub struct History<C> {
    pub subject: C,
    pub memory: Memory,
    pub ledger: Ledger,
    pub tally: Tally,
}

impl<C: Calls> History<C> {
    /// A fresh store beside buffers of any content.
    pub fn fresh(mut subject: C, rng: &mut Rng, n: u32, events_room: usize, ends_room: usize, words_room: usize) -> History<C> {
        let events = Lent::new(rng, events_room, |rng| rng.byte());
        let mut numbers = |room| Lent::new(rng, room, |rng| rng.next() as u32 >> rng.below(32));
        let (ends, words) = (numbers(ends_room), numbers(words_room));
        let record = subject.open(n).expect("a fresh store is opened");
        let ledger = Ledger::fresh(n, events_room, ends_room, words_room);
        History { subject, memory: Memory { record, events, ends, words }, ledger, tally: [0; 16] }
    }

    pub fn call(&mut self, call: Call) -> Result<Said, String> {
        let said = compare(&mut self.subject, &mut self.memory, &call)?;
        let wanted = in_ledger(&mut self.ledger, &call);
        if wanted != said {
            return Err(format!("the ledger answers {wanted:?} and not {said:?} to {call:?}"));
        }
        self.tally[if let Said::Refused(r) = said { r.number as usize } else { 0 }] += 1;
        Ok(said)
    }
}

/// The sizes of a history.
#[derive(Clone, Copy)]
pub struct Sizes {
    pub events: usize,
    pub ends: usize,
    pub words: usize,
    pub calls: usize,
    pub longest: usize,
    pub lines: usize,
    /// How many of a hundred added traces are empty, beside those that come so.
    pub empty: usize,
}

/// How often 8 came by the words alone and by the ends alone, in histories that keep no 4095 traces.
#[derive(Default, Debug)]
pub struct Full {
    pub by_words: usize,
    pub by_ends: usize,
}

impl Full {
    /// Counts a history of these sizes: where one of the two slices is the shorter, 8 comes by that one.
    pub fn count(&mut self, sizes: Sizes, tally: Tally) {
        match sizes.words.cmp(&sizes.ends) {
            Ordering::Less => self.by_words += tally[8],
            Ordering::Greater => self.by_ends += tally[8],
            Ordering::Equal => {}
        }
    }
}

fn added_trace(rng: &mut Rng, n: u32, Sizes { longest, empty, .. }: Sizes) -> Vec<u8> {
    if rng.chance(empty) {
        return vec![];
    }
    let mut w = gen::trace(rng, n, longest);
    match rng.below(12) {
        0 => w.insert(rng.below(w.len() + 1), rng.pick(&[n as u8, n as u8 + 1, 32, 255])),
        1 => {
            for _ in 0..rng.within(1, 3) {
                w.insert(rng.below(w.len() + 1), rng.byte());
            }
        }
        2 => {
            w.insert(0, rng.pick(&[n as u8, 255]));
            w.push(rng.pick(&[n as u8, 255]));
        }
        3 if longest > 4000 => w.resize(rng.pick(&[4095, 4096, 4097, 5000]), 0),
        _ => {}
    }
    w
}

/// A slice for the list: too short by little or much, exact, or longer; a length that is no multiple of a constraint's, too.
fn list(rng: &mut Rng, ledger: &Ledger, settings: Settings) -> Lent<u16> {
    let needed = match rng.below(3) {
        0 => rng.within(0, 15 * NUMBERS),
        _ => match ledger.find(settings, 0) {
            Err(Refusal { number: 10, detail }) => NUMBERS * detail as usize,
            _ => rng.within(0, 2 * NUMBERS),
        },
    };
    let all = room_for_all(ledger.n);
    let len = match rng.below(10) {
        0 => needed.saturating_sub(rng.within(1, NUMBERS + 1)),
        1 => rng.below(needed + 1),
        2 => 0,
        3 => needed + rng.within(1, 2 * NUMBERS + 1),
        4 => needed + 250 * NUMBERS,
        5 => all,
        6 => all - rng.within(1, NUMBERS + 1),
        _ => needed,
    };
    Lent::new(rng, len, |rng| rng.next() as u16)
}

pub fn next_call(rng: &mut Rng, ledger: &Ledger, sizes: Sizes) -> Call {
    let n = ledger.n;
    match rng.below(20) {
        0 => Call::Open(match rng.below(4) {
            0 => rng.pick(&[0, 33, 34, 256, 257, 288, u32::MAX, 1 << 31, 65537]),
            _ => gen::activities(rng),
        }),
        1..=7 => Call::Add(added_trace(rng, n, sizes)),
        8..=13 => {
            let count = rng.below(6);
            let longest = rng.within(1, sizes.longest.min(sizes.lines));
            let traces = gen::traces(rng, n, count, longest);
            Call::Read(gen::maybe_damaged_log(rng, n, &traces))
        }
        _ => {
            let settings = if rng.below(8) == 0 { gen::any_settings(rng) } else { gen::settings(rng) };
            Call::Find(settings, list(rng, ledger, settings))
        }
    }
}

/// Plays one random history to its end.
pub fn play(subject: &mut dyn Calls, seed: u64, sizes: Sizes) -> Result<Tally, String> {
    let mut rng = Rng::new(seed);
    let n = gen::activities(&mut rng);
    let mut history = History::fresh(subject, &mut rng, n, sizes.events, sizes.ends, sizes.words);
    for k in 0..sizes.calls {
        let call = next_call(&mut rng, &history.ledger, sizes);
        history.call(call).map_err(|e| format!("seed {seed}, call {k}: {e}"))?;
    }
    Ok(history.tally)
}
