//! What a call is lent: a store's memory, a watching's memory, and slices with something on both sides of them.

use crate::rng::Rng;

/// A slice that is lent out of the middle of a larger one, so that a write beside it shows.
#[derive(Clone, PartialEq, Eq, Debug)]
pub struct Lent<T> {
    whole: Vec<T>,
    from: usize,
    len: usize,
}

impl<T> Lent<T> {
    pub fn new(rng: &mut Rng, len: usize, mut content: impl FnMut(&mut Rng) -> T) -> Lent<T> {
        let (from, past) = (rng.within(1, 9), rng.within(1, 9));
        let whole = (0..from + len + past).map(|_| content(rng)).collect();
        Lent { whole, from, len }
    }

    /// A slice that holds just these.
    pub fn of(rng: &mut Rng, content: &[T]) -> Lent<T>
    where
        T: Copy + Default,
    {
        let mut lent = Lent::new(rng, content.len(), |_| T::default());
        lent.get_mut().copy_from_slice(content);
        lent
    }

    /// These with nothing beside them, where they are.
    pub fn all(content: Vec<T>) -> Lent<T> {
        Lent { from: 0, len: content.len(), whole: content }
    }

    #[inline]
    pub fn get(&self) -> &[T] {
        &self.whole[self.from..self.from + self.len]
    }

    pub fn get_mut(&mut self) -> &mut [T] {
        &mut self.whole[self.from..self.from + self.len]
    }
}

/// The record of a store of traces: N and the number of traces kept.
#[derive(Clone, Copy, PartialEq, Eq, Debug)]
pub struct Record {
    pub activities: u32,
    pub traces: u32,
}

/// The record of a store beside its buffers.
#[derive(Clone, PartialEq, Eq)]
pub struct Memory {
    pub record: Record,
    pub events: Lent<u8>,
    pub ends: Lent<u32>,
    pub words: Lent<u32>,
}

impl Memory {
    /// Buffers of just these, with nothing beside them.
    pub fn of(record: Record, events: Vec<u8>, ends: Vec<u32>, words: Vec<u32>) -> Memory {
        Memory { record, events: Lent::all(events), ends: Lent::all(ends), words: Lent::all(words) }
    }

    /// The first part that is not as in the other memory; what stands beside a slice belongs to it.
    pub fn difference(&self, other: &Memory) -> Option<&'static str> {
        let parts = [
            ("record", self.record == other.record),
            ("events", self.events == other.events),
            ("ends", self.ends == other.ends),
            ("words", self.words == other.words),
        ];
        parts.into_iter().find(|&(_, same)| !same).map(|(part, _)| part)
    }
}

/// What a slice holds, or how it begins.
fn short<T: std::fmt::Debug>(slice: &[T]) -> String {
    let s = format!("{slice:?}");
    if s.len() > 600 {
        format!("{}..", &s[..600])
    } else {
        s
    }
}

impl std::fmt::Debug for Memory {
    fn fmt(&self, f: &mut std::fmt::Formatter) -> std::fmt::Result {
        let (events, ends, words) = (short(self.events.get()), short(self.ends.get()), short(self.words.get()));
        write!(f, "{:?} events {events} ends {ends} words {words}", self.record)
    }
}

/// The most constraints that are watched, and the bytes lent for their states and for what is told of them, each.
pub const MOST_WATCHED: usize = 256;

/// The record of a watching: N, the number of constraints and of activities taken so far.
#[derive(Clone, Copy, PartialEq, Eq, Debug)]
pub struct Watcher {
    pub activities: u32,
    pub constraints: u32,
    pub taken: u32,
}

/// The record of a watching beside its constraints, their states and what is told.
#[derive(Clone, PartialEq, Eq)]
pub struct Watch {
    pub watcher: Watcher,
    pub constraints: Lent<u16>,
    pub states: Lent<u8>,
    pub told: Lent<u8>,
}

impl Watch {
    /// These constraints, and anything else: a start is to set it.
    pub fn of(rng: &mut Rng, constraints: &[u16]) -> Watch {
        let mut number = || rng.next() as u32 >> rng.below(32);
        let watcher = Watcher { activities: number(), constraints: number(), taken: number() };
        let constraints = Lent::of(rng, constraints);
        let mut bytes = || Lent::new(rng, MOST_WATCHED, |rng| rng.byte());
        Watch { watcher, constraints, states: bytes(), told: bytes() }
    }

    /// The first part that is not as in the other; what stands beside a slice belongs to it.
    pub fn difference(&self, other: &Watch) -> Option<&'static str> {
        let parts = [
            ("watcher", self.watcher == other.watcher),
            ("constraints", self.constraints == other.constraints),
            ("states", self.states == other.states),
            ("told", self.told == other.told),
        ];
        parts.into_iter().find(|&(_, same)| !same).map(|(part, _)| part)
    }
}

impl std::fmt::Debug for Watch {
    fn fmt(&self, f: &mut std::fmt::Formatter) -> std::fmt::Result {
        let (constraints, states, told) = (short(self.constraints.get()), short(self.states.get()), short(self.told.get()));
        write!(f, "{:?} constraints {constraints} states {states} told {told}", self.watcher)
    }
}
