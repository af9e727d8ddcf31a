//! Records and buffers that no history made: each way to be unsound, sound ones at every edge, and arbitrary ones.

use crate::gen;
use crate::lent::{Lent, Memory, Record};
use crate::oracle::memory::word;
use crate::rng::Rng;

/// The parts of a memory before they are lent, while its buffers may still grow and shrink.
struct Parts {
    activities: u32,
    traces: u32,
    events: Vec<u8>,
    ends: Vec<u32>,
    words: Vec<u32>,
}

/// The words of the traces that ends make of events: of a trace past the events that of what is there of it, and of one whose end
/// is below the one before that of an empty one.
pub fn right_words(events: &[u8], ends: &[u32]) -> Vec<u32> {
    let mut from = 0;
    let mut words = Vec::new();
    for &end in ends {
        let to = (end as usize).min(events.len());
        words.push(word(&events[from.min(to)..to]));
        from = to;
    }
    words
}

impl Parts {
    fn lent(self, rng: &mut Rng) -> Memory {
        let record = Record { activities: self.activities, traces: self.traces };
        let (events, ends, words) = (Lent::of(rng, &self.events), Lent::of(rng, &self.ends), Lent::of(rng, &self.words));
        Memory { record, events, ends, words }
    }

    fn last_end(&self) -> usize {
        self.ends[..self.traces as usize].last().map_or(0, |&e| e as usize)
    }

    /// The kept words become right, as many as there are.
    fn set_words(&mut self) {
        let kept = self.ends.len().min(self.traces as usize);
        let right = right_words(&self.events, &self.ends[..kept]);
        self.words.iter_mut().zip(right).for_each(|(word, right)| *word = right);
    }

    /// Where all traces are empty, the last one becomes longer by one.
    fn not_all_empty(&mut self) {
        if self.last_end() == 0 {
            self.ends[self.traces as usize - 1] = 1;
            self.events.insert(0, 0);
            self.set_words();
        }
    }

    /// Where all traces have one word even so, one more is kept, an empty one.
    fn not_all_alike(&mut self) {
        self.not_all_empty();
        let count = self.traces as usize;
        if self.words[..count].iter().all(|&word| word == self.words[0]) {
            self.ends.insert(count, self.last_end() as u32);
            self.words.insert(count, 0);
            self.traces += 1;
        }
    }
}

/// Kept traces, then anything: past the last end activities may be undeclared, past the last kept end ends may fall, and past the
/// last kept word words are of no trace.
fn sound_parts(rng: &mut Rng, least: usize) -> Parts {
    let activities = gen::activities(rng);
    let count = rng.within(least, least + 6);
    let traces = gen::traces(rng, activities, count, 12);
    let mut events = traces.concat();
    let mut total = 0;
    let mut ends: Vec<u32> = Vec::new();
    for w in &traces {
        total += w.len() as u32;
        ends.push(total);
    }
    events.extend((0..rng.pick(&[0, 0, 1, 20])).map(|_| rng.byte()));
    let mut anything = || -> Vec<u32> { (0..rng.pick(&[0, 0, 1, 5])).map(|_| rng.next() as u32 >> rng.below(32)).collect() };
    ends.extend(anything());
    let words = [vec![0; count], anything()].concat();
    let mut p = Parts { activities, traces: count as u32, events, ends, words };
    p.set_words();
    p
}

pub fn sound(rng: &mut Rng) -> Memory {
    sound_parts(rng, 0).lent(rng)
}

pub const UNSOUND: [&str; 12] = [
    "N is 0",
    "N is above 32",
    "more traces than 4095",
    "more traces than ends",
    "an end below the one before",
    "an end more than 4096 above the one before",
    "the last end past the events",
    "a kept step not below N",
    "more traces than words",
    "a word with a bit too many",
    "a word with a bit too few",
    "a word of another trace",
];

/// How many of these kinds, the first ones, do not come of the words: there each kept word is right, as far as there are traces.
pub const BESIDE_WORDS: usize = 8;

pub fn unsound(rng: &mut Rng, kind: usize) -> Memory {
    let mut p = sound_parts(rng, if kind >= 4 { 2 } else { 0 });
    if kind < BESIDE_WORDS {
        damage_beside_words(rng, kind, &mut p);
        p.set_words();
    } else {
        damage_words(rng, kind - BESIDE_WORDS, &mut p);
    }
    p.lent(rng)
}

fn damage_beside_words(rng: &mut Rng, kind: usize, p: &mut Parts) {
    let count = p.traces as usize;
    match kind {
        0 => p.activities = 0,
        1 => p.activities = rng.pick(&[33, 34, 64, 255, 256, 257, 288, 65537, 1 << 31, u32::MAX]),
        2 => {
            let last = p.last_end() as u32;
            p.ends.truncate(count);
            p.ends.resize(4095 + rng.within(1, 300), last);
            p.words.resize(p.ends.len(), 0);
            p.traces = rng.within(4096, p.ends.len()) as u32;
        }
        3 => {
            p.traces = rng.pick(&[p.ends.len() as u32 + 1, p.ends.len() as u32 + 2, 4095, 65536, 1 << 31, u32::MAX]);
            p.words.resize(p.words.len().max(p.traces.min(4095) as usize), 0);
        }
        4 => {
            let at = rng.within(1, count - 1);
            p.ends[at - 1] = p.ends[at - 1].max(1);
            p.ends[at] = rng.below(p.ends[at - 1] as usize) as u32;
        }
        5 => {
            let at = rng.below(count);
            let before = if at == 0 { 0 } else { p.ends[at - 1] };
            let jump = rng.pick(&[4097, 4098, 5000, 8192]);
            let more = before + jump - p.ends[at];
            for end in &mut p.ends[at..count] {
                *end += more;
            }
            p.events.resize(p.last_end() + rng.below(3), 0);
            let n = p.activities as u8;
            p.events.iter_mut().for_each(|x| *x %= n);
        }
        6 => {
            let grown = rng.pick(&[1, 2, 4096, 70000, u32::MAX / 2]);
            p.events.truncate(p.last_end());
            if rng.chance(50) && p.events.pop().is_some() {
                // The events are one short.
            } else {
                p.ends[count - 1] += grown;
            }
        }
        _ => {
            p.not_all_empty();
            let last = p.last_end();
            let at = rng.pick(&[0, last - 1, last / 2]);
            p.events[at] = rng.pick(&[p.activities as u8, p.activities as u8 + 1, 33, 128, 255]).max(p.activities as u8);
        }
    }
}

fn damage_words(rng: &mut Rng, kind: usize, p: &mut Parts) {
    match kind {
        0 => {
            let count = p.traces as usize;
            p.words.truncate(if rng.chance(50) { count - 1 } else { rng.below(count) });
        }
        1 => {
            let at = rng.below(p.traces as usize);
            let unset = |below| -> Vec<u32> { (0..below).filter(|s| p.words[at] >> s & 1 == 0).collect() };
            // From N on there are more of them.
            let declared = unset(p.activities);
            let bits = if declared.is_empty() || rng.chance(50) { unset(32) } else { declared };
            p.words[at] |= 1 << rng.pick(&bits);
        }
        2 => {
            p.not_all_empty();
            let of_some: Vec<usize> = (0..p.traces as usize).filter(|&k| p.words[k] != 0).collect();
            let at = rng.pick(&of_some);
            let bits: Vec<u32> = (0..32).filter(|s| p.words[at] >> s & 1 == 1).collect();
            p.words[at] ^= 1 << rng.pick(&bits);
        }
        _ => {
            p.not_all_alike();
            let count = p.traces as usize;
            let at = rng.below(count);
            let others: Vec<u32> = p.words[..count].iter().copied().filter(|&word| word != p.words[at]).collect();
            p.words[at] = rng.pick(&others);
        }
    }
}

/// Small arbitrary numbers everywhere, so that both kinds come. In most the words are right, as far as there are enough.
pub fn arbitrary(rng: &mut Rng) -> Memory {
    let activities = rng.pick(&[0, 1, 2, 3, 3, 4, 32, 33]);
    let (events_room, ends_room) = (rng.below(12), rng.below(5));
    let words_room = (ends_room + rng.below(4)).saturating_sub(1);
    let width = rng.pick(&[1, 3, 4, 6]);
    let mut p = Parts {
        activities,
        traces: rng.below(ends_room + 2) as u32,
        events: (0..events_room).map(|_| rng.below(width) as u8).collect(),
        ends: (0..ends_room).map(|_| rng.below(events_room + 3) as u32).collect(),
        words: (0..words_room).map(|_| rng.below(1 << width) as u32).collect(),
    };
    if rng.chance(70) {
        p.set_words();
    }
    p.lent(rng)
}

/// A sound memory at each limit: N, number of traces, length of a trace, last end, greatest step.
pub fn at_the_limits(rng: &mut Rng) -> Memory {
    let activities = rng.pick(&[1u32, 2, 32]);
    let (traces, length) = rng.pick(&[(4095usize, 0usize), (4095, 1), (4094, 2), (1, 4096), (3, 4096), (2, 4095)]);
    let spare = rng.pick(&[0, 1, 2]);
    let events = vec![activities as u8 - 1; traces * length + rng.pick(&[0, 1, length, length + 1])];
    let mut ends: Vec<u32> = (1..=traces).map(|k| (k * length) as u32).collect();
    ends.extend(std::iter::repeat_n(u32::MAX, spare));
    let words = vec![u32::MAX; traces + rng.pick(&[0, 1, 2])];
    let mut p = Parts { activities, traces: traces as u32, events, ends, words };
    p.set_words();
    p.lent(rng)
}
