//! Random watchings: starts and steps, each compared with the ledger, every byte that is lent with them.

use crate::calls::WatchCalls;
use crate::gen;
use crate::lent::{Watch, MOST_WATCHED};
use crate::oracle::finder::Constraint;
use crate::oracle::ledger::Refusal;
use crate::oracle::watcher::{numbers, Watched, WATCHED_NUMBERS};
use crate::rng::Rng;

/// Compares what a call answered and every byte that it left with what the ledger says. What stands in the states is the watcher's
/// own affair: for each constraint its template, plus a multiple of 32, and nothing more after a start.
fn compare(
    what: &str,
    said: Result<(), Refusal>,
    wanted: Result<&Watched, Refusal>,
    before: &Watch,
    after: &Watch,
    told: impl FnOnce(&Watched) -> Vec<u8>,
) -> Result<(), String> {
    let failed = |part: &str| Err(format!("{part}: {what} on {before:?} said {said:?} where {wanted:?} was expected; left {after:?}"));
    if said != wanted.map(|_| ()) {
        return failed("answer");
    }
    let mut expected = before.clone();
    if let Ok(ledger) = wanted {
        let count = ledger.constraints.len();
        let states = &after.states.get()[..count];
        let own = |(&s, c): (&u8, &Constraint)| s % 32 == c.template && (s < 32 || !ledger.taken.is_empty());
        if !states.iter().zip(&ledger.constraints).all(own) {
            return failed("states");
        }
        expected.watcher = ledger.watcher();
        expected.states.get_mut()[..count].copy_from_slice(states);
        expected.told.get_mut()[..count].copy_from_slice(&told(ledger));
    }
    match after.difference(&expected) {
        Some(part) => failed(part),
        None => Ok(()),
    }
}

/// Starts a watching, and gives its ledger or the refusal.
pub fn start(subject: &mut dyn WatchCalls, watch: &mut Watch, n: u32) -> Result<Result<Watched, Refusal>, String> {
    let before = watch.clone();
    let wanted = Watched::start(n, before.constraints.get());
    let said = subject.start(watch, n);
    compare(&format!("a start with {n}"), said, wanted.as_ref().map_err(|&r| r), &before, watch, Watched::told)?;
    Ok(wanted)
}

/// A step, where what is to be told is worked out so.
pub fn step_told(
    subject: &mut dyn WatchCalls,
    watch: &mut Watch,
    ledger: &mut Watched,
    activity: u32,
    told: impl FnOnce(&Watched) -> Vec<u8>,
) -> Result<Result<(), Refusal>, String> {
    let before = watch.clone();
    let wanted = ledger.step(activity);
    let said = subject.step(watch, activity);
    compare(&format!("a step {activity}"), said, wanted.map(|()| &*ledger), &before, watch, told)?;
    Ok(wanted)
}

/// A step, where what is to be told is worked out by trying continuations.
pub fn step(subject: &mut dyn WatchCalls, watch: &mut Watch, ledger: &mut Watched, activity: u32) -> Result<Result<(), Refusal>, String> {
    step_told(subject, watch, ledger, activity, Watched::told)
}

/// A constraint over n activities, each template as often as any other, often over the first three activities.
fn constraint(rng: &mut Rng, n: u32) -> Constraint {
    let template = rng.within(1, if n == 1 { 8 } else { 24 }) as u8;
    let among = if rng.chance(50) { n.min(3) } else { n } as usize;
    let a = rng.below(among) as u8;
    if template <= 8 {
        return Constraint { template, a, b: a };
    }
    let b = ((a as usize + rng.within(1, among - 1)) % among) as u8;
    match template {
        9..=12 => Constraint { template, a: a.min(b), b: a.max(b) },
        _ => Constraint { template, a, b },
    }
}

/// A list of so many constraints over n activities. One may stand there more than once.
pub fn list(rng: &mut Rng, n: u32, count: usize) -> Vec<u16> {
    let constraints: Vec<Constraint> = (0..count).map(|_| constraint(rng, n)).collect();
    numbers(&constraints)
}

/// An activity that is not below n; of some of these the lowest 8 or 16 bits are.
pub fn undeclared(rng: &mut Rng, n: u32) -> u32 {
    let x = rng.below(n as usize) as u32;
    rng.pick(&[n, n + 1, n.max(32), 255, 256 + x, 65535, 65536 + x, (1 << 24) + x, (1 << 31) + x, u32::MAX - 31 + x, u32::MAX])
}

pub const DAMAGES: usize = 11;

/// One damage to what a start is given, by its number. It may happen to leave what can be started.
pub fn damage(rng: &mut Rng, kind: usize, n: &mut u32, list: &mut Vec<u16>) {
    if kind == 0 {
        *n = rng.pick(&[0, 33, 34, 64, 255, 256, 256 + *n, 65536, 65536 + *n, 1 << 31, u32::MAX]);
        return;
    }
    let low = (*n).min(32) as u16;
    let outside = |rng: &mut Rng, x: u16| rng.pick(&[low, low + 1, 32, 33, 255, 256 + x % 256, 32768 + x % 256, 65535]);
    let count = list.len() / WATCHED_NUMBERS;
    if count == 0 || kind == 1 {
        list.extend((0..rng.within(1, 2)).map(|_| rng.below(3) as u16));
        return;
    }
    let anywhere = rng.below(count);
    let at = WATCHED_NUMBERS * rng.pick(&[0, anywhere, count - 1]);
    let (template, a, b) = (list[at], list[at + 1], list[at + 2]);
    match kind {
        2 => list.truncate(list.len() - rng.within(1, 2)),
        // More than 256 constraints, or 256 and some numbers.
        3 => {
            let whole = list.clone();
            let most = WATCHED_NUMBERS * MOST_WATCHED;
            list.extend(whole.iter().cycle().take(most));
            list.truncate(most + rng.pick(&[0, 1, 2, 3, 3, 100]));
        }
        4 => list[at] = rng.pick(&[0, 25, 26, 255, 256, 256 + template, 32768 + template, 65535]),
        5 => list[at + 1] = outside(rng, a),
        6 => list[at + 2] = outside(rng, b),
        7 => {
            list[at + 1] = outside(rng, a);
            list[at + 2] = list[at + 1];
        }
        8 => match template {
            1..=8 => list[at + 2] = (a + 1) % low.max(1),
            9..=12 if rng.chance(50) => list.swap(at + 1, at + 2),
            _ => list[at + 2] = a,
        },
        9 => {
            let place = rng.below(list.len());
            list[place] = rng.next() as u16 >> rng.below(16);
        }
        10 => *n = rng.within(1, *n as usize) as u32,
        _ => unreachable!(),
    }
}

/// The sizes of a watching.
#[derive(Clone, Copy)]
pub struct Sizes {
    pub constraints: usize,
    /// Declared activities before the steps.
    pub first: usize,
    pub steps: usize,
}

/// How many starts and steps were made, refused or not, and how often each refusal came.
#[derive(Clone, Copy, Default, Debug)]
pub struct Tally {
    pub starts: usize,
    pub steps: usize,
    pub refused: [usize; 15],
}

impl Tally {
    fn start<T>(&mut self, said: &Result<T, Refusal>) {
        self.starts += 1;
        self.refusal(said);
    }

    fn step<T>(&mut self, said: &Result<T, Refusal>) {
        self.steps += 1;
        self.refusal(said);
    }

    fn refusal<T>(&mut self, said: &Result<T, Refusal>) {
        if let Err(r) = said {
            self.refused[r.number as usize] += 1;
        }
    }

    pub fn add(&mut self, other: Tally) {
        self.starts += other.starts;
        self.steps += other.steps;
        self.refused.iter_mut().zip(other.refused).for_each(|(r, t)| *r += t);
    }
}

/// Plays one random watching to its end. Some starts are made of damaged lists, and some in the midst of the steps, where a refused
/// one leaves the watching to go on.
pub fn play(subject: &mut dyn WatchCalls, seed: u64, sizes: Sizes) -> Result<Tally, String> {
    let rng = &mut Rng::new(seed);
    let mut tally = Tally::default();
    let n = gen::activities(rng);
    let right = list(rng, n, sizes.constraints);
    for _ in 0..rng.below(3) {
        let (mut n, mut wrong) = (n, right.clone());
        for _ in 0..rng.within(1, 2) {
            let kind = rng.below(DAMAGES);
            damage(rng, kind, &mut n, &mut wrong);
        }
        let said = start(subject, &mut Watch::of(rng, &wrong), n).map_err(|e| format!("seed {seed}, damaged list: {e}"))?;
        tally.start(&said);
    }
    let mut watch = Watch::of(rng, &right);
    let said = start(subject, &mut watch, n).map_err(|e| format!("seed {seed}: {e}"))?;
    tally.start(&said);
    let mut ledger = said.expect("the list is right");
    let trace = gen::trace(rng, n, sizes.steps);
    for k in 0..sizes.first + sizes.steps {
        let late = k >= sizes.first;
        if late && rng.chance(4) {
            let other = rng.within(1, 32) as u32;
            let n = rng.pick(&[0, 33, n, n, other]);
            let said = start(subject, &mut watch, n).map_err(|e| format!("seed {seed}, call {k}: {e}"))?;
            tally.start(&said);
            ledger = said.unwrap_or(ledger);
            continue;
        }
        let activity = match k.checked_sub(sizes.first) {
            Some(_) if rng.chance(12) => undeclared(rng, ledger.n),
            Some(k) if k < trace.len() => trace[k] as u32,
            _ => rng.below(ledger.n as usize) as u32,
        };
        let said = step(subject, &mut watch, &mut ledger, activity).map_err(|e| format!("seed {seed}, call {k}: {e}"))?;
        tally.step(&said);
    }
    Ok(tally)
}
