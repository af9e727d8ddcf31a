//! The watcher of request 3: what it tells of each constraint over the activities accepted so far, found by trying
//! continuations, and what a start and each step answer.

use super::finder::Constraint;
use super::ledger::{opens, refusal, Refusal, LONGEST_TRACE};
use super::templates::holds;
use crate::calls::WatchCalls;
use crate::lent::{Watch, Watcher, MOST_WATCHED};

/// Holds, and every continuation does.
pub const PERMANENTLY_SATISFIED: u8 = 0;
/// Holds, and some continuation doesn't.
pub const TEMPORARILY_SATISFIED: u8 = 1;
/// Doesn't hold, and some continuation does.
pub const TEMPORARILY_VIOLATED: u8 = 2;
/// Doesn't hold, and no continuation does.
pub const PERMANENTLY_VIOLATED: u8 = 3;

/// The length of continuations that settles every state. What a continuation makes of a template depends on the trace through at
/// most four cases:
///
///     1 to 6        how often a occurred: never, once, twice, more often
///     7             no event yet; the first is a; it is not
///     8             whether the last event is a
///     9 to 13       which of a and b occurred
///     14            whether some a still waits for its b
///     15, 16        the same, or an a has missed its b
///     17, 18        whether a occurred (for 18: since the last b), or a b has missed its a
///     19            whether the last event is a, or a b has missed its a
///     20            nothing; an a waits; none waits and a occurred; a b has missed its a
///     21, 22        whether an a waits, or one has missed its b, or a b its a
///     23, 24        whether a occurred (for 24: is the last event), or a b has followed one
///
/// The case says whether the template holds, and with the next event it gives the next case. So the shortest continuation that makes a
/// constraint hold, or not hold, comes to no case twice, and has at most three events. With fewer it would not do: template 3 on the
/// empty trace wants three.
pub const SETTLES: usize = 3;

/// Whether the trace, or it with some continuation by these activities of at most this length, makes the constraint hold (or not).
fn some(c: Constraint, trace: &mut Vec<u8>, by: &[u8], longest: usize, wanted: bool) -> bool {
    if holds(c.template, c.a, c.b, trace) == wanted {
        return true;
    }
    longest > 0
        && by.iter().any(|&x| {
            trace.push(x);
            let found = some(c, trace, by, longest - 1, wanted);
            trace.pop();
            found
        })
}

/// The state, where continuations are by these activities and of at most this length.
pub fn state_by(c: Constraint, trace: &[u8], by: &[u8], longest: usize) -> u8 {
    let now = holds(c.template, c.a, c.b, trace);
    match (now, some(c, &mut trace.to_vec(), by, longest, !now)) {
        (true, false) => PERMANENTLY_SATISFIED,
        (true, true) => TEMPORARILY_SATISFIED,
        (false, true) => TEMPORARILY_VIOLATED,
        (false, false) => PERMANENTLY_VIOLATED,
    }
}

/// The state of a constraint over a trace of n declared activities.
pub fn state(n: u32, c: Constraint, trace: &[u8]) -> u8 {
    let declared: Vec<u8> = (0..n as u8).collect();
    state_by(c, trace, &declared, SETTLES)
}

/// The same, where n is large: a template asks of an event only whether it is a and whether it is b, so that one declared activity
/// that is neither, if there is one, stands for all of them in a continuation.
pub fn state_of_many(n: u32, c: Constraint, trace: &[u8]) -> u8 {
    let other = (0..n as u8).find(|&x| x != c.a && x != c.b);
    let own = [Some(c.a), (c.b != c.a).then_some(c.b), other];
    let own: Vec<u8> = own.into_iter().flatten().collect();
    state_by(c, trace, &own, SETTLES)
}

/// The numbers of a watched constraint: template, a and b.
pub const WATCHED_NUMBERS: usize = 3;

/// A constraint over n activities, or nothing where the numbers are cut short or wrong.
fn constraint(n: u32, numbers: &[u16]) -> Option<Constraint> {
    let &[template, a, b] = numbers else { return None };
    let pair = match template {
        1..=8 => b == a,
        9..=12 => a < b,
        13..=24 => a != b,
        _ => false,
    };
    let declared = |x: u16| (x as u32) < n;
    (pair && declared(a) && declared(b)).then_some(Constraint { template: template as u8, a: a as u8, b: b as u8 })
}

/// The numbers of these constraints.
pub fn numbers(constraints: &[Constraint]) -> Vec<u16> {
    constraints.iter().flat_map(|c| [c.template as u16, c.a as u16, c.b as u16]).collect()
}

/// The ledger of a watching: it is fed the arguments of a start and of each step, and works out by itself what each answers and
/// what is told.
#[derive(Clone, PartialEq, Eq, Debug)]
pub struct Watched {
    pub n: u32,
    pub constraints: Vec<Constraint>,
    /// The activities accepted so far.
    pub taken: Vec<u8>,
}

impl Watched {
    pub fn start(n: u32, numbers: &[u16]) -> Result<Watched, Refusal> {
        opens(n)?;
        if numbers.len() > WATCHED_NUMBERS * MOST_WATCHED {
            return Err(refusal(14, 0));
        }
        let constraints: Option<Vec<Constraint>> = numbers.chunks(WATCHED_NUMBERS).map(|c| constraint(n, c)).collect();
        Ok(Watched { n, constraints: constraints.ok_or(refusal(13, 0))?, taken: Vec::new() })
    }

    pub fn step(&mut self, activity: u32) -> Result<(), Refusal> {
        if activity >= self.n {
            return Err(refusal(6, 0));
        }
        if self.taken.len() == LONGEST_TRACE {
            return Err(refusal(7, 0));
        }
        self.taken.push(activity as u8);
        Ok(())
    }

    /// A byte for each constraint.
    pub fn told(&self) -> Vec<u8> {
        self.constraints.iter().map(|&c| state_of_many(self.n, c, &self.taken)).collect()
    }

    /// The record that the calls leave.
    pub fn watcher(&self) -> Watcher {
        Watcher { activities: self.n, constraints: self.constraints.len() as u32, taken: self.taken.len() as u32 }
    }
}

/// The calls by the ledger, for one watching at a time: it keeps the activities itself, and of the states only sees to it that each is its
/// template, plus a multiple of 32.
#[derive(Default)]
pub struct Model {
    pub ledger: Option<Watched>,
}

impl Model {
    fn write(&self, watch: &mut Watch) {
        let ledger = self.ledger.as_ref().unwrap();
        watch.watcher = ledger.watcher();
        for (k, state) in ledger.told().into_iter().enumerate() {
            watch.told.get_mut()[k] = state;
            watch.states.get_mut()[k] = ledger.constraints[k].template + if ledger.taken.is_empty() { 0 } else { 32 * state };
        }
    }
}

impl WatchCalls for Model {
    fn start(&mut self, watch: &mut Watch, n: u32) -> Result<(), Refusal> {
        self.ledger = Some(Watched::start(n, watch.constraints.get())?);
        self.write(watch);
        Ok(())
    }

    fn step(&mut self, watch: &mut Watch, activity: u32) -> Result<(), Refusal> {
        self.ledger.as_mut().expect("a watching has started").step(activity)?;
        self.write(watch);
        Ok(())
    }
}
