//! The finder: every constraint over N activities is counted, and pruning decides only the replayed number. So a pruning that
//! loses a constraint shows as a difference.

use crate::calls::{FindAnswer, Settings};

use super::templates::{occurs, verdict, Verdict};

/// The numbers that a constraint takes in the list: template, a, b, fulfilled and activated traces.
pub const NUMBERS: usize = 5;

/// The length of a list with room for all constraints below n.
pub fn room_for_all(n: u32) -> usize {
    NUMBERS * (14 * n as usize - 6) * n as usize
}

#[derive(Clone, Copy, PartialEq, Eq, Debug)]
pub struct Constraint {
    pub template: u8,
    pub a: u8,
    pub b: u8,
}

/// All constraints below n: rising by template, then a, then b; b repeats a for templates 1 to 8.
pub fn constraints(n: u32) -> Vec<Constraint> {
    let n = n as u8;
    let mut all = Vec::new();
    for template in 1..=24 {
        for a in 0..n {
            for b in 0..n {
                let there = match template {
                    1..=8 => a == b,
                    9..=12 => a < b,
                    _ => a != b,
                };
                if there {
                    all.push(Constraint { template, a, b });
                }
            }
        }
    }
    all
}

/// A number c meets the threshold t over r traces.
pub fn meets(c: usize, t: u32, r: usize) -> bool {
    1000 * c as u64 >= t as u64 * r as u64
}

/// The traces of a constraint that are fulfilled, and those in which it is activated: its verdict is another than not activated.
pub fn counts_of(c: Constraint, traces: &[Vec<u8>]) -> (usize, usize) {
    let verdicts: Vec<Verdict> = traces.iter().map(|w| verdict(c.template, c.a, c.b, w)).collect();
    let count = |f: fn(&Verdict) -> bool| verdicts.iter().filter(|&v| f(v)).count();
    (count(|&v| v == Verdict::Fulfilled), count(|&v| v != Verdict::NotActivated))
}

/// Of so many activated traces enough are fulfilled for a confidence k.
pub fn is_confident(fulfilled: usize, activated: usize, k: u32) -> bool {
    1000 * fulfilled as u64 >= k as u64 * activated as u64
}

/// How many traces contain a, b, either and both.
struct Support {
    with: Vec<usize>,
    with_either: Vec<Vec<usize>>,
    with_both: Vec<Vec<usize>>,
}

fn support(n: u32, traces: &[Vec<u8>]) -> Support {
    let n = n as usize;
    let contains: Vec<Vec<bool>> = (0..n).map(|x| traces.iter().map(|w| occurs(w, x as u8)).collect()).collect();
    let tally = |f: &dyn Fn(usize) -> bool| (0..traces.len()).filter(|&k| f(k)).count();
    Support {
        with: (0..n).map(|a| tally(&|k| contains[a][k])).collect(),
        with_either: (0..n).map(|a| (0..n).map(|b| tally(&|k| contains[a][k] || contains[b][k])).collect()).collect(),
        with_both: (0..n).map(|a| (0..n).map(|b| tally(&|k| contains[a][k] && contains[b][k])).collect()).collect(),
    }
}

/// The template's class decides of a trace by whether it has a and whether it has b.
fn counts(template: u8, a: bool, b: bool) -> bool {
    match template {
        4..=6 => true,
        1..=3 | 7 | 8 => a,
        9 | 10 | 12 | 23 | 24 => a || b,
        11 | 13..=22 => a && b,
        _ => panic!("there are 24 templates"),
    }
}

/// What pruning keeps.
fn is_kept(c: Constraint, s: &Support, threshold: u32, r: usize) -> bool {
    let (a, b) = (c.a as usize, c.b as usize);
    match c.template {
        4..=6 => true,
        1..=3 | 7 | 8 => meets(s.with[a], threshold, r),
        9 | 10 | 12 | 23 | 24 => meets(s.with_either[a][b], threshold, r),
        11 | 13..=22 => meets(s.with_both[a][b], threshold, r),
        _ => panic!("there are 24 templates"),
    }
}

#[derive(Clone, PartialEq, Eq, Debug)]
pub struct Found {
    /// The numbers of each constraint listed.
    pub list: Vec<[u16; NUMBERS]>,
    pub replayed: u32,
    /// R.
    pub traces: u32,
    /// How many events replay reads: each kept constraint those of the traces that count for its class.
    pub events_read: u64,
}

impl Found {
    /// The numbers of it.
    pub fn answer(&self) -> FindAnswer {
        let Found { replayed, traces, events_read, .. } = *self;
        FindAnswer { listed: self.list.len() as u32, replayed, traces, events_read }
    }
}

/// R, all counts and the pruning numbers are taken over the kept traces of length 1 or more.
pub fn find(n: u32, kept: &[Vec<u8>], settings: Settings) -> Found {
    let Settings { threshold, confidence } = settings;
    let traces: Vec<Vec<u8>> = kept.iter().filter(|w| !w.is_empty()).cloned().collect();
    let r = traces.len();
    let s = support(n, &traces);
    let all = constraints(n);
    let list = all
        .iter()
        .map(|&c| (c, counts_of(c, &traces)))
        .filter(|&(_, (fulfilled, activated))| meets(fulfilled, threshold, r) && is_confident(fulfilled, activated, confidence))
        .map(|(c, (fulfilled, activated))| [c.template as u16, c.a as u16, c.b as u16, fulfilled as u16, activated as u16])
        .collect();
    let kept: Vec<Constraint> = all.iter().copied().filter(|&c| is_kept(c, &s, threshold, r)).collect();
    let read_by =
        |c: Constraint| -> usize { traces.iter().filter(|w| counts(c.template, occurs(w, c.a), occurs(w, c.b))).map(|w| w.len()).sum() };
    let events_read = kept.iter().map(|&c| read_by(c) as u64).sum();
    Found { list, replayed: kept.len() as u32, traces: r as u32, events_read }
}
