//! A watcher in plain Rust, as fast as its kind allows and with no proof: what the benchmark sets beside the archive's. Each
//! constraint keeps the state of its own small automaton; a step is one look-up for each, which gives the next state and what is told.
//! `Watcher` keeps its constraints packed in memory of its own; `step_lent` has no memory but what the archive's is lent.

use crate::capi::Bytes;
use crate::oracle::finder::Constraint;
use crate::oracle::ledger::{refusal, Refusal};
use crate::oracle::templates::holds;
use crate::oracle::watcher::state;

const STATES: usize = 8;
const LETTERS: usize = 4;
const ENTRIES: usize = 32 * STATES * LETTERS;

/// For each template its automaton over the letters other, a and b, which are 0, 1 and 2; for templates 1 to 8, where a is b, a is 3.
/// A state is kept as the place of its first letter, a multiple of four, so that the two bits below are free for what is told in it.
pub struct Table {
    next: [u16; ENTRIES],
    /// What stands at the start.
    start: [u16; 25],
}

fn place(template: u8, state: usize) -> u16 {
    ((template as usize * STATES + state) * LETTERS) as u16
}

/// All words over so many letters of at most this length.
fn words(letters: u8, longest: usize) -> Vec<Vec<u8>> {
    let mut all = vec![vec![]];
    let mut from = 0;
    for _ in 0..longest {
        let to = all.len();
        for k in from..to {
            all.extend((0..letters).map(|x| [&all[k][..], &[x]].concat()).collect::<Vec<_>>());
        }
        from = to;
    }
    all
}

impl Table {
    /// Made from the templates' meaning over n activities: two words lead to one state when no continuation of up to four events
    /// tells them apart.
    pub fn new(n: u32) -> Table {
        let mut made = Table { next: [0; ENTRIES], start: [0; 25] };
        for template in 1..=24 {
            // Activities in place of letters: a is 0, b is 1 or a again, and the next one is the other, if it is declared.
            let b = (template > 8) as u8;
            let letters = n.min(b as u32 + 2) as u8;
            let letter = |x: u8| (x == 0) as usize + 2 * (x == b) as usize;
            let suffixes = words(letters, 4);
            let outcome = |w: &[u8]| -> Vec<bool> { suffixes.iter().map(|s| holds(template, 0, b, &[w, s].concat())).collect() };
            let told = |w: &[u8]| state(letters as u32, Constraint { template, a: 0, b }, w) as u16;
            let mut states: Vec<Vec<u8>> = vec![vec![]];
            made.start[template as usize] = place(template, 0) + told(&[]);
            let mut k = 0;
            while k < states.len() {
                for x in 0..letters {
                    let w = [&states[k][..], &[x]].concat();
                    let same = outcome(&w);
                    let to = states.iter().position(|known| outcome(known) == same).unwrap_or_else(|| {
                        states.push(w.clone());
                        states.len() - 1
                    });
                    made.next[place(template, k) as usize + letter(x)] = place(template, to) + told(&w);
                }
                k += 1;
            }
            assert!(states.len() <= STATES);
        }
        made
    }
}

#[derive(Clone, Copy)]
struct Watched {
    /// The state's place, and what is told in it.
    at: u16,
    a: u8,
    b: u8,
}

pub struct Watcher<'a> {
    table: &'a Table,
    n: u32,
    taken: u32,
    constraints: Vec<Watched>,
}

impl<'a> Watcher<'a> {
    /// The table is one for n activities.
    pub fn start(table: &'a Table, n: u32, numbers: &[u16], told: &mut Bytes) -> Result<Watcher<'a>, Refusal> {
        if !(1..=32).contains(&n) {
            return Err(refusal(2, 0));
        }
        if numbers.len() > 3 * told.len() {
            return Err(refusal(14, 0));
        }
        let watched = |c: &[u16]| {
            let &[template, a, b] = c else { return None };
            let pair = match template {
                1..=8 => a == b,
                9..=12 => a < b,
                13..=24 => a != b,
                _ => false,
            };
            (pair && (a.max(b) as u32) < n).then(|| Watched { at: table.start[template as usize], a: a as u8, b: b as u8 })
        };
        let constraints: Vec<Watched> = numbers.chunks(3).map(watched).collect::<Option<_>>().ok_or(refusal(13, 0))?;
        for (told, c) in told.iter_mut().zip(&constraints) {
            *told = (c.at % 4) as u8;
        }
        Ok(Watcher { table, n, taken: 0, constraints })
    }

    /// Not inlined: the archive's is a call, too.
    #[inline(never)]
    pub fn step(&mut self, activity: u32, told: &mut Bytes) -> Result<(), Refusal> {
        if activity >= self.n {
            return Err(refusal(6, 0));
        }
        if self.taken == 4096 {
            return Err(refusal(7, 0));
        }
        self.taken += 1;
        let (next, x) = (&self.table.next, activity as u8);
        for (told, c) in told.iter_mut().zip(&mut self.constraints) {
            let letter = (x == c.a) as usize + 2 * (x == c.b) as usize;
            c.at = next[((c.at & !3) as usize + letter) % ENTRIES];
            *told = (c.at % 4) as u8;
        }
        Ok(())
    }
}

/// A step by the record, the list and a byte for each state, 0 at the start. The table is one for the record's N.
#[inline(never)]
pub fn step_lent(
    table: &Table,
    watcher: &mut [u32; 3],
    constraints: &[u16],
    states: &mut Bytes,
    told: &mut Bytes,
    activity: u32,
) -> Result<(), Refusal> {
    let [n, count, taken] = *watcher;
    if !(1..=32).contains(&n) || count > 256 || 3 * count as usize != constraints.len() || taken > 4096 {
        return Err(refusal(1, 0));
    }
    if activity >= n {
        return Err(refusal(6, 0));
    }
    if taken == 4096 {
        return Err(refusal(7, 0));
    }
    watcher[2] += 1;
    let x = activity as u16;
    for ((c, state), told) in constraints.chunks_exact(3).zip(states).zip(told) {
        let letter = (x == c[1]) as usize + 2 * (x == c[2]) as usize;
        let next = table.next[(c[0] as usize % 32 * STATES + *state as usize % STATES) * LETTERS + letter];
        *state = next as u8 / 4 % STATES as u8;
        *told = next as u8 % 4;
    }
    Ok(())
}
