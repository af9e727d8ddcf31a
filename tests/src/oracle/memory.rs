//! The calls over any record and any buffers: soundness first, then the ledger's answer over the kept traces, then what is
//! written. `Model` makes them through `Calls`, as the archive does.

use super::finder::{Found, NUMBERS};
use super::ledger::{opens, refusal, Ledger, Refusal, LONGEST_TRACE, MOST_TRACES};
use super::templates::occurs;
use crate::calls::{Calls, FindAnswer, Settings};
use crate::lent::{Memory, Record};

/// The number with bit s set for each activity s, 0 to 31, that occurs in the trace.
pub fn word(trace: &[u8]) -> u32 {
    (0..32).filter(|&s| occurs(trace, s)).map(|s| 1 << s).sum()
}

fn is_word(number: u32, trace: &[u8]) -> bool {
    (0..32).all(|s| (number >> s & 1 == 1) == occurs(trace, s))
}

pub fn is_sound(memory: &Memory) -> bool {
    let (events, ends, words) = (memory.events.get(), memory.ends.get(), memory.words.get());
    let (n, count) = (memory.record.activities as usize, memory.record.traces as usize);
    if !(1..=32).contains(&n) || count > MOST_TRACES || count > ends.len() || count > words.len() {
        return false;
    }
    let kept = &ends[..count];
    let before = |k: usize| if k == 0 { 0 } else { kept[k - 1] as u64 };
    let rising = (0..count).all(|k| before(k) <= kept[k] as u64 && kept[k] as u64 <= before(k) + LONGEST_TRACE as u64);
    let last = before(count);
    let declared = rising && last <= events.len() as u64 && events[..last as usize].iter().all(|&x| (x as usize) < n);
    declared && (0..count).all(|k| is_word(words[k], &events[before(k) as usize..kept[k] as usize]))
}

/// The ledger of a sound memory's kept traces.
pub fn kept(memory: &Memory) -> Ledger {
    let (events, ends) = (memory.events.get(), memory.ends.get());
    let mut ledger = Ledger::fresh(memory.record.activities, events.len(), ends.len(), memory.words.get().len());
    let mut start = 0;
    for &end in &ends[..memory.record.traces as usize] {
        ledger.traces.push(events[start..end as usize].to_vec());
        start = end as usize;
    }
    ledger
}

/// Writes those of a ledger's traces that a memory does not keep yet.
fn write(ledger: &Ledger, memory: &mut Memory) {
    let first = memory.record.traces as usize;
    let (events, ends, words) = (memory.events.get_mut(), memory.ends.get_mut(), memory.words.get_mut());
    let mut at: usize = ledger.traces[..first].iter().map(Vec::len).sum();
    for (k, trace) in ledger.traces.iter().enumerate().skip(first) {
        events[at..at + trace.len()].copy_from_slice(trace);
        at += trace.len();
        ends[k] = at as u32;
        words[k] = word(trace);
    }
    memory.record.traces = ledger.traces.len() as u32;
}

pub struct Model;

impl Model {
    fn grow<T>(memory: &mut Memory, call: impl FnOnce(&mut Ledger) -> Result<T, Refusal>) -> Result<T, Refusal> {
        if !is_sound(memory) {
            return Err(refusal(1, 0));
        }
        let mut ledger = kept(memory);
        let said = call(&mut ledger);
        write(&ledger, memory);
        said
    }
}

impl Calls for Model {
    fn open(&mut self, n: u32) -> Result<Record, Refusal> {
        opens(n).map(|()| Record { activities: n, traces: 0 })
    }

    fn add(&mut self, memory: &mut Memory, trace: &[u8]) -> Result<(), Refusal> {
        Model::grow(memory, |ledger| ledger.add(trace))
    }

    fn read(&mut self, memory: &mut Memory, log: &[u8]) -> Result<u32, Refusal> {
        Model::grow(memory, |ledger| ledger.read(log))
    }

    fn find(&mut self, memory: &Memory, settings: Settings, list: &mut [u16]) -> Result<FindAnswer, Refusal> {
        if !is_sound(memory) {
            return Err(refusal(1, 0));
        }
        let found = kept(memory).find(settings, list.len())?;
        lay_out(&found, list);
        Ok(found.answer())
    }
}

/// The list as it lies in the lent slice.
pub fn lay_out(found: &Found, list: &mut [u16]) {
    for (k, rule) in found.list.iter().enumerate() {
        list[NUMBERS * k..NUMBERS * (k + 1)].copy_from_slice(rule);
    }
}
