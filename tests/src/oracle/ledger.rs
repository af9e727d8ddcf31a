//! The ledger of document 01: it is fed the fresh store's N, the lengths of the store's buffers and each call's arguments, and
//! works out by itself what each call answers.

use super::columns;
use super::finder::{self, Found, NUMBERS};
use crate::calls::Settings;

pub const LONGEST_TRACE: usize = 4096;
pub const MOST_TRACES: usize = 4095;

/// A refusal's number and detail.
#[derive(Clone, Copy, PartialEq, Eq, Debug)]
pub struct Refusal {
    pub number: u32,
    pub detail: u64,
}

pub fn refusal(number: u32, detail: usize) -> Refusal {
    Refusal { number, detail: detail as u64 }
}

#[derive(Clone, PartialEq, Eq, Debug)]
pub struct Ledger {
    pub n: u32,
    pub traces: Vec<Vec<u8>>,
    pub events_room: usize,
    pub ends_room: usize,
    pub words_room: usize,
}

/// 3, and right after it 15.
pub fn in_range(settings: Settings) -> Result<(), Refusal> {
    match settings {
        Settings { threshold: 0 | 1001.., .. } => Err(refusal(3, 0)),
        Settings { confidence: 1001.., .. } => Err(refusal(15, 0)),
        _ => Ok(()),
    }
}

pub fn opens(n: u32) -> Result<(), Refusal> {
    if (1..=32).contains(&n) {
        Ok(())
    } else {
        Err(refusal(2, 0))
    }
}

impl Ledger {
    pub fn fresh(n: u32, events_room: usize, ends_room: usize, words_room: usize) -> Ledger {
        assert_eq!(opens(n), Ok(()));
        Ledger { n, traces: Vec::new(), events_room, ends_room, words_room }
    }

    pub fn last_end(&self) -> usize {
        self.traces.iter().map(Vec::len).sum()
    }

    fn no_more_traces(&self) -> bool {
        [MOST_TRACES, self.ends_room, self.words_room].contains(&self.traces.len())
    }

    pub fn open(&mut self, n: u32) -> Result<(), Refusal> {
        opens(n)?;
        self.n = n;
        self.traces.clear();
        Ok(())
    }

    /// Refusal 6 carries the lowest place, from 1, of an undeclared step.
    pub fn add(&mut self, trace: &[u8]) -> Result<(), Refusal> {
        let undeclared = |&place: &usize| trace[place - 1] as u32 >= self.n;
        if let Some(lowest) = (1..=trace.len()).filter(undeclared).min() {
            return Err(refusal(6, lowest));
        }
        if trace.len() > LONGEST_TRACE {
            return Err(refusal(7, 0));
        }
        if self.no_more_traces() {
            return Err(refusal(8, 0));
        }
        if self.last_end() + trace.len() > self.events_room {
            return Err(refusal(9, 0));
        }
        self.traces.push(trace.to_vec());
        Ok(())
    }

    /// The number of traces added.
    pub fn read(&mut self, log: &[u8]) -> Result<u32, Refusal> {
        let mut next = self.clone();
        let mut total = self.last_end();
        let mut before: Option<u32> = None;
        for (k, bytes) in log.chunks(10).enumerate() {
            let at = k + 1;
            let line = columns::line(bytes).ok_or(refusal(4, at))?;
            if before.is_some_and(|number| line.number < number) {
                return Err(refusal(5, at));
            }
            if line.activity >= self.n {
                return Err(refusal(6, at));
            }
            let starts = before != Some(line.number);
            if !starts && next.traces.last().unwrap().len() == LONGEST_TRACE {
                return Err(refusal(7, at));
            }
            if starts && next.no_more_traces() {
                return Err(refusal(8, at));
            }
            if total + 1 > self.events_room {
                return Err(refusal(9, at));
            }
            if starts {
                next.traces.push(Vec::new());
            }
            next.traces.last_mut().unwrap().push(line.activity as u8);
            total += 1;
            before = Some(line.number);
        }
        let added = next.traces.len() - self.traces.len();
        *self = next;
        Ok(added as u32)
    }

    pub fn find(&self, settings: Settings, list_room: usize) -> Result<Found, Refusal> {
        in_range(settings)?;
        if self.traces.iter().all(|w| w.is_empty()) {
            return Err(refusal(11, 0));
        }
        let found = finder::find(self.n, &self.traces, settings);
        if list_room < NUMBERS * found.list.len() {
            return Err(refusal(10, found.list.len()));
        }
        Ok(found)
    }
}
