//! The calls as the tests make them. `capi::Archive` makes them through the archive, `oracle::memory::Model` and
//! `oracle::watcher::Model` in plain Rust.

use crate::lent::{Memory, Record, Watch};
use crate::oracle::ledger::Refusal;

/// The numbers of an accepted find.
#[derive(Clone, Copy, PartialEq, Eq, Debug)]
pub struct FindAnswer {
    pub listed: u32,
    pub replayed: u32,
    pub traces: u32,
    /// How many events were handed to replayers, each kept constraint taken once.
    pub events_read: u64,
}

/// What a find is asked by, in thousandths.
#[derive(Clone, Copy, PartialEq, Eq, Debug)]
pub struct Settings {
    pub threshold: u32,
    /// Document 02's k.
    pub confidence: u32,
}

impl Settings {
    /// By a threshold alone: with a confidence of 0.
    pub fn by(threshold: u32) -> Settings {
        Settings { threshold, confidence: 0 }
    }
}

/// Each call on a store is lent its memory, and sets the record there.
pub trait Calls {
    fn open(&mut self, n: u32) -> Result<Record, Refusal>;
    fn add(&mut self, memory: &mut Memory, trace: &[u8]) -> Result<(), Refusal>;
    fn read(&mut self, memory: &mut Memory, log: &[u8]) -> Result<u32, Refusal>;
    fn find(&mut self, memory: &Memory, settings: Settings, list: &mut [u16]) -> Result<FindAnswer, Refusal>;
}

impl<C: Calls + ?Sized> Calls for &mut C {
    fn open(&mut self, n: u32) -> Result<Record, Refusal> {
        (**self).open(n)
    }

    fn add(&mut self, memory: &mut Memory, trace: &[u8]) -> Result<(), Refusal> {
        (**self).add(memory, trace)
    }

    fn read(&mut self, memory: &mut Memory, log: &[u8]) -> Result<u32, Refusal> {
        (**self).read(memory, log)
    }

    fn find(&mut self, memory: &Memory, settings: Settings, list: &mut [u16]) -> Result<FindAnswer, Refusal> {
        (**self).find(memory, settings, list)
    }
}

/// Each call of a watching is lent its memory, and sets the record there.
pub trait WatchCalls {
    fn start(&mut self, watch: &mut Watch, n: u32) -> Result<(), Refusal>;
    fn step(&mut self, watch: &mut Watch, activity: u32) -> Result<(), Refusal>;
}
