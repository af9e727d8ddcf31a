//! The calls through the archive that `tools/build` makes. The declarations follow include/budgieleaf.h; nothing checks them
//! against the Rattle source but these tests. Beside what a call answers, the wrappers look at each number that it must leave or
//! set: a call that leaves or sets another ends the test at once.

use crate::calls::{Calls, FindAnswer, Settings, WatchCalls};
use crate::lent::{Memory, Record, Watch, Watcher, MOST_WATCHED};
use crate::oracle::ledger::Refusal;

#[link(name = "capi", kind = "static")]
extern "C" {
    fn budgieleaf_open(n: u32, store: *mut u32) -> u32;
    fn budgieleaf_is_sound(
        store: *const u32,
        events: *const u8,
        events_length: usize,
        ends: *const u32,
        ends_length: usize,
        words: *const u32,
        words_length: usize,
    ) -> bool;
    fn budgieleaf_add(
        store: *mut u32,
        events: *mut u8,
        events_length: usize,
        ends: *mut u32,
        ends_length: usize,
        words: *mut u32,
        words_length: usize,
        trace: *const u8,
        trace_length: usize,
        answer: *mut u64,
    ) -> u32;
    fn budgieleaf_read(
        store: *mut u32,
        events: *mut u8,
        events_length: usize,
        ends: *mut u32,
        ends_length: usize,
        words: *mut u32,
        words_length: usize,
        log: *const u8,
        log_length: usize,
        answer: *mut u64,
    ) -> u32;
    fn budgieleaf_find(
        store: *const u32,
        events: *const u8,
        events_length: usize,
        ends: *const u32,
        ends_length: usize,
        words: *const u32,
        words_length: usize,
        threshold: u32,
        confidence: u32,
        list: *mut u16,
        list_length: usize,
        answer: *mut u64,
    ) -> u32;
    fn budgieleaf_watch_start(
        n: u32,
        watcher: *mut u32,
        constraints: *const u16,
        constraints_length: usize,
        states: *mut u8,
        told: *mut u8,
    ) -> u32;
    fn budgieleaf_watch_step(
        watcher: *mut u32,
        constraints: *const u16,
        constraints_length: usize,
        states: *mut u8,
        told: *mut u8,
        activity: u32,
    ) -> u32;
}

/// What stands in numbers before a call that is to write them or leave them, and on both sides of them throughout.
const MARK: u32 = 0xA5C3_5A3C;

/// The record's two numbers between marks.
struct Store([u32; 4]);

impl Store {
    fn new(record: Record) -> Store {
        Store([MARK, record.activities, record.traces, MARK])
    }

    fn numbers(&mut self) -> *mut u32 {
        self.0[1..].as_mut_ptr()
    }

    fn record(&self) -> Record {
        assert!(self.0[0] == MARK && self.0[3] == MARK, "written beside the record");
        Record { activities: self.0[1], traces: self.0[2] }
    }
}

/// The answer's four numbers between marks.
struct Answer([u64; 6]);

impl Answer {
    fn new() -> Answer {
        Answer([MARK as u64; 6])
    }

    fn numbers(&mut self) -> *mut u64 {
        self.0[1..].as_mut_ptr()
    }

    fn read(&self) -> [u64; 4] {
        assert!(self.0[0] == MARK as u64 && self.0[5] == MARK as u64, "written beside the answer");
        [self.0[1], self.0[2], self.0[3], self.0[4]]
    }

    /// The answer's numbers, or the refusal; of a refusal only the detail may be other than 0.
    fn said(&self, number: u32) -> Result<[u64; 4], Refusal> {
        let [detail, others @ ..] = self.read();
        if number == 0 {
            return Ok(self.read());
        }
        assert_eq!(others, [0; 3], "numbers behind the detail of refusal {number}");
        Err(Refusal { number, detail })
    }
}

pub struct Archive;

impl Archive {
    pub fn is_sound(memory: &Memory) -> bool {
        let mut store = Store::new(memory.record);
        let (events, ends, words) = (memory.events.get(), memory.ends.get(), memory.words.get());
        let said = unsafe {
            budgieleaf_is_sound(store.numbers(), events.as_ptr(), events.len(), ends.as_ptr(), ends.len(), words.as_ptr(), words.len())
        };
        assert_eq!(store.record(), memory.record);
        said
    }
}

impl Calls for Archive {
    fn open(&mut self, n: u32) -> Result<Record, Refusal> {
        let before = Record { activities: MARK, traces: MARK };
        let mut store = Store::new(before);
        let number = unsafe { budgieleaf_open(n, store.numbers()) };
        if number == 0 {
            return Ok(store.record());
        }
        assert_eq!(store.record(), before, "a refused open leaves the record");
        Err(Refusal { number, detail: 0 })
    }

    fn add(&mut self, memory: &mut Memory, trace: &[u8]) -> Result<(), Refusal> {
        let (mut store, mut answer) = (Store::new(memory.record), Answer::new());
        let (events, ends, words) = (memory.events.get_mut(), memory.ends.get_mut(), memory.words.get_mut());
        let number = unsafe {
            budgieleaf_add(
                store.numbers(),
                events.as_mut_ptr(),
                events.len(),
                ends.as_mut_ptr(),
                ends.len(),
                words.as_mut_ptr(),
                words.len(),
                trace.as_ptr(),
                trace.len(),
                answer.numbers(),
            )
        };
        memory.record = store.record();
        answer.said(number).map(|numbers| assert_eq!(numbers, [0; 4]))
    }

    fn read(&mut self, memory: &mut Memory, log: &[u8]) -> Result<u32, Refusal> {
        let (mut store, mut answer) = (Store::new(memory.record), Answer::new());
        let (events, ends, words) = (memory.events.get_mut(), memory.ends.get_mut(), memory.words.get_mut());
        let number = unsafe {
            budgieleaf_read(
                store.numbers(),
                events.as_mut_ptr(),
                events.len(),
                ends.as_mut_ptr(),
                ends.len(),
                words.as_mut_ptr(),
                words.len(),
                log.as_ptr(),
                log.len(),
                answer.numbers(),
            )
        };
        memory.record = store.record();
        answer.said(number).map(|[added, others @ ..]| {
            assert_eq!(others, [0; 3]);
            u32::try_from(added).expect("a number of traces")
        })
    }

    fn find(&mut self, memory: &Memory, settings: Settings, list: &mut [u16]) -> Result<FindAnswer, Refusal> {
        let (mut store, mut answer) = (Store::new(memory.record), Answer::new());
        let (events, ends, words) = (memory.events.get(), memory.ends.get(), memory.words.get());
        let number = unsafe {
            budgieleaf_find(
                store.numbers(),
                events.as_ptr(),
                events.len(),
                ends.as_ptr(),
                ends.len(),
                words.as_ptr(),
                words.len(),
                settings.threshold,
                settings.confidence,
                list.as_mut_ptr(),
                list.len(),
                answer.numbers(),
            )
        };
        assert_eq!(store.record(), memory.record, "find leaves the record");
        let number_of = |k: u64| u32::try_from(k).expect("a number of 32 bits");
        answer.said(number).map(|[listed, replayed, traces, events_read]| FindAnswer {
            listed: number_of(listed),
            replayed: number_of(replayed),
            traces: number_of(traces),
            events_read,
        })
    }
}

/// A byte for each constraint that can be watched.
pub type Bytes = [u8; MOST_WATCHED];

/// The call itself, with nothing beside what is lent.
pub fn watch_start(n: u32, watcher: &mut [u32; 3], constraints: &[u16], states: &mut Bytes, told: &mut Bytes) -> u32 {
    let (constraints, length) = (constraints.as_ptr(), constraints.len());
    unsafe { budgieleaf_watch_start(n, watcher.as_mut_ptr(), constraints, length, states.as_mut_ptr(), told.as_mut_ptr()) }
}

/// The call itself, with nothing beside what is lent.
#[inline]
pub fn watch_step(watcher: &mut [u32; 3], constraints: &[u16], states: &mut Bytes, told: &mut Bytes, activity: u32) -> u32 {
    let (constraints, length) = (constraints.as_ptr(), constraints.len());
    unsafe { budgieleaf_watch_step(watcher.as_mut_ptr(), constraints, length, states.as_mut_ptr(), told.as_mut_ptr(), activity) }
}

/// Lends a watching's memory to a call, the record's three numbers between marks.
fn lend(watch: &mut Watch, call: impl FnOnce(&mut [u32; 3], &[u16], &mut Bytes, &mut Bytes) -> u32) -> Result<(), Refusal> {
    let Watcher { activities, constraints, taken } = watch.watcher;
    let mut whole = [MARK, activities, constraints, taken, MARK];
    let numbers = (&mut whole[1..4]).try_into().unwrap();
    let states = watch.states.get_mut().try_into().expect("256 states");
    let told = watch.told.get_mut().try_into().expect("256 bytes to tell in");
    let number = call(numbers, watch.constraints.get(), states, told);
    let [before, activities, constraints, taken, after] = whole;
    assert!(before == MARK && after == MARK, "written beside the watcher");
    watch.watcher = Watcher { activities, constraints, taken };
    if number == 0 {
        Ok(())
    } else {
        Err(Refusal { number, detail: 0 })
    }
}

impl WatchCalls for Archive {
    fn start(&mut self, watch: &mut Watch, n: u32) -> Result<(), Refusal> {
        lend(watch, |watcher, constraints, states, told| watch_start(n, watcher, constraints, states, told))
    }

    fn step(&mut self, watch: &mut Watch, activity: u32) -> Result<(), Refusal> {
        lend(watch, |watcher, constraints, states, told| watch_step(watcher, constraints, states, told, activity))
    }
}
