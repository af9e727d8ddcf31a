//! Tests of the tests: with the model itself as the subject all cases pass, with a faulty one the fault is reported.

use budgieleaf_tests::calls::{Calls, FindAnswer, Settings};
use budgieleaf_tests::lent::{Lent, Memory, Record};
use budgieleaf_tests::memories::{self, right_words};
use budgieleaf_tests::oracle::finder::{room_for_all, NUMBERS};
use budgieleaf_tests::oracle::ledger::Refusal;
use budgieleaf_tests::oracle::memory::{is_sound, kept, word, Model};
use budgieleaf_tests::play::{play, Full, Sizes};
use budgieleaf_tests::rng::Rng;

const SMALL: Sizes = Sizes { events: 60, ends: 9, words: 9, calls: 40, longest: 9, lines: 40, empty: 40 };

#[test]
fn the_model_agrees_with_the_ledger() {
    let (mut reached, mut full) = ([0; 13], Full::default());
    for seed in 0..60 {
        let sizes = Sizes { events: 10 * (seed as usize % 12), ends: seed as usize % 9, words: seed as usize % 11, ..SMALL };
        let tally = play(&mut Model, seed, sizes).unwrap();
        reached.iter_mut().zip(tally).for_each(|(r, t)| *r += t);
        full.count(sizes, tally);
    }
    assert!(full.by_words > 0 && full.by_ends > 0, "{full:?}");
    for number in [0, 2, 3, 4, 5, 6, 8, 9, 10, 11] {
        assert!(reached[number] > 0, "answer {number} never came: {reached:?}");
    }
}

#[derive(Clone, Copy, PartialEq, Debug)]
enum Fault {
    OpensAny,
    EventPast,
    EndPast,
    WordPast,
    EventKept,
    WritesThoughRefused,
    CountsThoughRefused,
    KeepsNothing,
    Number,
    Detail,
    PlaceOfDeclared,
    HighestPlace,
    ListPast,
    ListEntry,
    ListOrder,
    ListThoughRefused,
    Listed,
    Replayed,
    Traces,
    EventsRead,
    SkippedCounted,
    FirstPassCounted,
    ReadCount,
    EmptyDropped,
    FullWithoutEmpty,
    EmptyInR,
    EmptyFulfils,
    EmptyActivates,
    AllActivate,
    OnlyEmptyListed,
    WordMissing,
    WordOfAll,
    WordThoughRefused,
    FullByEndsAlone,
}

const FAULTS: [Fault; 34] = [
    Fault::OpensAny,
    Fault::EventPast,
    Fault::EndPast,
    Fault::WordPast,
    Fault::EventKept,
    Fault::WritesThoughRefused,
    Fault::CountsThoughRefused,
    Fault::KeepsNothing,
    Fault::Number,
    Fault::Detail,
    Fault::PlaceOfDeclared,
    Fault::HighestPlace,
    Fault::ListPast,
    Fault::ListEntry,
    Fault::ListOrder,
    Fault::ListThoughRefused,
    Fault::Listed,
    Fault::Replayed,
    Fault::Traces,
    Fault::EventsRead,
    Fault::SkippedCounted,
    Fault::FirstPassCounted,
    Fault::ReadCount,
    Fault::EmptyDropped,
    Fault::FullWithoutEmpty,
    Fault::EmptyInR,
    Fault::EmptyFulfils,
    Fault::EmptyActivates,
    Fault::AllActivate,
    Fault::OnlyEmptyListed,
    Fault::WordMissing,
    Fault::WordOfAll,
    Fault::WordThoughRefused,
    Fault::FullByEndsAlone,
];

/// The empty traces that a memory keeps.
fn empty(memory: &Memory) -> u32 {
    if is_sound(memory) {
        kept(memory).traces.iter().filter(|w| w.is_empty()).count() as u32
    } else {
        0
    }
}

/// The kept events of a sound memory.
fn events(memory: &Memory) -> u64 {
    kept(memory).traces.iter().map(|w| w.len() as u64).sum()
}

/// The model with one fault, and whether it has come into play.
struct Faulty {
    fault: Fault,
    shown: bool,
}

impl Faulty {
    fn when(&mut self, fault: Fault, possible: bool) -> bool {
        let now = self.fault == fault && possible;
        self.shown |= now;
        now
    }

    fn refusal(&mut self, r: &mut Refusal) {
        if self.when(Fault::Number, true) {
            r.number += 1;
        }
        if self.when(Fault::Detail, true) {
            r.detail += 1;
        }
    }

    fn memory(&mut self, accepted: bool, before: Record, memory: &mut Memory) {
        let (after, events, ends, words) = (&mut memory.record, memory.events.get_mut(), memory.ends.get_mut(), memory.words.get_mut());
        let last = if after.traces == 0 { 0 } else { ends[after.traces as usize - 1] as usize };
        if self.when(Fault::EventKept, accepted && last > 0) {
            events[0] = (events[0] + 1) % 2;
        }
        if self.when(Fault::EventPast, accepted && last < events.len()) {
            events[last] ^= 128;
        }
        if self.when(Fault::EndPast, (after.traces as usize) < ends.len()) {
            ends[after.traces as usize] ^= 1;
        }
        if self.when(Fault::WordPast, (after.traces as usize) < words.len()) {
            words[after.traces as usize] ^= 1;
        }
        if self.when(Fault::WritesThoughRefused, !accepted && last < events.len()) {
            events[events.len() - 1] ^= 4;
        }
        if self.when(Fault::CountsThoughRefused, !accepted) {
            after.traces += 1;
        }
        if self.when(Fault::KeepsNothing, accepted && after.traces > before.traces) {
            *after = before;
        }
    }
}

impl Calls for Faulty {
    fn open(&mut self, n: u32) -> Result<Record, Refusal> {
        match Model.open(n) {
            Err(_) if self.when(Fault::OpensAny, true) => Ok(Record { activities: n, traces: 0 }),
            said => said,
        }
    }

    fn add(&mut self, memory: &mut Memory, trace: &[u8]) -> Result<(), Refusal> {
        let (before, next) = (memory.record, memory.record.traces as usize);
        let there = memory.words.get().get(next).copied();
        let mut said = Model.add(memory, trace);
        if let Err(r) = &mut said {
            self.refusal(r);
            let declared = trace.iter().position(|&x| (x as u32) < before.activities);
            if self.when(Fault::PlaceOfDeclared, r.number == 6 && declared.is_some()) {
                r.detail = declared.unwrap() as u64 + 1;
            }
            let highest = trace.iter().rposition(|&x| x as u32 >= before.activities).map_or(0, |k| k as u64 + 1);
            if self.when(Fault::HighestPlace, r.number == 6 && highest > r.detail) {
                r.detail = highest;
            }
        }
        if self.when(Fault::EmptyDropped, said.is_ok() && trace.is_empty()) {
            memory.record = before;
        }
        let words = memory.words.get_mut();
        if self.when(Fault::WordMissing, said.is_ok() && there != Some(word(trace))) {
            words[next] = there.unwrap();
        }
        if self.when(Fault::WordThoughRefused, said.is_err() && there.is_some_and(|there| there != word(trace))) {
            words[next] = word(trace);
        }
        let full = said.is_err_and(|r| r.number == 8);
        if full && self.when(Fault::FullWithoutEmpty, empty(memory) > 0) {
            said = Ok(());
        }
        if full && self.when(Fault::FullByEndsAlone, next < memory.ends.get().len()) {
            said = Ok(());
        }
        self.memory(said.is_ok(), before, memory);
        said
    }

    fn read(&mut self, memory: &mut Memory, log: &[u8]) -> Result<u32, Refusal> {
        let before = memory.record;
        let mut said = Model.read(memory, log);
        match &mut said {
            Err(r) => self.refusal(r),
            Ok(added) if self.when(Fault::ReadCount, true) => *added += 1,
            _ => {}
        }
        let (from, to) = (before.traces as usize, memory.record.traces as usize);
        let mut of_all: Vec<u32> = memory.words.get()[..to].to_vec();
        (from.max(1)..to).for_each(|k| of_all[k] |= of_all[k - 1]);
        if self.when(Fault::WordOfAll, memory.words.get()[..to] != of_all) {
            memory.words.get_mut()[..to].copy_from_slice(&of_all);
        }
        self.memory(said.is_ok(), before, memory);
        said
    }

    fn find(&mut self, memory: &Memory, settings: Settings, list: &mut [u16]) -> Result<FindAnswer, Refusal> {
        let mut said = Model.find(memory, settings, list);
        match &mut said {
            Err(r) => {
                self.refusal(r);
                if self.when(Fault::ListThoughRefused, !list.is_empty()) {
                    list[0] ^= 1;
                }
            }
            Ok(found) => {
                let used = NUMBERS * found.listed as usize;
                if self.when(Fault::ListPast, used < list.len()) {
                    list[used] ^= 1;
                }
                if self.when(Fault::ListEntry, used > 0) {
                    list[used - 1] ^= 1;
                }
                if self.when(Fault::ListOrder, used >= 2 * NUMBERS) {
                    list[..2 * NUMBERS].rotate_left(NUMBERS);
                }
                found.listed += self.when(Fault::Listed, true) as u32;
                found.replayed += self.when(Fault::Replayed, true) as u32;
                found.traces += self.when(Fault::Traces, true) as u32;
                found.events_read += self.when(Fault::EventsRead, true) as u64;
                let all = found.replayed as u64 * events(memory);
                if self.when(Fault::SkippedCounted, found.events_read != all) {
                    found.events_read = all;
                }
                if self.when(Fault::FirstPassCounted, list.len() < room_for_all(memory.record.activities)) {
                    found.events_read *= 2;
                }
                let empty = empty(memory);
                if self.when(Fault::EmptyInR, empty > 0) {
                    found.traces += empty;
                }
                let absence = list[..used].chunks_mut(NUMBERS).find(|c| c[0] == 4);
                if self.when(Fault::EmptyFulfils, empty > 0 && absence.is_some()) {
                    absence.unwrap()[3] += empty as u16;
                }
                let always = list[..used].chunks_mut(NUMBERS).find(|c| c[0] <= 10);
                if self.when(Fault::EmptyActivates, empty > 0 && always.is_some()) {
                    always.unwrap()[4] += empty as u16;
                }
                let seldom = list[..used].chunks_mut(NUMBERS).find(|c| c[4] as u32 != found.traces);
                if self.when(Fault::AllActivate, seldom.is_some()) {
                    seldom.unwrap()[4] = found.traces as u16;
                }
            }
        }
        if said.is_err_and(|r| r.number == 11) && self.when(Fault::OnlyEmptyListed, memory.record.traces > 0) {
            said = Ok(FindAnswer { listed: 0, replayed: 0, traces: 0, events_read: 0 });
        }
        said
    }
}

#[test]
fn each_fault_is_reported() {
    for fault in FAULTS {
        let mut shown = 0;
        for seed in 100..140 {
            let mut subject = Faulty { fault, shown: false };
            let result = play(&mut subject, seed, Sizes { words: 6 + seed as usize % 6, ..SMALL });
            assert_eq!(subject.shown, result.is_err(), "{fault:?} at seed {seed}: {result:?}");
            shown += subject.shown as usize;
        }
        assert!(shown > 10, "{fault:?} came into play {shown} times");
    }
}

#[test]
fn memories_are_sound_or_not_as_meant() {
    let mut rng = Rng::new(7);
    for _ in 0..300 {
        assert!(is_sound(&memories::sound(&mut rng)));
        for (kind, name) in memories::UNSOUND.iter().enumerate() {
            let mut memory = memories::unsound(&mut rng, kind);
            assert!(!is_sound(&memory), "{name}: {memory:?}");
            // Right words mend those that are unsound by their words, and the others have them.
            let (events, ends, words) = (memory.events.get(), memory.ends.get(), memory.words.get());
            let (right, of_words) = (right_words(events, ends), kind >= memories::BESIDE_WORDS);
            let kept = ends.len().min(memory.record.traces as usize);
            assert_eq!(words.get(..kept) != Some(&right[..kept]), of_words, "{name}: {memory:?}");
            memory.words = Lent::all(right);
            assert_eq!(is_sound(&memory), of_words, "{name}: {memory:?}");
        }
    }
    for _ in 0..30 {
        assert!(is_sound(&memories::at_the_limits(&mut rng)));
    }
    let many: Vec<bool> = (0..2000).map(|_| is_sound(&memories::arbitrary(&mut rng))).collect();
    let count = many.iter().filter(|&&s| s).count();
    assert!(count > 200 && count < 1800, "{count} of 2000 are sound");
}
