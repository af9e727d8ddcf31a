//! Tests of the tests of the watcher: with the model itself as the subject all watchings pass, with a faulty one the fault is
//! reported; and the continuations that are tried settle what is told.

use budgieleaf_tests::calls::WatchCalls;
use budgieleaf_tests::gen;
use budgieleaf_tests::lent::Watch;
use budgieleaf_tests::oracle::finder::{constraints, Constraint};
use budgieleaf_tests::oracle::ledger::{refusal, Refusal};
use budgieleaf_tests::oracle::templates::{activated, holds};
use budgieleaf_tests::oracle::watcher::{numbers, state, state_by, state_of_many, Model, Watched, SETTLES};
use budgieleaf_tests::rng::{cases, Rng};
use budgieleaf_tests::watching::{play, Sizes, Tally};

/// Every trace of at most this length over n activities.
fn traces(n: u8, longest: usize) -> Vec<Vec<u8>> {
    let mut all = vec![vec![]];
    let mut from = 0;
    for _ in 0..longest {
        let to = all.len();
        for k in from..to {
            all.extend((0..n).map(|x| [&all[k][..], &[x]].concat()).collect::<Vec<_>>());
        }
        from = to;
    }
    all
}

#[test]
fn no_longer_continuation_tells_otherwise() {
    for (n, longest) in [(1, 6), (2, 6), (3, 5)] {
        let declared: Vec<u8> = (0..n).collect();
        for trace in traces(n, longest) {
            for c in constraints(n as u32) {
                let told = state(n as u32, c, &trace);
                for more in 1..=2 {
                    assert_eq!(told, state_by(c, &trace, &declared, SETTLES + more), "{c:?} on {trace:?} over {n}");
                }
            }
        }
    }
    // And shorter ones do not settle it.
    let three_times = Constraint { template: 3, a: 0, b: 0 };
    assert_eq!((state(1, three_times, &[]), state_by(three_times, &[], &[0], SETTLES - 1)), (2, 3));
}

#[test]
fn one_other_activity_stands_for_all() {
    for (n, longest) in [(1, 5), (2, 5), (3, 5), (4, 4), (5, 3)] {
        for trace in traces(n, longest) {
            for c in constraints(n as u32) {
                assert_eq!(state(n as u32, c, &trace), state_of_many(n as u32, c, &trace), "{c:?} on {trace:?} over {n}");
            }
        }
    }
    let rng = &mut Rng::new(70);
    for _ in 0..cases(300) {
        let n = rng.within(6, 12) as u32;
        let (all, trace) = (constraints(n), gen::trace(rng, n, 9));
        let c = all[rng.below(all.len())];
        assert_eq!(state(n, c, &trace), state_of_many(n, c, &trace), "{c:?} on {trace:?} over {n}");
    }
}

/// Where the four states differ from each other, in words that can be read at once.
#[test]
fn states_by_hand() {
    let of = |template, a, b, trace: &[u8]| state(3, Constraint { template, a, b }, trace);
    assert_eq!([of(1, 0, 0, &[]), of(1, 0, 0, &[0])], [2, 0]);
    assert_eq!([of(4, 0, 0, &[]), of(4, 0, 0, &[0])], [1, 3]);
    assert_eq!([of(7, 0, 0, &[]), of(7, 0, 0, &[0]), of(7, 0, 0, &[1])], [2, 0, 3]);
    assert_eq!([of(8, 0, 0, &[]), of(8, 0, 0, &[0]), of(8, 0, 0, &[0, 1])], [2, 1, 2]);
    assert_eq!([of(10, 0, 1, &[]), of(10, 0, 1, &[1]), of(10, 0, 1, &[1, 0])], [2, 1, 3]);
    assert_eq!([of(14, 0, 1, &[]), of(14, 0, 1, &[0]), of(14, 0, 1, &[0, 1])], [1, 2, 1]);
    assert_eq!([of(16, 0, 1, &[0]), of(16, 0, 1, &[0, 1]), of(16, 0, 1, &[0, 2])], [2, 1, 3]);
    assert_eq!([of(17, 0, 1, &[]), of(17, 0, 1, &[0]), of(17, 0, 1, &[1])], [1, 0, 3]);
    assert_eq!([of(23, 0, 1, &[0]), of(23, 0, 1, &[0, 2, 1])], [1, 3]);
    assert_eq!([1, 2].map(|n| state(n, Constraint { template: 8, a: 0, b: 0 }, &[0])), [0, 1]);
}

#[test]
fn the_ledger_by_hand() {
    let said = |n, list: &[u16]| Watched::start(n, list).map_or_else(|r| r.number, |_| 0);
    assert_eq!([said(0, &[0; 769]), said(33, &[]), said(1, &[0; 769]), said(1, &[0; 768])], [2, 2, 14, 13]);
    assert_eq!([said(2, &[]), said(2, &[1]), said(2, &[1, 1, 1]), said(1, &[1, 1, 1]), said(2, &[1, 0, 1])], [0, 13, 0, 13, 13]);
    assert_eq!([said(2, &[9, 0, 1]), said(2, &[12, 1, 0]), said(2, &[13, 1, 0]), said(2, &[24, 1, 1])], [0, 13, 0, 13]);
    assert_eq!([said(2, &[0, 0, 1]), said(2, &[25, 0, 1]), said(2, &[257, 0, 0]), said(2, &[1, 256, 256])], [13, 13, 13, 13]);
    let mut ledger = Watched::start(2, &[1, 0, 0, 14, 0, 1]).unwrap();
    assert_eq!(ledger.told(), [2, 1]);
    assert_eq!((ledger.step(2), ledger.step(0), ledger.step(256)), (Err(refusal(6, 0)), Ok(()), Err(refusal(6, 0))));
    assert_eq!((ledger.told(), &ledger.taken[..]), (vec![0, 2], &[0][..]));
    ledger.taken = vec![0; 4095];
    assert_eq!((ledger.step(1), ledger.step(1), ledger.step(2)), (Ok(()), Err(refusal(7, 0)), Err(refusal(6, 0))));
}

const SMALL: Sizes = Sizes { constraints: 12, first: 0, steps: 14 };
const FULL: Sizes = Sizes { constraints: 256, first: 0, steps: 4 };
const LONG: Sizes = Sizes { constraints: 0, first: 4090, steps: 20 };

#[test]
fn the_model_agrees_with_the_ledger() {
    let mut tally = Tally::default();
    for (seed, sizes) in (0..40).flat_map(|seed| [(seed, SMALL), (seed, FULL), (seed, LONG)]) {
        tally.add(play(&mut Model::default(), seed, sizes).unwrap());
    }
    for number in [2, 6, 7, 13, 14] {
        assert!(tally.refused[number] > 0, "refusal {number} never came: {tally:?}");
    }
}

#[derive(Clone, Copy, PartialEq, Debug)]
enum Fault {
    StartsAny,
    Takes257,
    Refuses256,
    CutShortTaken,
    TemplateOf8Bits,
    ActivityOf8Bits,
    PairNotLookedAt,
    ListBeforeN,
    NumbersBeforeCount,
    StartWritesThoughRefused,
    StartTellsNothing,
    StartTellsPast,
    StartLeavesStates,
    StartLeavesTaken,
    ZeroAndOneExchanged,
    ThreeAsTwo,
    ActivationCounted,
    LastNotMoved,
    FirstNotMoved,
    OneActivityAsMany,
    StateMovedThoughRefused,
    ToldThoughRefused,
    TakenThoughRefused,
    TakenNotCounted,
    StateOfNoTemplate,
    StatePast,
    ToldPast,
    ConstraintWritten,
    StepOf8Bits,
    StepOf16Bits,
    SevenBeforeSix,
    SevenAt4096,
    NoSeven,
}

const FAULTS: [(Fault, Sizes); 33] = [
    (Fault::StartsAny, SMALL),
    (Fault::Takes257, SMALL),
    (Fault::Refuses256, FULL),
    (Fault::CutShortTaken, SMALL),
    (Fault::TemplateOf8Bits, SMALL),
    (Fault::ActivityOf8Bits, SMALL),
    (Fault::PairNotLookedAt, SMALL),
    (Fault::ListBeforeN, SMALL),
    (Fault::NumbersBeforeCount, SMALL),
    (Fault::StartWritesThoughRefused, SMALL),
    (Fault::StartTellsNothing, SMALL),
    (Fault::StartTellsPast, SMALL),
    (Fault::StartLeavesStates, SMALL),
    (Fault::StartLeavesTaken, SMALL),
    (Fault::ZeroAndOneExchanged, SMALL),
    (Fault::ThreeAsTwo, SMALL),
    (Fault::ActivationCounted, SMALL),
    (Fault::LastNotMoved, SMALL),
    (Fault::FirstNotMoved, SMALL),
    (Fault::OneActivityAsMany, SMALL),
    (Fault::StateMovedThoughRefused, SMALL),
    (Fault::ToldThoughRefused, SMALL),
    (Fault::TakenThoughRefused, SMALL),
    (Fault::TakenNotCounted, SMALL),
    (Fault::StateOfNoTemplate, SMALL),
    (Fault::StatePast, SMALL),
    (Fault::ToldPast, SMALL),
    (Fault::ConstraintWritten, SMALL),
    (Fault::StepOf8Bits, SMALL),
    (Fault::StepOf16Bits, SMALL),
    (Fault::SevenBeforeSix, LONG),
    (Fault::SevenAt4096, LONG),
    (Fault::NoSeven, LONG),
];

/// The state where a constraint that is not activated does not hold.
fn with_activation(n: u32, c: Constraint, trace: &[u8]) -> u8 {
    let kept = |w: &[u8]| activated(c.template, c.a, c.b, w) && holds(c.template, c.a, c.b, w);
    let all: Vec<Vec<u8>> = traces(n as u8, SETTLES).iter().map(|w| [trace, w].concat()).collect();
    match (kept(trace), all.iter().any(|w| kept(w)), all.iter().all(|w| kept(w))) {
        (true, _, true) => 0,
        (true, _, false) => 1,
        (false, true, _) => 2,
        (false, false, _) => 3,
    }
}

/// The model with one fault, and whether it has come into play.
struct Faulty {
    model: Model,
    fault: Fault,
    shown: bool,
}

impl Faulty {
    fn when(&mut self, fault: Fault, possible: bool) -> bool {
        let now = self.fault == fault && possible;
        self.shown |= now;
        now
    }

    /// What is told of the ledger's constraints, with the fault.
    fn tell(&mut self, before: &Watch, watch: &mut Watch) {
        let ledger = self.model.ledger.clone().unwrap();
        let last = ledger.constraints.len().wrapping_sub(1);
        for (k, &c) in ledger.constraints.iter().enumerate() {
            let told = &mut watch.told.get_mut()[k];
            let right = *told;
            if self.fault == Fault::ZeroAndOneExchanged && right < 2 {
                *told = 1 - right;
            }
            if self.fault == Fault::ThreeAsTwo && right == 3 {
                *told = 2;
            }
            if self.fault == Fault::ActivationCounted && ledger.n < 6 {
                *told = with_activation(ledger.n, c, &ledger.taken);
            }
            if self.fault == Fault::LastNotMoved && k == last || self.fault == Fault::FirstNotMoved && k == 0 {
                *told = before.told.get()[k];
            }
            if self.fault == Fault::OneActivityAsMany && ledger.n == 1 && c.template == 8 && right == 0 {
                *told = 1;
            }
            self.shown |= *told != right;
        }
    }

    /// A start that takes other numbers than it is given.
    fn start_by(&mut self, watch: &mut Watch, n: u32, ledger: Watched) -> Result<(), Refusal> {
        watch.watcher = ledger.watcher();
        watch.watcher.activities = n;
        self.model.ledger = Some(ledger);
        Ok(())
    }
}

impl WatchCalls for Faulty {
    fn start(&mut self, watch: &mut Watch, n: u32) -> Result<(), Refusal> {
        let before = watch.clone();
        let list = before.constraints.get();
        let mut said = self.model.start(watch, n);
        let number = said.map_or_else(|r| r.number, |()| 0);
        let cut_to_8_bits =
            |places: [bool; 3]| -> Vec<u16> { list.iter().enumerate().map(|(k, &x)| if places[k % 3] { x % 256 } else { x }).collect() };
        let by = |list: &[u16]| Watched::start(n, list);
        let paired: Vec<Constraint> =
            list.chunks_exact(3).map(|c| Constraint { template: c[0] as u8, a: c[1] as u8, b: c[1] as u8 }).collect();
        let declared =
            number == 13 && list.len().is_multiple_of(3) && list.chunks(3).all(|c| (1..=24).contains(&c[0]) && c[1].max(c[2]) < n as u16);
        if self.when(Fault::StartsAny, number == 2) {
            return self.start_by(watch, n, Watched::start(1, &[])?);
        }
        if self.when(Fault::Takes257, number == 14 && list.len() <= 771 && by(&list[..768]).is_ok()) {
            return self.start_by(watch, n, by(&list[..768])?);
        }
        if self.when(Fault::Refuses256, number == 0 && list.len() == 768) {
            *watch = before;
            return Err(refusal(14, 0));
        }
        let whole = &list[..list.len() - list.len() % 3];
        if self.when(Fault::CutShortTaken, number == 13 && by(whole).is_ok()) {
            return self.start_by(watch, n, by(whole)?);
        }
        let (templates, activities) = (cut_to_8_bits([true, false, false]), cut_to_8_bits([false, true, true]));
        if self.when(Fault::TemplateOf8Bits, number == 13 && by(&templates).is_ok()) {
            return self.start_by(watch, n, by(&templates)?);
        }
        if self.when(Fault::ActivityOf8Bits, number == 13 && by(&activities).is_ok()) {
            return self.start_by(watch, n, by(&activities)?);
        }
        if self.when(Fault::PairNotLookedAt, declared) {
            return self.start_by(watch, n, Watched { n, constraints: paired, taken: vec![] });
        }
        if self.when(Fault::ListBeforeN, number == 2 && list.len() > 768) {
            said = Err(refusal(14, 0));
        }
        if self.when(Fault::NumbersBeforeCount, number == 14 && !list.len().is_multiple_of(3)) {
            said = Err(refusal(13, 0));
        }
        if self.when(Fault::StartWritesThoughRefused, number == 13) {
            watch.states.get_mut()[0] ^= 1;
        }
        if number == 0 {
            let count = list.len() / 3;
            self.tell(&before, watch);
            if self.when(Fault::StartTellsNothing, watch.told != before.told) {
                watch.told = before.told.clone();
            }
            if self.when(Fault::StartTellsPast, count < 256) {
                watch.told.get_mut()[count] ^= 1;
            }
            if self.when(Fault::StartLeavesStates, watch.states != before.states) {
                watch.states = before.states.clone();
            }
            if self.when(Fault::StartLeavesTaken, before.watcher.taken > 0) {
                watch.watcher.taken = before.watcher.taken;
            }
        }
        said
    }

    fn step(&mut self, watch: &mut Watch, activity: u32) -> Result<(), Refusal> {
        let before = watch.clone();
        let ledger = self.model.ledger.clone().unwrap();
        let (count, full) = (ledger.constraints.len(), ledger.taken.len() == 4096);
        let mut activity = activity;
        if self.when(Fault::StepOf8Bits, activity >= ledger.n && activity % 256 < ledger.n) {
            activity %= 256;
        }
        if self.when(Fault::StepOf16Bits, activity >= ledger.n && activity % 65536 < ledger.n) {
            activity %= 65536;
        }
        if self.when(Fault::SevenBeforeSix, full && activity >= ledger.n) {
            return Err(refusal(7, 0));
        }
        if self.when(Fault::SevenAt4096, ledger.taken.len() == 4095 && activity < ledger.n) {
            return Err(refusal(7, 0));
        }
        if self.when(Fault::NoSeven, full && activity < ledger.n) {
            watch.watcher.taken += 1;
            return Ok(());
        }
        let said = self.model.step(watch, activity);
        if said.is_err() {
            if self.when(Fault::StateMovedThoughRefused, count > 0) {
                watch.states.get_mut()[count - 1] ^= 1;
            }
            if self.when(Fault::ToldThoughRefused, count > 0) {
                watch.told.get_mut()[0] ^= 1;
            }
            if self.when(Fault::TakenThoughRefused, true) {
                watch.watcher.taken += 1;
            }
            return said;
        }
        self.tell(&before, watch);
        if self.when(Fault::TakenNotCounted, true) {
            watch.watcher.taken -= 1;
        }
        if self.when(Fault::StateOfNoTemplate, count > 0) {
            watch.states.get_mut()[0] = 25;
        }
        if self.when(Fault::StatePast, count < 256) {
            watch.states.get_mut()[255] ^= 1;
        }
        if self.when(Fault::ToldPast, count < 256) {
            watch.told.get_mut()[count] ^= 1;
        }
        if self.when(Fault::ConstraintWritten, count > 0) {
            watch.constraints.get_mut()[3 * count - 1] ^= 1;
        }
        said
    }
}

#[test]
fn each_fault_is_reported() {
    for (fault, sizes) in FAULTS {
        let mut shown = 0;
        for seed in 100..2000 {
            let mut subject = Faulty { model: Model::default(), fault, shown: false };
            let result = play(&mut subject, seed, sizes);
            assert_eq!(subject.shown, result.is_err(), "{fault:?} at seed {seed}: {result:?}");
            shown += subject.shown as usize;
            if shown > 10 {
                break;
            }
        }
        assert!(shown > 10, "{fault:?} came into play {shown} times");
    }
}

#[test]
fn a_difference_is_told_by_its_part() {
    let rng = &mut Rng::new(71);
    let list = numbers(&constraints(2));
    let watch = Watch::of(rng, &list);
    let changed = |change: &dyn Fn(&mut Watch)| {
        let mut other = watch.clone();
        change(&mut other);
        other.difference(&watch)
    };
    assert_eq!(changed(&|_| ()), None);
    assert_eq!(changed(&|w| w.watcher.taken ^= 1), Some("watcher"));
    assert_eq!(changed(&|w| w.constraints.get_mut()[0] ^= 1), Some("constraints"));
    assert_eq!(changed(&|w| w.states.get_mut()[255] ^= 1), Some("states"));
    assert_eq!(changed(&|w| w.told.get_mut()[0] ^= 1), Some("told"));
    assert_eq!(watch.constraints.get(), list);
}
