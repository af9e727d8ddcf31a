//! The watcher through the archive: after every start and step the answer and every byte that was lent are compared with the ledger,
//! and what is told with what all continuations say.

use budgieleaf_tests::calls::WatchCalls;
use budgieleaf_tests::capi::{watch_start, watch_step, Archive};
use budgieleaf_tests::lent::{Lent, Watch, Watcher};
use budgieleaf_tests::oracle::finder::{constraints, Constraint};
use budgieleaf_tests::oracle::ledger::refusal;
use budgieleaf_tests::oracle::watcher::{numbers, state, Watched};
use budgieleaf_tests::plain_watcher::{self, Table};
use budgieleaf_tests::rng::{cases, Rng};
use budgieleaf_tests::watching::{damage, list, play, start, step, step_told, undeclared, Sizes, Tally, DAMAGES};

/// A started watching of all constraints over n activities.
fn of_all(rng: &mut Rng, n: u32) -> (Watch, Watched) {
    let mut watch = Watch::of(rng, &numbers(&constraints(n)));
    let ledger = start(&mut Archive, &mut watch, n).unwrap().unwrap();
    (watch, ledger)
}

/// Every trace from here on of at most so many activities more, told of by all continuations over all declared activities. Gives the
/// number of traces.
fn all_traces(watch: &Watch, ledger: &Watched, longest: usize) -> usize {
    let by_all = |ledger: &Watched| ledger.constraints.iter().map(|&c| state(ledger.n, c, &ledger.taken)).collect();
    let longer = |activity| {
        let (mut watch, mut ledger) = (watch.clone(), ledger.clone());
        step_told(&mut Archive, &mut watch, &mut ledger, activity, by_all).unwrap().unwrap();
        all_traces(&watch, &ledger, longest - 1)
    };
    1 + if longest == 0 { 0 } else { (0..ledger.n).map(longer).sum() }
}

#[test]
fn all_constraints_on_all_short_traces() {
    let rng = &mut Rng::new(50);
    for (n, longest, traces) in [(1, 12, 13), (2, 10, 2047), (3, 8, 9841), (4, 6, 5461)] {
        let (watch, ledger) = of_all(rng, n);
        assert_eq!(all_traces(&watch, &ledger, longest), traces);
    }
}

/// Where there is one activity, every continuation ends with it; where there is another, some do not.
#[test]
fn the_last_activity_where_it_is_the_only_one() {
    let rng = &mut Rng::new(51);
    for (n, after) in [(1, 0), (2, 1), (3, 1), (32, 1)] {
        let mut watch = Watch::of(rng, &[8, 0, 0]);
        let mut ledger = start(&mut Archive, &mut watch, n).unwrap().unwrap();
        assert_eq!(watch.told.get()[0], 2);
        for _ in 0..3 {
            step(&mut Archive, &mut watch, &mut ledger, 0).unwrap().unwrap();
            assert_eq!(watch.told.get()[0], after);
        }
        if n > 1 {
            step(&mut Archive, &mut watch, &mut ledger, n - 1).unwrap().unwrap();
            assert_eq!(watch.told.get()[0], 2);
        }
    }
}

/// For each template the states that it comes to, from 1 on.
const COMES_TO: [&[u8]; 24] = [
    &[0, 2],
    &[0, 2],
    &[0, 2],
    &[1, 3],
    &[1, 3],
    &[1, 3],
    &[0, 2, 3],
    &[1, 2],
    &[0, 2],
    &[1, 2, 3],
    &[0, 1, 2],
    &[1, 3],
    &[0, 1, 2],
    &[1, 2],
    &[1, 2, 3],
    &[1, 2, 3],
    &[0, 1, 3],
    &[1, 3],
    &[1, 3],
    &[1, 2, 3],
    &[1, 2, 3],
    &[1, 2, 3],
    &[1, 3],
    &[1, 3],
];

#[test]
fn each_template_comes_to_its_states_and_no_other() {
    let rng = &mut Rng::new(52);
    for n in [2, 3, 4] {
        let (fresh, ledger) = of_all(rng, n);
        let mut seen = [[false; 4]; 25];
        let mut see = |watch: &Watch| {
            for (c, &state) in ledger.constraints.iter().zip(watch.told.get()) {
                seen[c.template as usize][state as usize] = true;
            }
        };
        for k in 0..(n as usize).pow(5) {
            let mut watch = fresh.clone();
            see(&watch);
            for digit in 0..5 {
                Archive.step(&mut watch, (k / (n as usize).pow(digit)) as u32 % n).unwrap();
                see(&watch);
            }
        }
        for (template, comes_to) in (1..).zip(COMES_TO) {
            let seen: Vec<u8> = (0..4).filter(|&s| seen[template][s as usize]).collect();
            assert_eq!(seen, comes_to, "template {template} over {n} activities");
        }
    }
}

/// Random watchings; each of these refusals must come.
fn random(name: &str, seed: u64, default: usize, refusals: &[usize], sizes: impl Fn(&mut Rng) -> Sizes) {
    let mut rng = Rng::new(seed);
    let mut tally = Tally::default();
    for case in 0..cases(default) {
        let sizes = sizes(&mut rng);
        tally.add(play(&mut Archive, seed + 1000 * case as u64, sizes).unwrap_or_else(|e| panic!("{name}: {e}")));
    }
    println!("{name}: {} watchings, {tally:?}", cases(default));
    for &number in refusals {
        assert!(tally.refused[number] > 0, "{name}: refusal {number} never came: {tally:?}");
    }
}

#[test]
fn few_constraints() {
    random("few", 60, 6000, &[2, 6, 13, 14], |rng| Sizes { constraints: rng.below(30), first: 0, steps: 14 });
}

#[test]
fn many_constraints() {
    random("many", 61, 1000, &[2, 6, 13, 14], |rng| {
        let some = rng.within(30, 256);
        let constraints = rng.pick(&[255, 256, 256, 256, some]);
        Sizes { constraints, first: 0, steps: 14 }
    });
}

#[test]
fn long_traces_with_no_constraint_or_few() {
    random("long", 62, 30, &[6, 7], |rng| {
        let (constraints, first) = rng.pick(&[(0, 4090), (0, 4096), (0, 4095), (2, 60)]);
        Sizes { constraints, first, steps: 20 }
    });
}

/// 4096 activities are taken, and no more; an undeclared one is 6 there, too. What is told is worked out by the plain watcher, and by
/// trying continuations at every 256th step and at the last ones.
#[test]
fn up_to_the_4096th_step() {
    for (n, count) in [(1, 8), (2, 44), (3, 108), (5, 256), (32, 256)] {
        let rng = &mut Rng::new(63 + n as u64);
        let table = Table::new(n);
        let right = list(rng, n, count);
        let mut watch = Watch::of(rng, &right);
        let mut ledger = start(&mut Archive, &mut watch, n).unwrap().unwrap();
        let mut told = [0; 256];
        let mut plain = plain_watcher::Watcher::start(&table, n, watch.constraints.get(), &mut told).unwrap();
        for k in 1..=4096 {
            if rng.chance(2) {
                let activity = undeclared(rng, n);
                assert_eq!(step(&mut Archive, &mut watch, &mut ledger, activity).unwrap(), Err(refusal(6, 0)));
            }
            // Some activities come late, so that not all is settled early.
            let activity = rng.below((n as usize).min(1 + k / 500)) as u32;
            plain.step(activity, &mut told).unwrap();
            step_told(&mut Archive, &mut watch, &mut ledger, activity, |_| told[..count].to_vec()).unwrap().unwrap();
            if k % 256 == 0 || k > 4094 {
                assert_eq!(ledger.told(), told[..count], "{n} activities, step {k}");
            }
        }
        for _ in 0..3 {
            for activity in 0..n {
                assert_eq!(step(&mut Archive, &mut watch, &mut ledger, activity).unwrap(), Err(refusal(7, 0)));
            }
            for activity in [n, 32, 255, 256, 65536, u32::MAX] {
                assert_eq!(step(&mut Archive, &mut watch, &mut ledger, activity).unwrap(), Err(refusal(6, 0)));
            }
        }
        assert_eq!(watch.watcher, Watcher { activities: n, constraints: count as u32, taken: 4096 });
    }
}

/// Watchings in different memory, whose steps come in any order, know nothing of each other.
#[test]
fn several_at_once() {
    let rng = &mut Rng::new(71);
    for _ in 0..cases(30) {
        let mut all: Vec<(Watch, Watched)> = Vec::new();
        for _ in 0..90 {
            let at = rng.below(all.len() + 1);
            if at == all.len() && at < 8 {
                let (n, count) = (rng.within(1, 6) as u32, rng.below(20));
                let right = list(rng, n, count);
                let mut watch = Watch::of(rng, &right);
                let ledger = start(&mut Archive, &mut watch, n).unwrap().unwrap();
                all.push((watch, ledger));
            } else {
                let (watch, ledger) = &mut all[at % 8];
                let activity = rng.below(ledger.n as usize + 1) as u32;
                let said = step(&mut Archive, watch, ledger, activity).unwrap();
                assert_eq!(said.is_ok(), activity < ledger.n);
            }
        }
    }
}

/// What a start with these says: 0, or the refusal's number.
fn said(rng: &mut Rng, n: u32, list: &[u16]) -> u32 {
    let said = start(&mut Archive, &mut Watch::of(rng, list), n).unwrap();
    said.map_or_else(|r| r.number, |_| 0)
}

#[test]
fn starts_refused_in_their_order() {
    let rng = &mut Rng::new(64);
    let right = [14, 0, 1].repeat(257);
    let with_last = |last: [u16; 3]| [&right[..765], &last[..]].concat();
    for n in [2, 3, 31, 32] {
        assert_eq!(said(rng, n, &[]), 0);
        assert_eq!(said(rng, n, &right[..3]), 0);
        assert_eq!(said(rng, n, &right[..768]), 0);
        for len in [1, 2, 4, 5, 766, 767] {
            assert_eq!(said(rng, n, &right[..len]), 13, "{len} numbers");
        }
        for len in [769, 770, 771] {
            assert_eq!(said(rng, n, &right[..len]), 14, "{len} numbers");
        }
        assert_eq!(said(rng, n, &with_last([14, 1, 1])), 13);
        assert_eq!(said(rng, n, &with_last([14, 1, 0])), 0);
        assert_eq!(said(rng, n, &[&with_last([14, 1, 1])[..], &[0]].concat()), 14);
        assert_eq!(said(rng, n, &[0; 769]), 14);
        assert_eq!(said(rng, n, &[65535; 5000]), 14);
    }
    for n in [0, 33, 34, 64, 256, 257, 288, 65536, 65537, 1 << 31, u32::MAX] {
        assert_eq!(said(rng, n, &[]), 2);
        assert_eq!(said(rng, n, &right[..3]), 2);
        assert_eq!(said(rng, n, &[0; 5]), 2);
        assert_eq!(said(rng, n, &[0; 768]), 2);
        assert_eq!(said(rng, n, &[0; 769]), 2);
    }
}

/// Each number of a constraint set to each of many values, the constraint first, in the midst and last.
#[test]
fn starts_with_one_wrong_number() {
    let rng = &mut Rng::new(65);
    let values: Vec<u16> = (0..=40).chain([63, 64, 127, 128, 254, 255]).chain(256..=290).chain([512, 32768, 32769, 65280, 65535]).collect();
    let mut refused = 0;
    for n in [1, 2, 3, 31, 32] {
        for template in 1..=if n == 1 { 8 } else { 24 } {
            let right = if template <= 8 { [template, 0, 0] } else { [template, 0, 1] };
            for (place, &value) in (0..3).flat_map(|place| values.iter().map(move |v| (place, v))) {
                let mut wrong = right;
                wrong[place] = value;
                let list = match rng.below(3) {
                    0 => [wrong, right, right],
                    1 => [right, wrong, right],
                    _ => [right, right, wrong],
                };
                refused += (said(rng, n, &list.concat()) == 13) as usize;
            }
        }
    }
    assert!(refused > 10_000, "{refused} were refused");
}

/// All pairs of small numbers under each template: as many constraints start as there are.
#[test]
fn as_many_start_as_there_are() {
    let rng = &mut Rng::new(66);
    for n in [1, 2, 5, 32] {
        let all: Vec<[u16; 3]> = (0..=26).flat_map(|t| (0..=33).flat_map(move |a| (0..=33).map(move |b| [t, a, b]))).collect();
        let starting = all.into_iter().filter(|c| said(rng, n, c) == 0);
        let known = constraints(n).into_iter().map(|Constraint { template, a, b }| [template as u16, a as u16, b as u16]);
        assert!(starting.eq(known));
    }
}

#[test]
fn damaged_lists() {
    let rng = &mut Rng::new(67);
    let mut tally = [0; 15];
    for case in 0..cases(4000) {
        let mut n = rng.pick(&[1, 2, 3, 5, 12, 31, 32]);
        let count = rng.pick(&[0, 1, 2, 5, 20, 256]);
        let mut wrong = list(rng, n, count);
        for k in 0..rng.pick(&[1, 1, 1, 2, 3]) {
            let kind = if k == 0 { case % DAMAGES } else { rng.below(DAMAGES) };
            damage(rng, kind, &mut n, &mut wrong);
        }
        tally[said(rng, n, &wrong) as usize] += 1;
    }
    println!("damaged: {} lists, answers {tally:?}", cases(4000));
    assert!([0, 2, 13, 14].iter().all(|&answer| tally[answer] > 50), "{tally:?}");
}

/// What a step returns, whatever it is given: by the record's sizes, the activity, and the activities taken.
fn returned(watch: &Watch, activity: u32) -> u32 {
    let Watcher { activities, constraints, taken } = watch.watcher;
    let sizes = activities <= 32 && constraints <= 256 && taken <= 4096 && 3 * constraints as usize == watch.constraints.get().len();
    match () {
        () if !sizes => 1,
        () if activity >= activities => 6,
        () if taken == 4096 => 7,
        () => 0,
    }
}

/// A step on a record and slices that no start and steps made ends; refused it writes nothing, and accepted nothing beside what is lent to be
/// written.
fn check_arbitrary(watch: &Watch, activity: u32) -> u32 {
    let mut after = watch.clone();
    let said = Archive.step(&mut after, activity);
    let number = said.map_or_else(|r| r.number, |()| 0);
    assert_eq!(number, returned(watch, activity), "a step {activity} on {watch:?}");
    if number != 0 {
        assert_eq!(after.difference(watch), None, "a refused step {activity} on {watch:?} left {after:?}");
        return number;
    }
    let mut expected = watch.clone();
    expected.watcher = after.watcher;
    expected.states.get_mut().copy_from_slice(after.states.get());
    expected.told.get_mut().copy_from_slice(after.told.get());
    assert_eq!(after.difference(&expected), None, "a step {activity} on {watch:?} left {after:?}");
    number
}

#[test]
fn arbitrary_records_and_slices() {
    let rng = &mut Rng::new(68);
    let mut tally = [0; 8];
    for case in 0..cases(20000) {
        let some = rng.below(300);
        let len = match case % 4 {
            0 => rng.pick(&[0, 1, 2, 3, 6, 300, 765, 766, 767, 768, 769, 770, 771, 3000, 5000]),
            1 => rng.below(40),
            _ => 3 * some,
        };
        // Numbers that are often right, seldom, or hardly ever.
        let width = rng.pick(&[3, 8, 26, 300, 65536]);
        let constraints: Vec<u16> = (0..len).map(|_| rng.below(width) as u16).collect();
        let mut watch = Watch::of(rng, &constraints);
        let any = rng.next() as u32 >> rng.below(32);
        // The first is the number that, three times and cut to 32 bits, gives the length.
        let wrong = [(len as u32).wrapping_mul(0xAAAA_AAAB), 256, 257, any];
        watch.watcher = Watcher {
            activities: if rng.chance(80) { rng.pick(&[1, 2, 5, 31, 32]) } else { rng.pick(&[0, 33, 256, 257, any]) },
            constraints: if rng.chance(80) { len as u32 / 3 } else { rng.pick(&wrong) },
            taken: if rng.chance(80) { rng.pick(&[0, 1, 4094, 4095]) } else { rng.pick(&[4096, 4097, 65536, u32::MAX, any]) },
        };
        if rng.chance(50) {
            let below = rng.pick(&[1, 4, 8, 9, 64]);
            watch.states = Lent::new(rng, 256, |rng| rng.below(below) as u8);
        }
        let activity = if rng.chance(60) { rng.pick(&[0, 0, 1, 4, 31]) } else { rng.pick(&[32, 33, 255, 256, u32::MAX, any]) };
        tally[check_arbitrary(&watch, activity) as usize] += 1;
    }
    println!("arbitrary: {} records, answers {tally:?}", cases(20000));
}

/// A watching that was started and stepped, and then one part of it changed.
#[test]
fn damaged_records_and_slices() {
    let rng = &mut Rng::new(69);
    for case in 0..cases(5000) {
        let n = rng.pick(&[1, 2, 3, 5, 32]);
        let count = rng.pick(&[0, 1, 2, 7, 30, 255, 256]);
        let right = list(rng, n, count);
        let mut watch = Watch::of(rng, &right);
        Archive.start(&mut watch, n).unwrap();
        for _ in 0..rng.below(5) {
            Archive.step(&mut watch, rng.below(n as usize) as u32).unwrap();
        }
        let any = rng.next() as u32 >> rng.below(32);
        match case % 6 {
            0 => watch.watcher.activities = any,
            1 => watch.watcher.constraints = any,
            2 => watch.watcher.taken = any,
            3 => watch.states.get_mut()[rng.below(count.max(1))] = any as u8,
            4 if count > 0 => watch.constraints.get_mut()[rng.below(3 * count)] = any as u16,
            _ => {
                let len = rng.below(800);
                watch.constraints = Lent::of(rng, &right.iter().copied().cycle().take(len).collect::<Vec<_>>());
            }
        }
        for _ in 0..3 {
            check_arbitrary(&watch, rng.below(n as usize + 1) as u32);
            let _ = Archive.step(&mut watch, rng.below(n as usize) as u32);
        }
    }
}

/// A length that 32 bits cannot hold. The pages of this slice are never written, so they take next to no memory.
#[test]
fn lists_longer_than_32_bits_count() {
    let mut list = vec![0u16; (1 << 32) + 3];
    list[..3].copy_from_slice(&[1, 0, 0]);
    let (mut watcher, mut states, mut told) = ([9; 3], [7; 256], [6; 256]);
    assert_eq!(watch_start(1, &mut watcher, &list, &mut states, &mut told), 14);
    assert_eq!(watch_start(0, &mut watcher, &list, &mut states, &mut told), 2);
    assert_eq!((watcher, states, told), ([9; 3], [7; 256], [6; 256]));
    let mut made_up = [1, 1, 0];
    assert!([0, 1, 6, 7].contains(&watch_step(&mut made_up, &list, &mut states, &mut told, 0)));
}
