//! The plain finder and the plain watchers of the benchmark give what the model and the ledger give.

use budgieleaf_tests::calls::Calls;
use budgieleaf_tests::lent::Memory;
use budgieleaf_tests::memories::{self, right_words, UNSOUND};
use budgieleaf_tests::oracle::finder::NUMBERS;
use budgieleaf_tests::oracle::ledger::refusal;
use budgieleaf_tests::oracle::memory::Model;
use budgieleaf_tests::oracle::watcher::Watched;
use budgieleaf_tests::plain::{by_library, by_words, Automaton};
use budgieleaf_tests::plain_watcher::{step_lent, Table, Watcher};
use budgieleaf_tests::rng::{cases, Rng};
use budgieleaf_tests::{gen, watching};

#[test]
fn the_plain_finder_agrees_with_the_model() {
    let rng = &mut Rng::new(40);
    let automaton = Automaton::new();
    for case in 0..cases(800) {
        let memory = match case % 4 {
            0 => memories::arbitrary(rng),
            1 => memories::unsound(rng, case / 4 % UNSOUND.len()),
            _ => memories::sound(rng),
        };
        let settings = if rng.chance(10) { gen::any_settings(rng) } else { gen::settings(rng) };
        let room = rng.pick(&[2 * NUMBERS + 2, 100 * NUMBERS, 15000 * NUMBERS]);
        // The finder that does not look at the words answers as if they were right.
        let (events, ends) = (memory.events.get(), memory.ends.get());
        let mended = Memory::of(memory.record, events.to_vec(), ends.to_vec(), right_words(events, ends));
        let lists: Vec<_> = (0..4)
            .map(|which| {
                let mut list = vec![7; room];
                let said = match which {
                    0 => Model.find(&memory, settings, &mut list),
                    1 => by_words(&automaton, &memory, settings, &mut list),
                    2 => Model.find(&mended, settings, &mut list),
                    _ => by_library(&automaton, &memory, settings, &mut list),
                };
                (said, list)
            })
            .collect();
        assert!(lists[0] == lists[1], "by words, case {case}");
        assert!(lists[2] == lists[3], "by library, case {case}");
    }
}

#[test]
fn the_plain_watchers_agree_with_the_ledger() {
    let rng = &mut Rng::new(41);
    for case in 0..cases(600) {
        let mut n = gen::activities(rng);
        let count = rng.pick(&[0, 1, 10, 40, 256]);
        let mut list = watching::list(rng, n, count);
        if rng.chance(30) {
            let kind = rng.below(watching::DAMAGES);
            watching::damage(rng, kind, &mut n, &mut list);
        }
        let table = Table::new(n.clamp(1, 32));
        let mut told = [7; 256];
        let (mut plain, mut ledger) = match (Watcher::start(&table, n, &list, &mut told), Watched::start(n, &list)) {
            (Ok(plain), Ok(ledger)) => (plain, ledger),
            (plain, ledger) => {
                assert_eq!((plain.err(), told), (ledger.err(), [7; 256]), "case {case}");
                continue;
            }
        };
        let (mut watcher, mut states, mut also_told) = ([n, list.len() as u32 / 3, 0], [0; 256], told);
        for k in 0..=12 {
            let mut expected = [7; 256];
            expected[..ledger.constraints.len()].copy_from_slice(&ledger.told());
            assert!(told == expected && also_told == expected, "case {case}, step {k}");
            let activity = if rng.chance(10) { watching::undeclared(rng, n) } else { rng.below(n as usize) as u32 };
            let said = ledger.step(activity);
            assert_eq!(plain.step(activity, &mut told), said, "case {case}, step {k}");
            assert_eq!(step_lent(&table, &mut watcher, &list, &mut states, &mut also_told, activity), said, "case {case}, step {k}");
        }
    }
}

#[test]
fn the_plain_watchers_take_4096() {
    let table = Table::new(2);
    let mut told = [7; 256];
    let mut plain = Watcher::start(&table, 2, &[1, 0, 0], &mut told).unwrap();
    let mut watcher = [2, 1, 0];
    let mut both = |activity| {
        let lent = step_lent(&table, &mut watcher, &[1, 0, 0], &mut [0; 256], &mut [0; 256], activity);
        [plain.step(activity, &mut told), lent]
    };
    assert!((0..4096).all(|k| both(k % 2) == [Ok(()); 2]));
    assert_eq!([both(1), both(2)], [[Err(refusal(7, 0)); 2], [Err(refusal(6, 0)); 2]]);
}
