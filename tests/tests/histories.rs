//! Random histories of open, add, read and find through the archive: after every call the answer, the record and every byte that
//! was lent are compared with the model, and the answer with the ledger.

use budgieleaf_tests::calls::{Calls, FindAnswer, Settings};
use budgieleaf_tests::capi::Archive;
use budgieleaf_tests::gen;
use budgieleaf_tests::lent::Lent;
use budgieleaf_tests::oracle::finder::NUMBERS;
use budgieleaf_tests::oracle::ledger::refusal;
use budgieleaf_tests::play::{compare, play, Call, Full, History, Said, Sizes};
use budgieleaf_tests::rng::{cases, Rng};

/// Random histories of these sizes; each of these answers must come, and 8 both by the words alone and by the ends alone.
fn random(name: &str, seed: u64, default: usize, answers: &[usize], sizes: impl Fn(&mut Rng) -> Sizes) {
    let (mut reached, mut full) = ([0; 16], Full::default());
    let mut rng = Rng::new(seed);
    for case in 0..cases(default) {
        let sizes = sizes(&mut rng);
        let tally = play(&mut Archive, seed + 1000 * case as u64, sizes).unwrap_or_else(|e| panic!("{name}: {e}"));
        reached.iter_mut().zip(tally).for_each(|(r, t)| *r += t);
        full.count(sizes, tally);
    }
    println!("{name}: {} histories, {} calls, answers {reached:?}, {full:?}", cases(default), reached.iter().sum::<usize>());
    for &answer in answers {
        assert!(reached[answer] > 0, "{name}: answer {answer} never came: {reached:?}");
    }
    assert!(!answers.contains(&8) || full.by_words > 0 && full.by_ends > 0, "{name}: {full:?}");
}

#[test]
fn small_buffers() {
    random("small", 1, 1200, &[0, 2, 3, 4, 5, 6, 8, 9, 10, 11, 15], |rng| {
        let longest = rng.pick(&[1, 4, 9]);
        Sizes { events: rng.below(60), ends: rng.below(9), words: rng.below(12), calls: 30, longest, lines: 40, empty: 0 }
    });
}

/// Most traces are empty, and often all that are kept.
#[test]
fn full_of_empty_traces() {
    random("empty", 3, 400, &[0, 3, 6, 8, 9, 10, 11, 15], |rng| {
        let (longest, empty) = rng.pick(&[(1, 50), (2, 90), (6, 60), (6, 95)]);
        Sizes { events: rng.below(60), ends: rng.within(1, 25), words: rng.within(1, 25), calls: 40, longest, lines: 3, empty }
    });
}

#[test]
fn middling_buffers() {
    random("middling", 2, 250, &[0, 2, 3, 4, 5, 6, 8, 9, 10, 11, 15], |rng| {
        let longest = rng.pick(&[3, 15, 40]);
        let (ends, words) = (rng.within(10, 40), rng.within(10, 40));
        Sizes { events: rng.within(100, 600), ends, words, calls: 60, longest, lines: 200, empty: 20 }
    });
}

#[test]
fn large_buffers() {
    random("large", 17, 40, &[0, 4, 6, 7, 9, 10], |rng| {
        let longest = rng.pick(&[300, 4096]);
        let (ends, words) = (rng.within(5, 5000), rng.within(5, 5000));
        Sizes { events: rng.within(9000, 30000), ends, words, calls: 25, longest, lines: 5000, empty: 0 }
    });
}

fn by(threshold: u32) -> Settings {
    Settings::by(threshold)
}

fn confident(threshold: u32, confidence: u32) -> Settings {
    Settings { threshold, confidence }
}

fn list(rng: &mut Rng, len: usize) -> Lent<u16> {
    Lent::new(rng, len, |rng| rng.next() as u16)
}

fn list_for(rng: &mut Rng, rules: usize) -> Lent<u16> {
    list(rng, NUMBERS * rules)
}

/// Up to 4095 traces, or as many as there are ends or words; then 8 for a trace and for a log's line, an empty log is taken, and
/// find goes on as before.
#[test]
fn up_to_the_last_trace() {
    for (ends_room, words_room, most) in [(4095, 4095, 4095), (5000, 4096, 4095), (4094, 4095, 4094), (4095, 4094, 4094)] {
        let rng = &mut Rng::new(ends_room as u64);
        let mut history = History::fresh(Archive, rng, 3, 6000, ends_room, words_room);
        let mut call = |call| history.call(call).unwrap();
        for part in [1500, 1500, most - 3003] {
            let log: Vec<Vec<u8>> = (0..part).map(|_| vec![rng.below(3) as u8]).collect();
            assert_eq!(call(Call::Read(gen::log(rng, &log))), Said::Read(part as u32));
        }
        for k in 0..3 {
            assert_eq!(call(Call::Add(vec![k; k as usize])), Said::Added);
        }
        // The empty one is kept, and 8 counts it; R does not.
        assert_eq!(call(Call::Add(vec![])), Said::Refused(refusal(8, 0)));
        assert_eq!(call(Call::Add(vec![1; 4097])), Said::Refused(refusal(7, 0)));
        assert_eq!(call(Call::Read(b"     1  0\n".to_vec())), Said::Refused(refusal(8, 1)));
        assert_eq!(call(Call::Read(b"     1  3\n".to_vec())), Said::Refused(refusal(6, 1)));
        assert_eq!(call(Call::Read(vec![])), Said::Read(0));
        let listed = call(Call::Find(by(300), list_for(rng, 100)));
        assert!(matches!(listed, Said::Found(FindAnswer { traces, .. }) if traces == most as u32 - 1), "{listed:?}");
    }
}

/// One trace of 4096, then a log that fills the events to the last, then 9.
#[test]
fn up_to_the_last_event() {
    let rng = &mut Rng::new(11);
    let mut history = History::fresh(Archive, rng, 2, 9000, 40, 40);
    let mut call = |call| history.call(call).unwrap();
    assert_eq!(call(Call::Add(vec![1; 4097])), Said::Refused(refusal(7, 0)));
    assert_eq!(call(Call::Add(vec![1; 4096])), Said::Added);
    let lines = |n: usize| b"     7  0\n".repeat(n);
    assert_eq!(call(Call::Read(lines(4097))), Said::Refused(refusal(7, 4097)));
    assert_eq!(call(Call::Read(lines(4096))), Said::Read(1));
    assert_eq!(call(Call::Read(lines(4096))), Said::Refused(refusal(9, 9000 - 8192 + 1)));
    assert_eq!(call(Call::Add(vec![0; 9000 - 8191])), Said::Refused(refusal(9, 0)));
    assert_eq!(call(Call::Read(lines(9000 - 8192))), Said::Read(1));
    assert_eq!(call(Call::Add(vec![])), Said::Added);
    assert_eq!(call(Call::Add(vec![0])), Said::Refused(refusal(9, 0)));
    assert_eq!(call(Call::Read(lines(1))), Said::Refused(refusal(9, 1)));
    assert!(matches!(call(Call::Find(by(500), list_for(rng, 100))), Said::Found(FindAnswer { traces: 3, .. })));
    assert_eq!(call(Call::Open(33)), Said::Refused(refusal(2, 0)));
    assert_eq!(call(Call::Open(32)), Said::Opened);
    assert_eq!(call(Call::Find(by(500), list_for(rng, 100))), Said::Refused(refusal(11, 0)));
}

/// All numbers of rules from too few to enough, one by one.
#[test]
fn lists_of_every_length() {
    let rng = &mut Rng::new(12);
    let mut history = History::fresh(Archive, rng, 4, 200, 20, 21);
    for _ in 0..8 {
        let trace = gen::trace(rng, 4, 9);
        history.call(Call::Add(trace)).unwrap();
    }
    for settings in [by(1), by(400), confident(400, 700), by(1000), confident(1, 1000)] {
        let Err(needed) = history.ledger.find(settings, 0) else { panic!("some rule is listed") };
        for len in 0..NUMBERS * (needed.detail as usize + 1) + 2 {
            history.call(Call::Find(settings, list(rng, len))).unwrap();
        }
    }
}

/// The rows of document 01 without a star.
#[test]
fn rows_of_document_01() {
    let rng = &mut Rng::new(13);
    let mut history = History::fresh(Archive, rng, 2, 5000, 20, 19);
    let mut call = |call| history.call(call).unwrap();
    assert_eq!(call(Call::Add(vec![0, 1])), Said::Added);
    assert_eq!(call(Call::Add(vec![0, 0, 1])), Said::Added);
    let answer = FindAnswer { listed: 18, replayed: 44, traces: 2, events_read: 220 };
    assert_eq!(call(Call::Find(by(1000), list_for(rng, 18))), Said::Found(answer));
    assert_eq!(call(Call::Find(by(1000), list(rng, NUMBERS * 18 - 1))), Said::Refused(refusal(10, 18)));
    // 3, then 15, then 10.
    assert_eq!(call(Call::Find(confident(1001, 1001), list(rng, 0))), Said::Refused(refusal(3, 0)));
    assert_eq!(call(Call::Find(confident(1000, 1001), list(rng, 0))), Said::Refused(refusal(15, 0)));
    assert_eq!(call(Call::Find(confident(1000, 1000), list(rng, 0))), Said::Refused(refusal(10, 18)));
    assert_eq!(call(Call::Open(32)), Said::Opened);
    assert_eq!(call(Call::Open(33)), Said::Refused(refusal(2, 0)));
    assert_eq!(call(Call::Add(vec![31; 4096])), Said::Added);
    assert_eq!(call(Call::Add(vec![31; 4097])), Said::Refused(refusal(7, 0)));
}

/// Refusal 6 of add carries the lowest place of an undeclared step, whatever stands behind it, before 7, 8 and 9; that of read a line.
#[test]
fn the_lowest_undeclared_place() {
    let rng = &mut Rng::new(16);
    let mut history = History::fresh(Archive, rng, 2, 8, 2, 2);
    let mut call = |call| history.call(call).unwrap();
    let traces: [(&[u8], usize); 9] = [
        (&[2], 1),
        (&[2, 0, 1], 1),
        (&[0, 1, 2], 3),
        (&[2, 0, 1, 2], 1),
        (&[0, 2, 1, 3, 2], 2),
        (&[1, 0, 255, 2, 255, 0], 3),
        (&[255, 2, 3], 1),
        (&[0, 0, 0, 0, 0, 0, 0, 0, 2], 9),
        (&[0, 0, 0, 0, 0, 0, 0, 0, 0, 33, 32], 10),
    ];
    for (trace, place) in traces {
        assert_eq!(call(Call::Add(trace.to_vec())), Said::Refused(refusal(6, place)), "{trace:?}");
    }
    let mut long = vec![1; 5000];
    for place in [5000, 4999, 4097, 4096, 2, 1] {
        long[place - 1] = 2;
        assert_eq!(call(Call::Add(long.clone())), Said::Refused(refusal(6, place)));
    }
    assert_eq!(call(Call::Read(b"     1  0\n     1  1\n     2  2\n     2  3\n".to_vec())), Said::Refused(refusal(6, 3)));
    assert_eq!(call(Call::Add(vec![0, 1])), Said::Added);
    assert_eq!(call(Call::Add(vec![])), Said::Added);
    assert_eq!(call(Call::Add(vec![1, 0])), Said::Refused(refusal(8, 0)));
    assert_eq!(call(Call::Add(vec![1, 2, 0, 2])), Said::Refused(refusal(6, 2)));
}

/// Every trace of at most five events, some declared and some not.
#[test]
fn all_short_traces_with_undeclared_steps() {
    let rng = &mut Rng::new(18);
    for n in [1, 2, 31, 32] {
        let fresh = History::fresh(Archive, rng, n, 5, 1, 1);
        let events = [0, n as u8 - 1, n as u8, 255];
        for (len, k) in (0..=5).flat_map(|len| (0..4usize.pow(len)).map(move |k| (len, k))) {
            let trace: Vec<u8> = (0..len).map(|digit| events[k / 4usize.pow(digit) % 4]).collect();
            let said = compare(&mut Archive, &mut fresh.memory.clone(), &Call::Add(trace.clone())).unwrap();
            let declared = trace.iter().take_while(|&&x| (x as u32) < n).count();
            let expected = if declared == trace.len() { Said::Added } else { Said::Refused(refusal(6, declared + 1)) };
            assert_eq!(said, expected, "{trace:?} of {n} activities");
        }
    }
}

/// Only empty traces, up to the last that is kept: they take ends and words and no events, 8 counts them, and find says 11 whatever the
/// slice; 3 comes first. A trace of length 1 beside them is listed as if it were alone.
#[test]
fn only_empty_traces() {
    for (ends_room, words_room, most) in [(1, 1, 1), (7, 9, 7), (9, 7, 7), (4095, 4095, 4095), (5000, 4096, 4095)] {
        let rng = &mut Rng::new(19 + ends_room as u64);
        let mut history = History::fresh(Archive, rng, 3, 1, ends_room, words_room);
        for k in 0..most - 1 {
            assert_eq!(history.call(Call::Add(vec![])).unwrap(), Said::Added);
            if k < 3 || k > most - 4 {
                for room in [0, 1, 1000] {
                    assert_eq!(history.call(Call::Find(by(1000), list(rng, room))).unwrap(), Said::Refused(refusal(11, 0)));
                }
                assert_eq!(history.call(Call::Find(by(1001), list(rng, 0))).unwrap(), Said::Refused(refusal(3, 0)));
            }
        }
        let mut with_one = history.memory.clone();
        assert_eq!(history.call(Call::Add(vec![])).unwrap(), Said::Added);
        assert_eq!(history.call(Call::Find(by(1), list_for(rng, 200))).unwrap(), Said::Refused(refusal(11, 0)));
        assert_eq!(history.call(Call::Add(vec![])).unwrap(), Said::Refused(refusal(8, 0)));
        assert_eq!(history.call(Call::Read(b"     1  2\n".to_vec())).unwrap(), Said::Refused(refusal(8, 1)));
        let mut alone = History::fresh(Archive, rng, 3, 1, 1, 1).memory;
        for memory in [&mut with_one, &mut alone] {
            assert_eq!(compare(&mut Archive, memory, &Call::Read(b"     1  2\n".to_vec())).unwrap(), Said::Read(1));
        }
        for settings in [by(1), by(500), confident(1, 1000), by(1000)] {
            let lent = list_for(rng, 200);
            let said = [&mut with_one, &mut alone].map(|memory| {
                let mut slice = lent.clone();
                let said = Archive.find(memory, settings, slice.get_mut());
                (said, slice)
            });
            assert!(said[0].0.is_ok_and(|found| found.traces == 1 && found.listed > 0) && said[0] == said[1]);
        }
    }
}

/// Two finds alike in N, settings and traces of length 1 or more, whatever their order and however many empty ones are kept beside them,
/// give the same list and numbers.
#[test]
fn neither_order_nor_empty_traces_matter() {
    let rng = &mut Rng::new(14);
    for _ in 0..cases(60) {
        let n = gen::activities(rng);
        let count = rng.within(1, 12);
        let traces: Vec<_> = gen::traces(rng, n, count, 10).into_iter().filter(|w| !w.is_empty()).collect();
        let (settings, lent) = (gen::settings(rng), list_for(rng, 15000));
        let mut lists = Vec::new();
        for _ in 0..2 {
            let mut kept = traces.clone();
            kept.resize(traces.len() + rng.below(9), vec![]);
            rng.shuffle(&mut kept);
            let mut history = History::fresh(Archive, rng, n, 150, 20, 20);
            for trace in &kept {
                assert_eq!(history.call(Call::Add(trace.clone())).unwrap(), Said::Added);
            }
            let mut slice = lent.clone();
            let said = Archive.find(&history.memory, settings, slice.get_mut());
            lists.push((said, slice));
        }
        assert!(lists[0] == lists[1]);
    }
}

/// For every confidence as much is replayed and read, and with 0 the list is that of the threshold alone; a higher one leaves some rules out.
#[test]
fn confidence_changes_the_list_alone() {
    let rng = &mut Rng::new(20);
    for _ in 0..cases(40) {
        let n = rng.within(1, 6) as u32;
        let count = rng.within(1, 15);
        let mut history = History::fresh(Archive, rng, n, 200, 20, 20);
        for trace in gen::traces(rng, n, count, 9) {
            assert_eq!(history.call(Call::Add(trace)).unwrap(), Said::Added);
        }
        let threshold = gen::settings(rng).threshold;
        let mut before: Option<(FindAnswer, Vec<u16>)> = None;
        for confidence in [0, 1, 333, 500, 501, 750, 999, 1000] {
            let mut slice = list_for(rng, 500);
            let Ok(found) = Archive.find(&history.memory, confident(threshold, confidence), slice.get_mut()) else { break };
            let list = slice.get()[..NUMBERS * found.listed as usize].to_vec();
            let mut rows = list.chunks(NUMBERS);
            assert!(rows.all(|row| 1000 * row[3] as u32 >= confidence * row[4] as u32));
            if let Some((answer, longer)) = before {
                assert_eq!(FindAnswer { listed: answer.listed, ..found }, answer);
                let mut longer = longer.chunks(NUMBERS);
                assert!(list.chunks(NUMBERS).all(|row| longer.any(|other| other == row)));
            }
            before = Some((found, list));
        }
    }
}

/// N of 32 and as many traces as can be kept: one find at the limits.
#[test]
fn a_find_at_the_limits() {
    let rng = &mut Rng::new(15);
    let mut history = History::fresh(Archive, rng, 32, 20000, 4095, 4095);
    let traces: Vec<Vec<u8>> = (0..4095).map(|_| (0..4).map(|_| rng.below(32) as u8).collect()).collect();
    assert_eq!(history.call(Call::Read(gen::log(rng, &traces))).unwrap(), Said::Read(4095));
    let said = history.call(Call::Find(by(100), list_for(rng, 15000))).unwrap();
    assert!(matches!(said, Said::Found(FindAnswer { traces: 4095, .. })), "{said:?}");
}
