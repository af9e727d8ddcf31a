//! The calls through the archive on records and buffers that no history made: unsound ones of each kind, sound ones at the
//! limits, arbitrary ones. Answer, record and every byte lent are compared with the model.

use budgieleaf_tests::calls::{Calls, FindAnswer, Settings};
use budgieleaf_tests::capi::Archive;
use budgieleaf_tests::gen;
use budgieleaf_tests::lent::{Lent, Memory};
use budgieleaf_tests::memories::{self, UNSOUND};
use budgieleaf_tests::oracle::finder::NUMBERS;
use budgieleaf_tests::oracle::ledger::refusal;
use budgieleaf_tests::oracle::memory::is_sound;
use budgieleaf_tests::play::{compare, Call, Said};
use budgieleaf_tests::rng::{cases, Rng};

/// An add, a read and a find whose arguments are right or wrong themselves.
fn some_calls(rng: &mut Rng, memory: &Memory) -> Vec<Call> {
    let n = memory.record.activities.clamp(1, 32);
    let mut trace = gen::trace(rng, n, 6);
    if rng.chance(20) {
        for _ in 0..rng.within(1, 3) {
            trace.insert(rng.below(trace.len() + 1), rng.byte());
        }
    }
    let count = rng.below(4);
    let traces = gen::traces(rng, n, count, 4);
    let log = gen::maybe_damaged_log(rng, n, &traces);
    let settings = if rng.chance(20) { gen::any_settings(rng) } else { gen::settings(rng) };
    let room = rng.pick(&[0, NUMBERS - 1, NUMBERS, 25 * NUMBERS, 250 * NUMBERS]);
    let list = Lent::new(rng, room, |rng| rng.next() as u16);
    vec![Call::Add(trace), Call::Read(log), Call::Find(settings, list)]
}

/// Soundness, and each call on a copy of the memory.
fn check(rng: &mut Rng, name: &str, memory: &Memory) -> Vec<Said> {
    assert_eq!(Archive::is_sound(memory), is_sound(memory), "{name}: {memory:?}");
    let calls = some_calls(rng, memory);
    calls.iter().map(|call| compare(&mut Archive, &mut memory.clone(), call).unwrap_or_else(|e| panic!("{name}: {e}"))).collect()
}

#[test]
fn unsound_of_each_kind() {
    for (kind, name) in UNSOUND.iter().enumerate() {
        let rng = &mut Rng::new(20 + kind as u64);
        for _ in 0..cases(400) {
            let memory = memories::unsound(rng, kind);
            let said = check(rng, name, &memory);
            assert!(said.iter().all(|&s| s == Said::Refused(refusal(1, 0))), "{name}: {said:?}");
        }
    }
}

#[test]
fn sound() {
    let rng = &mut Rng::new(30);
    for _ in 0..cases(1500) {
        let memory = memories::sound(rng);
        let said = check(rng, "sound", &memory);
        assert!(said.iter().all(|&s| s != Said::Refused(refusal(1, 0))), "{said:?}");
    }
}

#[test]
fn sound_at_the_limits() {
    let rng = &mut Rng::new(31);
    for _ in 0..cases(24) {
        let memory = memories::at_the_limits(rng);
        let said = check(rng, "at the limits", &memory);
        assert!(said.iter().all(|&s| s != Said::Refused(refusal(1, 0))), "{said:?}");
    }
}

#[test]
fn arbitrary() {
    let rng = &mut Rng::new(32);
    let (mut accepted, mut unsound) = (0, 0);
    for _ in 0..cases(20000) {
        let memory = memories::arbitrary(rng);
        for said in check(rng, "arbitrary", &memory) {
            accepted += !matches!(said, Said::Refused(_)) as usize;
            unsound += (said == Said::Refused(refusal(1, 0))) as usize;
        }
    }
    assert!(accepted > 1000 && unsound > 1000, "{accepted} accepted, {unsound} unsound");
}

/// Lengths that 32 bits cannot hold. The pages of these slices are never written, so they take next to no memory.
#[test]
fn slices_longer_than_32_bits_count() {
    let beyond = (1usize << 32) + 5;
    let opened = Archive.open(1).unwrap();
    let mut memory = Memory::of(opened, vec![0; beyond], vec![7; 3], vec![9; 3]);
    let mut long = vec![0u8; beyond];
    assert_eq!((Archive.add(&mut memory, &long), memory.record), (Err(refusal(7, 0)), opened));
    long[beyond - 1] = 1;
    assert_eq!((Archive.add(&mut memory, &long), memory.record), (Err(refusal(6, beyond)), opened));
    drop(long);
    assert_eq!((memory.ends.get(), memory.words.get()), (&[7; 3][..], &[9; 3][..]));
    assert_eq!((Archive.add(&mut memory, &[0; 9]), memory.record.traces), (Ok(()), 1));
    assert_eq!((Archive.read(&mut memory, b"     1  0\n"), memory.record.traces), (Ok(1), 2));
    assert_eq!((memory.ends.get(), memory.words.get()), (&[9, 10, 7][..], &[1, 1, 9][..]));
    let mut list = vec![0u16; beyond];
    let said = Archive.find(&memory, Settings { threshold: 1000, confidence: 1000 }, &mut list);
    assert_eq!(said, Ok(FindAnswer { listed: 3, replayed: 8, traces: 2, events_read: 80 }));
    assert_eq!(list[..4 * NUMBERS], [[1, 0, 0, 2, 2], [7, 0, 0, 2, 2], [8, 0, 0, 2, 2], [0; NUMBERS]].concat());
}
