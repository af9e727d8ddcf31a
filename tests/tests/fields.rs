//! Fields of columns through the archive's read: every run number and step, and every field over the bytes that matter. Readers with one
//! fault each, in how the value so far goes on, have to be reported.

use budgieleaf_tests::calls::{Calls, FindAnswer, Settings};
use budgieleaf_tests::capi::Archive;
use budgieleaf_tests::lent::{Memory, Record};
use budgieleaf_tests::oracle::columns::written;
use budgieleaf_tests::oracle::ledger::{refusal, Refusal};
use budgieleaf_tests::oracle::memory::Model;
use budgieleaf_tests::play::{compare, Call, Said};

/// A blank, digits, and the bytes beside them.
const BYTES: &[u8] = b" 0149/:";

fn fresh(events: usize) -> Memory {
    Memory::of(Record { activities: 32, traces: 0 }, vec![0xA5; events], vec![77; events], vec![99; events])
}

/// Every field of this width over those bytes.
fn all_fields(width: usize) -> impl Iterator<Item = Vec<u8>> {
    (0..BYTES.len().pow(width as u32))
        .map(move |k| (0..width).map(|column| BYTES[k / BYTES.len().pow(column as u32) % BYTES.len()]).collect())
}

/// Lines of one field of each kind, on memory of their own; how many were accepted.
fn every_field(subject: &mut dyn Calls) -> Result<usize, String> {
    let numbers = all_fields(6).map(|field| [&field[..], b"  4\n"].concat());
    let activities = all_fields(3).map(|field| [b"   407", &field[..], b"\n"].concat());
    let mut accepted = 0;
    for line in numbers.chain(activities) {
        accepted += (compare(subject, &mut fresh(2), &Call::Read(line))? == Said::Read(1)) as usize;
    }
    Ok(accepted)
}

/// A run number twice and the next one are two runs, and in the other order the second line is refused.
fn every_number(subject: &mut dyn Calls, numbers: impl Iterator<Item = u32>) -> Result<(), String> {
    for number in numbers {
        let (this, next) = (written(number, 7), written(number + 1, 8));
        let mut memory = fresh(3);
        let said = subject.read(&mut memory, &[&this[..], &this, &next].concat());
        let kept = (memory.events.get(), &memory.ends.get()[..2], &memory.words.get()[..2]);
        if said != Ok(2) || kept != (&[7, 7, 8], &[2, 3], &[1 << 7, 1 << 8]) {
            return Err(format!("{number} twice and the next: {said:?}"));
        }
        let said = subject.read(&mut fresh(3), &[next, this].concat());
        if said != Err(refusal(5, 2)) {
            return Err(format!("{number} behind the next: {said:?}"));
        }
    }
    Ok(())
}

fn every_activity(subject: &mut dyn Calls) -> Result<(), String> {
    (0..=999).try_for_each(|activity| compare(subject, &mut fresh(1), &Call::Read(written(1, activity))).map(drop))
}

#[test]
fn over_the_bytes_that_matter() {
    // A run number starts with 1, 4 or 9 and goes on with up to five of 0, 1, 4 and 9; a step is accepted below 32, 0 too.
    let numbers: usize = (0..6).map(|more| 3 * 4usize.pow(more)).sum();
    let below_32 = [0, 1, 4, 9, 10, 11, 14, 19].len();
    assert_eq!(every_field(&mut Archive).unwrap(), numbers + below_32);
}

#[test]
fn every_run_number() {
    every_number(&mut Archive, 1..999999).unwrap();
}

#[test]
fn every_step() {
    every_activity(&mut Archive).unwrap();
}

/// Reads fields from the left and hands what it read to the model.
struct Reader {
    start: u32,
    blank_counts: bool,
    next: fn(u32, u32) -> u32,
}

const RIGHT: Reader = Reader { start: 0, blank_counts: false, next: |value, digit| value * 10 + digit };

impl Reader {
    fn field(&self, bytes: &[u8]) -> Option<u32> {
        let mut so_far = None;
        for &byte in bytes {
            let digit = match byte {
                b' ' if self.blank_counts => 0,
                b' ' if so_far.is_none() => continue,
                b'0'..=b'9' => (byte - b'0') as u32,
                _ => return None,
            };
            if so_far == Some(0) {
                return None;
            }
            so_far = Some((self.next)(so_far.unwrap_or(self.start), digit));
        }
        so_far
    }

    fn line(&self, bytes: &[u8]) -> Vec<u8> {
        match (self.field(&bytes[..6]), self.field(&bytes[6..9])) {
            (Some(number), Some(activity)) => written(number % 1000000, activity % 1000),
            _ => b"no field!\n".to_vec(),
        }
    }
}

impl Calls for Reader {
    fn open(&mut self, n: u32) -> Result<Record, Refusal> {
        Model.open(n)
    }

    fn add(&mut self, memory: &mut Memory, trace: &[u8]) -> Result<(), Refusal> {
        Model.add(memory, trace)
    }

    fn read(&mut self, memory: &mut Memory, log: &[u8]) -> Result<u32, Refusal> {
        let lines: Vec<u8> = log.chunks(10).flat_map(|line| self.line(line)).collect();
        Model.read(memory, &lines)
    }

    fn find(&mut self, memory: &Memory, settings: Settings, list: &mut [u16]) -> Result<FindAnswer, Refusal> {
        Model.find(memory, settings, list)
    }
}

#[test]
fn a_right_reader_is_not_reported() {
    every_field(&mut { RIGHT }).unwrap();
    every_number(&mut { RIGHT }, (1..999999).step_by(997)).unwrap();
    every_activity(&mut { RIGHT }).unwrap();
}

#[test]
fn faulty_readers_are_reported() {
    let faulty = [
        ("ten times forgotten", Reader { next: |value, digit| value + digit, ..RIGHT }),
        ("the digit added before the multiplication", Reader { next: |value, digit| (value + digit) * 10, ..RIGHT }),
        ("a blank counted as a digit", Reader { blank_counts: true, ..RIGHT }),
        ("a value that starts at 1", Reader { start: 1, ..RIGHT }),
    ];
    for (fault, mut reader) in faulty {
        assert!(every_field(&mut reader).is_err(), "{fault}: not reported over the bytes that matter");
        assert!(every_number(&mut reader, (1..999999).step_by(997)).is_err(), "{fault}: not reported among the run numbers");
        assert!(every_activity(&mut reader).is_err(), "{fault}: not reported among the steps");
    }
}
