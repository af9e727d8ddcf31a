//! Every example of document 01, computed by this implementation.

use super::columns::{field, justified, line, Line};
use super::finder::{constraints, find, is_confident, meets, room_for_all, Found, NUMBERS};
use super::findrules::output;
use super::ledger::{opens, refusal, Ledger};
use super::memory::{is_sound, word, Model};
use super::templates::{verdict, Verdict, Verdict::*};
use crate::calls::{Calls, FindAnswer, Settings};
use crate::lent::{Memory, Record};

const SAMPLE: &str = concat!(
    "    15    18     1        18\n",
    " 1  0       1    1\n",
    " 4  1       1    1\n",
    " 5  0       1    1\n",
    " 5  1       1    1\n",
    " 6  0       1    1\n",
    " 6  1       1    1\n",
    " 7  0       1    1\n",
    " 8  0       1    1\n",
    " 9  0  1    1    1\n",
    "10  0  1    1    1\n",
    "12  0  1    1    1\n",
    "23  0  1    1    1\n",
    "23  1  0    1    1\n",
    "24  0  1    1    1\n",
    "24  1  0    1    1\n",
);

fn by(threshold: u32) -> Settings {
    Settings::by(threshold)
}

fn on_0_1(trace: &[u8], expected: &[(u8, Verdict)]) {
    for &(template, v) in expected {
        assert_eq!(verdict(template, 0, 1, trace), v, "template {template} on {trace:?}");
    }
}

#[test]
fn starred_rows_of_single_traces() {
    on_0_1(&[], &[(14, NotActivated), (4, Fulfilled), (9, Violated)]);
    on_0_1(&[0, 0, 1], &[(14, Fulfilled), (15, Violated), (18, Fulfilled)]);
    on_0_1(&[0, 1, 1], &[(15, Fulfilled), (17, Fulfilled), (18, Violated)]);
    on_0_1(&[1, 0], &[(13, Fulfilled), (14, Violated), (17, Violated), (23, Fulfilled)]);
    on_0_1(&[0, 2, 1], &[(16, Violated), (23, Violated), (24, Fulfilled)]);
    on_0_1(&[1], &[(14, NotActivated), (17, Violated)]);
    on_0_1(&[0, 1, 0, 1], &[(21, Fulfilled), (22, Fulfilled), (5, Violated)]);
    on_0_1(&[2], &[(12, NotActivated), (13, NotActivated)]);
}

#[test]
fn starred_row_of_the_threshold() {
    assert!(meets(2, 666, 3));
    assert!(!meets(2, 667, 3));
}

#[test]
fn starred_row_of_one_empty_trace() {
    let mut ledger = Ledger::fresh(1, 5, 5, 5);
    assert_eq!(ledger.add(&[]), Ok(()));
    assert_eq!(ledger.find(by(1000), room_for_all(1)), Err(refusal(11, 0)));
    assert_eq!(ledger.traces, [vec![]]);
}

#[test]
fn empty_traces_count_for_nothing() {
    let found = find(1, &[vec![], vec![0], vec![]], by(1000));
    let list = vec![[1, 0, 0, 1, 1], [5, 0, 0, 1, 1], [6, 0, 0, 1, 1], [7, 0, 0, 1, 1], [8, 0, 0, 1, 1]];
    assert_eq!(found, Found { list, replayed: 8, traces: 1, events_read: 8 });
    assert_eq!(found, find(1, &[vec![0]], by(1000)));
}

#[test]
fn confidences() {
    assert!(is_confident(19, 20, 950) && !is_confident(19, 20, 951));
    assert!(is_confident(0, 0, 1000) && is_confident(0, 5, 0) && !is_confident(0, 5, 1));
}

/// Of three traces, one of them empty: responded existence of 0 and 1 is broken in one of the two with 0, that of 1 and 0 kept in the one with 1.
#[test]
fn what_seldom_applies_is_told_from_what_is_often_broken() {
    let traces = [vec![0, 1], vec![], vec![0]];
    let listed = |confidence| find(2, &traces, Settings { threshold: 250, confidence });
    let (often, seldom) = ([13, 0, 1, 1, 2], [13, 1, 0, 1, 1]);
    assert!([0, 500].iter().all(|&k| listed(k).list.contains(&often) && listed(k).list.contains(&seldom)));
    assert!([501, 1000].iter().all(|&k| !listed(k).list.contains(&often) && listed(k).list.contains(&seldom)));
    // Precedence goes by b, and templates 1 to 10 by every trace of length 1 or more.
    assert!(listed(501).list.contains(&[17, 0, 1, 1, 1]) && listed(500).list.contains(&[4, 1, 1, 1, 2]));
    assert_eq!(listed(1000).answer(), FindAnswer { listed: 13, replayed: 44, traces: 2, events_read: 106 });
}

#[test]
fn two_traces_list_18_and_replay_44() {
    let found = find(2, &[vec![0, 1], vec![0, 0, 1]], by(1000));
    assert_eq!((found.list.len(), found.replayed, found.traces, found.events_read), (18, 44, 2, 220));
}

#[test]
fn what_does_not_count_is_not_read() {
    // Of two traces of 1 and 3 events: 10 constraints on an activity, 6 that read all, 7 by either and 21 by both.
    let found = find(2, &[vec![0], vec![], vec![1, 1, 0]], by(1));
    assert_eq!((found.replayed, found.events_read), (44, 5 * 4 + 5 * 3 + 6 * 4 + 7 * 4 + 21 * 3));
}

#[test]
fn the_sample_byte_for_byte() {
    assert_eq!(String::from_utf8(output(b"  21000   0\n     1  0\n")).unwrap(), SAMPLE);
}

#[test]
fn n_of_32_is_taken_and_33_refused() {
    assert_eq!(opens(32), Ok(()));
    assert_eq!(opens(33), Err(refusal(2, 0)));
    assert_eq!(opens(1), Ok(()));
    assert_eq!(opens(0), Err(refusal(2, 0)));
}

#[test]
fn a_trace_of_4096_is_taken_and_4097_refused() {
    let mut ledger = Ledger::fresh(1, 20000, 10, 10);
    assert_eq!(ledger.add(&[0; 4096]), Ok(()));
    assert_eq!(ledger.add(&[0; 4097]), Err(refusal(7, 0)));
    let lines = |n| b"     1  0\n".repeat(n);
    assert_eq!(ledger.read(&lines(4096)), Ok(1));
    assert_eq!(ledger.read(&lines(4097)), Err(refusal(7, 4097)));
    assert_eq!(ledger.traces.len(), 2);
}

#[test]
fn an_undeclared_step_is_told_by_its_lowest_place() {
    let mut ledger = Ledger::fresh(2, 20, 10, 10);
    assert_eq!(ledger.add(&[2, 0, 2]), Err(refusal(6, 1)));
    assert_eq!(ledger.add(&[0, 2, 1, 3]), Err(refusal(6, 2)));
    assert_eq!(ledger.add(&[0, 1, 255]), Err(refusal(6, 3)));
    assert_eq!(ledger.read(b"     1  0\n     1  2\n     2  3\n"), Err(refusal(6, 2)));
    assert!(ledger.traces.is_empty());
}

#[test]
fn fourteen_n_n_less_six_n_constraints() {
    for n in 1..=32 {
        assert_eq!(constraints(n).len() as u32, 14 * n * n - 6 * n);
        assert_eq!(NUMBERS * constraints(n).len(), room_for_all(n));
    }
}

#[test]
fn mistakes_of_the_trade() {
    // Choice and exclusive choice hold always, and no trace has both.
    let found = find(2, &[vec![0], vec![1]], by(1000));
    assert!(found.list.contains(&[9, 0, 1, 2, 2]) && found.list.contains(&[10, 0, 1, 2, 2]));
    // Co-existence once for each pair.
    let found = find(2, &[vec![0, 1]], by(1000));
    assert!(found.list.contains(&[11, 0, 1, 1, 1]) && found.list.iter().all(|r| r[..3] != [11, 1, 0]));
    // The last step of one trace is not before the first of the next.
    let found = find(2, &[vec![0], vec![1]], by(1));
    assert!(found.list.iter().all(|r| !(16..=22).contains(&r[0])));
    // 1000 * 2 / 3 is 666 when rounded down and 667 when rounded up.
    assert!(!meets(2, 667, 3) && meets(2, 666, 3) && meets(1, 333, 3) && !meets(1, 334, 3));
}

#[test]
fn fields() {
    for (bytes, value) in [(&b"  0"[..], 0), (b"  7", 7), (b" 42", 42), (b"999", 999), (b"100", 100)] {
        assert_eq!(field(bytes), Some(value));
        assert_eq!(justified(value, 3).as_bytes(), bytes);
    }
    for bytes in [&b"   "[..], b" 00", b"007", b"7  ", b"4 2", b" 4 ", b"+42", b" -1", b"\t 1", b"  a", b"\0\01", b"  :", b"  /"] {
        assert_eq!(field(bytes), None, "{bytes:?}");
    }
    assert_eq!(line(b"999999999\n"), Some(Line { number: 999999, activity: 999 }));
    assert_eq!(line(b"     0  1\n"), None);
    assert_eq!(line(b"     1  1\r"), None);
    assert_eq!(line(b"     1  1"), None);
}

fn printed(input: &[u8]) -> String {
    String::from_utf8(output(input)).unwrap()
}

#[test]
fn refusals_of_the_program_in_their_order() {
    assert_eq!(printed(b""), " 4     0\n");
    assert_eq!(printed(b"  21000   0"), " 4     0\n");
    assert_eq!(printed(b"  21000   0 "), " 4     0\n");
    assert_eq!(printed(b" 02   0   0\n"), " 4     0\n");
    assert_eq!(printed(b"  0   01001\n"), " 2     0\n");
    assert_eq!(printed(b" 33   0   0\n"), " 2     0\n");
    assert_eq!(printed(b"  2   0   0\nx"), " 3     0\n");
    assert_eq!(printed(b"  210011001\nx"), " 3     0\n");
    assert_eq!(printed(b"  210001001\nx"), "15     0\n");
    assert_eq!(printed(b"  210001000\nx"), " 4     1\n");
    assert_eq!(printed(b"  21000\n     1  0\n"), " 4     0\n");
    assert_eq!(printed(b"  21000  01\n"), " 4     0\n");
    assert_eq!(printed(b"  21000   0\nx"), " 4     1\n");
    assert_eq!(printed(b"  21000   0\n"), "11     0\n");
    assert_eq!(printed(b"  21000   0\n     2  0\n     1  2\n"), " 5     2\n");
    assert_eq!(printed(b"  21000   0\n     2  0\n     2  2\n"), " 6     2\n");
    assert_eq!(printed(&[b"  11000   0\n".to_vec(), b"     1  0\n".repeat(4097)].concat()), " 7  4097\n");
    let traces: Vec<u8> = (1..=4096).flat_map(|k| format!("{k:>6}  0\n").into_bytes()).collect();
    assert_eq!(printed(&[b"  11000   0\n".to_vec(), traces].concat()), " 8  4096\n");
    assert_eq!(printed(&[b'x'; 65537]), "12     0\n");
    assert_eq!(printed(&[b'x'; 65536]), " 4     0\n");
    // 0 to 31, 31 to 0, and each activity alone: 192 + 3 * 496 of the templates 1 to 10 and 12, 496 of 11, 992 of each of
    // 13 to 15, 17, 18, 20, 21, 23 and 24, and 62 of each of 16, 19 and 22.
    let mut lines: Vec<String> = (0..32).map(|x| format!("     1{x:>3}\n")).collect();
    lines.extend((0..32).rev().map(|x| format!("     2{x:>3}\n")));
    lines.extend((0..32).map(|x| format!("{:>6}{x:>3}\n", x + 3)));
    assert_eq!(printed(format!(" 32   1   0\n{}", lines.concat()).as_bytes()), "10 11290\n");
}

#[test]
fn a_refused_read_changes_nothing() {
    let mut ledger = Ledger::fresh(2, 3, 5, 5);
    let before = ledger.clone();
    assert_eq!(ledger.read(b"     1  0\n     2  1\n     2  1\n     2  1\n"), Err(refusal(9, 4)));
    assert_eq!(ledger, before);
    assert_eq!(ledger.read(b"     1  0\n     2  1\n     2  1\n"), Ok(2));
    assert_eq!(ledger.traces, [vec![0], vec![1, 1]]);
    assert_eq!(ledger.read(b""), Ok(0));
    assert_eq!(ledger.read(b"     2  1\n"), Err(refusal(9, 1)));
}

#[test]
fn eight_comes_at_the_shortest() {
    for (ends_room, words_room) in [(1, 1), (1, 2), (2, 1)] {
        let mut ledger = Ledger::fresh(2, 20, ends_room, words_room);
        assert_eq!(ledger.read(b"     1  0\n     2  1\n"), Err(refusal(8, 2)));
        assert_eq!(ledger.add(&[]), Ok(()));
        assert_eq!(ledger.add(&[]), Err(refusal(8, 0)));
        assert_eq!(ledger.read(b"     1  0\n"), Err(refusal(8, 1)));
    }
    assert_eq!(Ledger::fresh(2, 20, 1, 0).add(&[1]), Err(refusal(8, 0)));
}

#[test]
fn words_of_traces() {
    assert_eq!([word(&[]), word(&[0]), word(&[3, 1, 3]), word(&[31, 0, 32, 255])], [0, 1, 0b1010, 1 << 31 | 1]);
    let record = Record { activities: 32, traces: 3 };
    let sound = |words: &[u32]| is_sound(&Memory::of(record, vec![0, 2, 2, 31], vec![3, 3, 4], words.to_vec()));
    assert!(sound(&[0b101, 0, 1 << 31]) && sound(&[0b101, 0, 1 << 31, 77]));
    assert!(!sound(&[]) && !sound(&[0b101, 0]));
    assert!(!sound(&[0b111, 0, 1 << 31]) && !sound(&[0b100, 0, 1 << 31]) && !sound(&[0b101, 1 << 31, 1 << 31]));
    assert!(!sound(&[0b101, 0, 0]) && !sound(&[0b101, 0b101, 1 << 31]));
}

#[test]
fn soundness_at_its_edges() {
    let sound = |activities, traces, ends: &[u32]| {
        let words = (0..ends.len()).map(|k| if k > 0 && ends[k] <= ends[k - 1] || ends[k] == 0 { 0 } else { 0b10 }).collect();
        is_sound(&Memory::of(Record { activities, traces }, vec![1; 5000], ends.to_vec(), words))
    };
    assert!(sound(32, 0, &[]) && sound(2, 1, &[4096]) && sound(2, 2, &[4096, 5000]) && sound(2, 1, &[0, 9999]));
    assert!(!sound(0, 0, &[]) && !sound(33, 0, &[]) && !sound(2, 1, &[]) && !sound(2, 1, &[4097]));
    assert!(!sound(2, 2, &[4096, 4095]) && !sound(2, 2, &[4096, 5001]) && !sound(1, 1, &[1]));
    assert!(sound(2, 4095, &[1; 5000]) && !sound(2, 4096, &[1; 5000]));
}

#[test]
fn the_model_writes_only_what_is_kept() {
    let mut memory = Memory::of(Model.open(3).unwrap(), vec![9; 6], vec![7; 3], vec![8; 4]);
    assert_eq!(Model.add(&mut memory, &[2, 0]), Ok(()));
    assert_eq!(Model.read(&mut memory, b"     5  1\n"), Ok(1));
    let after = Memory::of(Record { activities: 3, traces: 2 }, vec![2, 0, 1, 9, 9, 9], vec![2, 3, 7], vec![0b101, 0b10, 8, 8]);
    assert_eq!(memory, after);
    assert_eq!(Model.add(&mut memory, &[0, 3, 4]), Err(refusal(6, 2)));
    assert_eq!(memory, after);
}
