//! The inputs in samples/, made anew from fixed seeds. `cargo run --release --bin samples` writes them with their outputs.

use crate::calls::Settings;
use crate::gen::settings_line;
use crate::oracle::columns::written;
use crate::rng::Rng;

/// The log of these traces from this number on.
fn log(first: u32, traces: &[Vec<u8>]) -> Vec<u8> {
    let numbered = traces.iter().zip(first..);
    numbered.flat_map(|(w, number)| w.iter().flat_map(move |&x| written(number, x as u32))).collect()
}

fn input_by(n: u32, settings: Settings, log: Vec<u8>) -> Vec<u8> {
    [settings_line(n, settings), log].concat()
}

/// By a threshold alone.
fn input(n: u32, threshold: u32, log: Vec<u8>) -> Vec<u8> {
    input_by(n, Settings::by(threshold), log)
}

/// Five activities: 0 tip, 1 wash, 2 sort, 3 pack, 4 check. Nearly every trace is tipped, washed, sorted and packed; some are
/// checked after sorting, and then washed and sorted again. A few are never washed, and a few are not packed.
fn season() -> Vec<u8> {
    let mut rng = Rng::new(2026);
    let traces: Vec<Vec<u8>> = (0..240)
        .map(|_| {
            let mut w = vec![0];
            if rng.chance(97) {
                w.push(1);
            }
            w.push(2);
            while rng.chance(15) {
                w.extend([4, 1, 2]);
            }
            if rng.chance(98) {
                w.extend(vec![3; rng.pick(&[1, 1, 1, 2])]);
            }
            w
        })
        .collect();
    input(5, 950, log(1001, &traces))
}

/// 32 activities and as many lines as the program can take.
fn large() -> Vec<u8> {
    let mut rng = Rng::new(65536);
    let mut traces = Vec::new();
    let mut left = 6552;
    while left > 0 {
        let len = rng.within(40, 80).min(left);
        let phase = rng.below(4);
        traces.push((0..len).map(|i| ((i * 32 / len + phase + rng.below(9)) % 32) as u8).collect());
        left -= len;
    }
    input(32, 850, log(1, &traces))
}

/// The activities of the season, and 5 jam and 6 clear. Each sixth trace jams, and of these 40 all but one are cleared; every other trace is
/// checked, though all are sorted.
fn seldom() -> Vec<u8> {
    let traces: Vec<Vec<u8>> = (0..240)
        .map(|k| {
            let mut w = vec![0, 1, 2];
            if k % 2 == 0 {
                w.push(4);
            }
            if k % 6 == 1 {
                w.push(5);
            }
            if k % 6 == 1 && k > 1 {
                w.push(6);
            }
            w.push(3);
            w
        })
        .collect();
    input_by(7, Settings { threshold: 50, confidence: 950 }, log(1, &traces))
}

/// Four traces over 25 activities of which just 6400 constraints are fulfilled at least once.
const LISTED_6400: [&[u8]; 4] = [
    &[23, 15, 13, 22, 20, 18, 7, 17, 14, 3, 19, 8, 1, 10, 24, 9, 5, 21, 2, 16, 14, 4, 11],
    &[1, 12, 13, 20, 2, 9, 22, 6, 10, 19, 12, 7, 5, 23, 24, 8, 12, 18, 14, 0, 15, 11, 5, 5, 4, 17, 3],
    &[11, 15, 16, 24, 5, 4, 19, 12, 18, 0, 22, 10, 6, 1, 2, 20, 13, 21, 7, 17, 23],
    &[8, 3, 13, 18, 0, 17, 14, 0, 10, 21, 1, 4, 1, 4, 17, 23, 6, 20, 22, 16, 15, 7, 9, 2, 19, 12, 19],
];

/// And of which just 6401 are.
const LISTED_6401: [&[u8]; 4] = [
    &[23, 7, 4, 12, 12, 24, 15, 5, 20, 12, 19, 16, 21, 13, 6, 9, 0, 10, 1, 2, 1, 17, 17, 1, 8],
    &[10, 5, 8, 15, 22, 9, 20, 4, 16, 11, 23, 18, 3, 17, 13, 0, 19, 14, 1, 7, 24],
    &[3, 4, 14, 19, 23, 22, 6, 7, 2, 12, 0, 9, 24, 1, 10, 8, 17, 18, 11, 21, 15],
    &[17, 21, 7, 0, 18, 8, 12, 6, 1, 20, 9, 10, 16, 13, 15, 11, 22, 4, 24, 14, 5, 23, 3, 4],
];

/// Each sample's name and input.
pub fn all() -> Vec<(&'static str, Vec<u8>)> {
    let line = |number, step| written(number, step);
    let small = [line(1, 0), line(1, 1), line(2, 1)].concat();
    let with = |more: &[u8]| [small.clone(), more.to_vec()].concat();
    vec![
        ("sample", input(2, 1000, line(1, 0))),
        ("two-traces", input(2, 1000, log(1, &[vec![0, 1], vec![0, 0, 1]]))),
        ("season", season()),
        ("large", large()),
        ("seldom", seldom()),
        ("list-of-6400", input(25, 1, log(1, &LISTED_6400.map(|w| w.to_vec())))),
        ("refusal-02", input(33, 1000, small.clone())),
        ("refusal-03", input(2, 1001, small.clone())),
        ("refusal-04-settings", b"  2 950".to_vec()),
        ("refusal-04", input(2, 1000, with(b"     2 01\n"))),
        ("refusal-04-cut", input(2, 1000, with(b"     2  1"))),
        ("refusal-05", input(2, 1000, with(&line(1, 0)))),
        ("refusal-06", input(2, 1000, with(&line(2, 2)))),
        ("refusal-07", input(1, 1000, log(1, &[vec![0; 4097]]))),
        ("refusal-08", input(1, 1000, log(1, &vec![vec![0]; 4096]))),
        ("refusal-10", input(25, 1, log(1, &LISTED_6401.map(|w| w.to_vec())))),
        ("refusal-11", input(2, 1000, Vec::new())),
        ("refusal-12", [input(1, 1000, log(1, &vec![vec![0; 2]; 3276])), b"  655".to_vec()].concat()),
        ("refusal-15", input_by(2, Settings { threshold: 1000, confidence: 1001 }, small.clone())),
    ]
}
