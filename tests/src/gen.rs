//! Random traces, logs, settings lines and damage to them.

use crate::calls::Settings;
use crate::oracle::columns::{justified, written};
use crate::rng::Rng;

/// N: small ones mostly, the ends of the range often enough.
pub fn activities(rng: &mut Rng) -> u32 {
    match rng.below(10) {
        0 => 1,
        1 => rng.within(17, 31) as u32,
        2 if rng.chance(50) => 32,
        2..=3 => rng.within(6, 16) as u32,
        _ => rng.within(2, 5) as u32,
    }
}

/// A number of thousandths from 1, often a half, a third, or near all.
fn thousandths(rng: &mut Rng) -> u32 {
    match rng.below(4) {
        0 => rng.pick(&[1, 2, 333, 334, 500, 501, 666, 667, 750, 999, 1000]),
        1 => rng.within(800, 1000) as u32,
        _ => rng.within(1, 1000) as u32,
    }
}

/// Settings in range.
pub fn settings(rng: &mut Rng) -> Settings {
    let threshold = if rng.chance(70) { thousandths(rng) } else { rng.within(1, 100) as u32 };
    Settings { threshold, confidence: if rng.chance(70) { thousandths(rng) } else { 0 } }
}

/// Settings of which one or both are often out of range.
pub fn any_settings(rng: &mut Rng) -> Settings {
    let mut settings = settings(rng);
    if rng.chance(60) {
        settings.threshold = rng.pick(&[0, 1001, 1002, u32::MAX, 65536, 65537, 1 << 31]);
    }
    if rng.chance(60) {
        settings.confidence = rng.pick(&[1001, 1002, u32::MAX, 65536, 1 << 31]);
    }
    settings
}

/// A trace of at most `longest` activities below n, in one of several shapes, so that many constraints hold or just fail.
pub fn trace(rng: &mut Rng, n: u32, longest: usize) -> Vec<u8> {
    let n = n as usize;
    let len = rng.within(0, longest);
    let mut w: Vec<u8> = match rng.below(7) {
        0 => vec![rng.below(n) as u8; len],
        1 => {
            let (a, b) = (rng.below(n) as u8, rng.below(n) as u8);
            (0..len).map(|i| if i % 2 == 0 { a } else { b }).collect()
        }
        2 => {
            let from = rng.below(n);
            (0..len).map(|i| ((from + i) % n) as u8).collect()
        }
        3 => {
            let from = rng.below(n);
            (0..len).map(|i| ((from + len - i) % n) as u8).collect()
        }
        4 => {
            let few: Vec<u8> = (0..rng.within(1, 3)).map(|_| rng.below(n) as u8).collect();
            (0..len).map(|_| rng.pick(&few)).collect()
        }
        _ => (0..len).map(|_| rng.below(n) as u8).collect(),
    };
    if !w.is_empty() && rng.chance(30) {
        for _ in 0..rng.within(1, 2) {
            let at = rng.below(w.len());
            w[at] = rng.below(n) as u8;
        }
    }
    w
}

/// Traces, often with some repeated, so that counts lie near the threshold.
pub fn traces(rng: &mut Rng, n: u32, count: usize, longest: usize) -> Vec<Vec<u8>> {
    let few: Vec<Vec<u8>> = (0..rng.within(1, 4)).map(|_| trace(rng, n, longest)).collect();
    let repeats = rng.pick(&[0, 50, 90]);
    (0..count).map(|_| if rng.chance(repeats) { few[rng.below(few.len())].clone() } else { trace(rng, n, longest) }).collect()
}

/// The log of these traces, the empty ones left out, under rising numbers.
pub fn log(rng: &mut Rng, traces: &[Vec<u8>]) -> Vec<u8> {
    let mut number = match rng.below(4) {
        0 => rng.within(1, 900_000),
        1 => 999_999 - traces.len().saturating_sub(1),
        _ => 1,
    };
    let gap = if number == 1 { rng.pick(&[1, 2, 90]) } else { 1 };
    let mut out = Vec::new();
    for w in traces.iter().filter(|w| !w.is_empty()) {
        for &x in w {
            out.extend(written(number as u32, x as u32));
        }
        number += rng.within(1, gap);
    }
    out
}

/// Settings as a line: N in three columns, threshold and confidence in four each, line feed.
pub fn settings_line(n: u32, settings: Settings) -> Vec<u8> {
    format!("{}{}{}\n", justified(n, 3), justified(settings.threshold, 4), justified(settings.confidence, 4)).into_bytes()
}

/// A field that is not well formed, or may be so by chance.
fn spoiled_field(rng: &mut Rng, width: usize) -> Vec<u8> {
    let value = rng.below(10usize.pow(width as u32 - 1)) as u32;
    let digits = value.to_string().into_bytes();
    let mut f = justified(value, width).into_bytes();
    match rng.below(9) {
        0 => f = vec![b' '; width],
        1 => f = format!("{value:0>width$}").into_bytes(),
        2 => f = format!("{value:<width$}").into_bytes(),
        3 => f[width - 1 - rng.below(width)] = b' ',
        4 => f[rng.below(width)] = rng.pick(b"+-./:;aA\t\r\n\0,_\x7f\x80\xff0"),
        5 => f[rng.below(width)] = rng.byte(),
        6 => f[rng.below(width)] ^= 1 << rng.below(8),
        7 => {
            f = vec![b' '; width];
            let at = rng.below(width + 1 - digits.len());
            f[at..at + digits.len()].copy_from_slice(&digits);
        }
        _ => f.rotate_left(1),
    }
    f
}

pub const SETTINGS_DAMAGES: usize = 9;

/// One damage to a settings line, by its number.
pub fn damage_settings(rng: &mut Rng, kind: usize, line: &mut Vec<u8>) {
    match kind {
        0 => line.splice(..3, spoiled_field(rng, 3)).for_each(drop),
        1 => line.splice(3..7, spoiled_field(rng, 4)).for_each(drop),
        2 => line[11] = rng.pick(b"\r \0x0\x0b"),
        3 => line.splice(..3, justified(rng.pick(&[0, 33, 34, 99, 100, 255, 256, 289, 999]), 3).into_bytes()).for_each(drop),
        4 => line.splice(3..7, justified(rng.pick(&[0, 1001, 1002, 2000, 9999]), 4).into_bytes()).for_each(drop),
        5 => line.splice(7..11, spoiled_field(rng, 4)).for_each(drop),
        6 => line.splice(7..11, justified(rng.pick(&[1001, 1002, 2000, 9999]), 4).into_bytes()).for_each(drop),
        7 => line.insert(rng.below(12), rng.pick(b" 0\n\r")),
        8 => drop(line.remove(rng.below(12))),
        _ => unreachable!(),
    }
}

pub const LOG_DAMAGES: usize = 16;

/// One damage to a log, by its number. It may happen to leave a log that can be read.
pub fn damage_log(rng: &mut Rng, kind: usize, n: u32, log: &mut Vec<u8>) {
    let lines = log.len() / 10;
    if lines == 0 {
        log.extend((0..rng.within(1, 12)).map(|_| rng.byte()));
        return;
    }
    let at = 10 * rng.below(lines);
    let number = String::from_utf8_lossy(&log[at..at + 6]).trim().parse().unwrap_or(0);
    match kind {
        0 => log.splice(at..at + 6, spoiled_field(rng, 6)).for_each(drop),
        1 => log.splice(at + 6..at + 9, spoiled_field(rng, 3)).for_each(drop),
        2 => log[at + 9] = rng.pick(b"\r \0x0\x0b"),
        3 => log.splice(at..at + 6, *b"     0").for_each(drop),
        // A number that is lower, by a little or by much, or that starts again.
        4 => log.splice(at..at + 6, justified(rng.below(number.max(1)) as u32, 6).into_bytes()).for_each(drop),
        // A number that is higher, so that the next line is lower.
        5 => log.splice(at..at + 6, justified((number + rng.within(1, 3)).min(999_999) as u32, 6).into_bytes()).for_each(drop),
        6 => {
            let step = rng.pick(&[n, n + 1, 32, 33, 99, 255, 256, 256 + n / 2, 512, 999]);
            log.splice(at + 6..at + 9, justified(step, 3).into_bytes()).for_each(drop);
        }
        7 => log.truncate(log.len() - rng.within(1, 9)),
        8 => {
            let cut = rng.within(1, 9);
            let more = log[at..at + cut].to_vec();
            log.extend(more);
        }
        9 => log.insert(rng.below(log.len() + 1), rng.pick(b" \n\r0x")),
        10 => drop(log.remove(rng.below(log.len()))),
        11 => {
            let i = rng.below(log.len());
            log[i] = rng.byte();
        }
        12 => {
            let i = rng.below(log.len());
            log[i] ^= 1 << rng.below(8);
        }
        // Two lines exchanged.
        13 => {
            let other = 10 * rng.below(lines);
            for i in 0..10 {
                log.swap(at + i, other + i);
            }
        }
        // Line ends of another system.
        14 => *log = log.iter().flat_map(|&c| if c == b'\n' { vec![b'\r', b'\n'] } else { vec![c] }).collect(),
        15 => log.extend(std::iter::repeat_n(b'\n', rng.within(1, 11))),
        _ => unreachable!(),
    }
}

/// A log that may be damaged, up to three times.
pub fn maybe_damaged_log(rng: &mut Rng, n: u32, traces: &[Vec<u8>]) -> Vec<u8> {
    let mut bytes = log(rng, traces);
    let times = rng.pick(&[0, 0, 0, 1, 1, 2, 3]);
    for _ in 0..times {
        let kind = rng.below(LOG_DAMAGES);
        damage_log(rng, kind, n, &mut bytes);
    }
    bytes
}
