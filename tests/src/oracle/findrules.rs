//! The program findrules, from its input to its output.

use super::columns::{field, justified};
use super::finder::{Found, NUMBERS};
use super::ledger::{in_range, opens, refusal, Ledger, Refusal};
use crate::calls::Settings;

pub const MOST_INPUT: usize = 65536;
pub const EVENTS: usize = 6552;
pub const ENDS: usize = 4095;
pub const WORDS: usize = ENDS;
pub const RULES: usize = 6400;

/// N, threshold and confidence, well formed but not yet looked at.
fn settings(input: &[u8]) -> Option<(u32, Settings)> {
    if input.len() < 12 || input[11] != b'\n' {
        return None;
    }
    let n = field(&input[..3])?;
    Some((n, Settings { threshold: field(&input[3..7])?, confidence: field(&input[7..11])? }))
}

pub fn answer(input: &[u8]) -> Result<Found, Refusal> {
    if input.len() > MOST_INPUT {
        return Err(refusal(12, 0));
    }
    let (n, settings) = settings(input).ok_or(refusal(4, 0))?;
    opens(n)?;
    in_range(settings)?;
    let mut ledger = Ledger::fresh(n, EVENTS, ENDS, WORDS);
    ledger.read(&input[12..])?;
    ledger.find(settings, NUMBERS * RULES)
}

fn printed(found: &Found) -> String {
    let mut out = String::new();
    for number in [found.list.len() as u32, found.replayed, found.traces] {
        out += &justified(number, 6);
    }
    out += &format!("{:>10}", found.events_read);
    out.push('\n');
    for &[template, a, b, fulfilled, activated] in &found.list {
        let second = if template <= 8 { "   ".to_string() } else { justified(b as u32, 3) };
        let counts = [fulfilled, activated].map(|count| justified(count as u32, 5)).concat();
        out += &format!("{}{}{}{}\n", justified(template as u32, 2), justified(a as u32, 3), second, counts);
    }
    out
}

/// What the program writes.
pub fn output(input: &[u8]) -> Vec<u8> {
    match answer(input) {
        Ok(found) => printed(&found),
        Err(r) => format!("{}{}\n", justified(r.number, 2), justified(r.detail as u32, 6)),
    }
    .into_bytes()
}
