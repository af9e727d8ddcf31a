//! What the 24 templates mean, in document 01's words over the places of a trace. A place is an index from 0; `w` is the trace.

#[derive(Clone, Copy, PartialEq, Eq, Debug)]
pub enum Verdict {
    Fulfilled,
    /// Document 01: idle.
    NotActivated,
    /// Document 01: broken.
    Violated,
}

fn places(w: &[u8], x: u8) -> impl Iterator<Item = usize> + Clone + '_ {
    (0..w.len()).filter(move |&i| w[i] == x)
}

pub fn occurs(w: &[u8], x: u8) -> bool {
    w.contains(&x)
}

fn none_strictly_between(w: &[u8], x: u8, i: usize, j: usize) -> bool {
    (i + 1..j).all(|k| w[k] != x)
}

fn response(w: &[u8], a: u8, b: u8) -> bool {
    places(w, a).all(|i| (i + 1..w.len()).any(|j| w[j] == b))
}

fn alternate_response(w: &[u8], a: u8, b: u8) -> bool {
    places(w, a).all(|i| (i + 1..w.len()).any(|j| w[j] == b && none_strictly_between(w, a, i, j)))
}

fn chain_response(w: &[u8], a: u8, b: u8) -> bool {
    places(w, a).all(|i| i + 1 < w.len() && w[i + 1] == b)
}

fn precedence(w: &[u8], a: u8, b: u8) -> bool {
    places(w, b).all(|j| (0..j).any(|i| w[i] == a))
}

fn alternate_precedence(w: &[u8], a: u8, b: u8) -> bool {
    places(w, b).all(|j| (0..j).rev().any(|i| w[i] == a && none_strictly_between(w, b, i, j)))
}

fn chain_precedence(w: &[u8], a: u8, b: u8) -> bool {
    places(w, b).all(|j| j > 0 && w[j - 1] == a)
}

/// The template's condition on a trace, without activation.
pub fn holds(template: u8, a: u8, b: u8, w: &[u8]) -> bool {
    let m = w.len();
    let how_often = |x: u8| places(w, x).count();
    match template {
        1 => how_often(a) >= 1,
        2 => how_often(a) >= 2,
        3 => how_often(a) >= 3,
        4 => how_often(a) == 0,
        5 => how_often(a) <= 1,
        6 => how_often(a) <= 2,
        7 => m >= 1 && w[0] == a,
        8 => m >= 1 && w[m - 1] == a,
        9 => occurs(w, a) || occurs(w, b),
        10 => occurs(w, a) != occurs(w, b),
        11 => occurs(w, a) == occurs(w, b),
        12 => !(occurs(w, a) && occurs(w, b)),
        13 => !occurs(w, a) || occurs(w, b),
        14 => response(w, a, b),
        15 => alternate_response(w, a, b),
        16 => chain_response(w, a, b),
        17 => precedence(w, a, b),
        18 => alternate_precedence(w, a, b),
        19 => chain_precedence(w, a, b),
        20 => response(w, a, b) && precedence(w, a, b),
        21 => alternate_response(w, a, b) && alternate_precedence(w, a, b),
        22 => chain_response(w, a, b) && chain_precedence(w, a, b),
        23 => !places(w, a).any(|i| (i + 1..m).any(|j| w[j] == b)),
        24 => !places(w, a).any(|i| i + 1 < m && w[i + 1] == b),
        _ => panic!("there are 24 templates"),
    }
}

pub fn activated(template: u8, a: u8, b: u8, w: &[u8]) -> bool {
    match template {
        1..=10 => true,
        13..=16 => occurs(w, a),
        17..=19 => occurs(w, b),
        11 | 12 | 20..=24 => occurs(w, a) || occurs(w, b),
        _ => panic!("there are 24 templates"),
    }
}

pub fn verdict(template: u8, a: u8, b: u8, w: &[u8]) -> Verdict {
    match (activated(template, a, b, w), holds(template, a, b, w)) {
        (true, true) => Verdict::Fulfilled,
        (false, _) => Verdict::NotActivated,
        (true, false) => Verdict::Violated,
    }
}
