//! The expected scores of a match, by three methods. Each goes over all pairs of rows once a turn, with
//! two layers of cells: what the pair expects of the turns that are left.

use crate::automaton::Automaton;
use crate::lab::{Match, PAYS, TURNED};

/// Two ends, in a unit that the method names.
#[derive(Clone, Copy, Default)]
pub struct Span {
    pub lo: u128,
    pub hi: u128,
}

/// The parts of a point in which the first method counts.
pub const UNITS: u128 = 1_000_000_000_000;

// The weight of a shown C in each row, over den * e.
fn shown(side: &Automaton, meeting: &Match<'_>) -> Vec<u64> {
    let flipped = |w| w * (meeting.e - meeting.n) + (side.den - w) * meeting.n;
    side.weights.iter().map(|w| flipped(*w)).collect()
}

// The weights of the plays CC, CD, DC and DD, where the sides show C with a/all_a and b/all_b.
fn plays(a: u64, all_a: u64, b: u64, all_b: u64) -> [u64; 4] {
    let (not_a, not_b) = (all_a - a, all_b - b);
    [a * b, a * not_b, not_a * b, not_a * not_b]
}

/// (a) Both ends in units of 10^-12, each rounded outward by a division of 128 bits.
pub fn two_sided(meeting: &Match<'_>) -> [Span; 2] {
    let (a, b) = (meeting.left, meeting.right);
    let (all_a, all_b) = (a.den * meeting.e, b.den * meeting.e);
    let (shown_a, shown_b) = (shown(a, meeting), shown(b, meeting));
    let q = (all_a * all_b) as u128;
    let pays = PAYS.map(|side| side.map(|pay| pay as u128 * UNITS));
    let columns = b.rows();
    let mut cells = vec![[Span::default(); 2]; a.rows() * columns];
    let mut next = cells.clone();
    for _ in 0..meeting.turns {
        for u in 0..a.rows() {
            for v in 0..columns {
                let weights = plays(shown_a[u], all_a, shown_b[v], all_b);
                let mut sums = [Span::default(); 2];
                for play in 0..4 {
                    let w = weights[play] as u128;
                    let child = &cells[a.next[u][play] * columns + b.next[v][TURNED[play]]];
                    for side in 0..2 {
                        sums[side].lo += w * (child[side].lo + pays[side][play]);
                        sums[side].hi += w * (child[side].hi + pays[side][play]);
                    }
                }
                next[u * columns + v] = sums.map(|sum| Span {
                    lo: sum.lo / q,
                    hi: (sum.hi + q - 1) / q,
                });
            }
        }
        std::mem::swap(&mut cells, &mut next);
    }
    cells[0]
}

/// What the second method gives: both sides lie from `low` to `low + error`, over `scale`.
pub struct OneSided {
    pub low: [u128; 2],
    pub error: u128,
    pub scale: u128,
}

fn upper(x: u64, y: u64) -> u128 {
    x as u128 * y as u128 >> 64
}

// At most 4 below x / q, where the halves are those of 2^128 / q.
fn divided(x: u128, high: u64, low: u64) -> u128 {
    let (x_high, x_low) = ((x >> 64) as u64, x as u64);
    x_high as u128 * high as u128 + upper(x_high, low) + upper(x_low, high)
}

/// (b) The lower end alone, in 128 bits as fine as they hold, by a reciprocal in place of the division.
pub fn one_sided(meeting: &Match<'_>) -> OneSided {
    let (a, b) = (meeting.left, meeting.right);
    let (all_a, all_b) = (a.den * meeting.e, b.den * meeting.e);
    let (shown_a, shown_b) = (shown(a, meeting), shown(b, meeting));
    let reciprocal = u128::MAX / (all_a * all_b) as u128;
    let (high, low) = ((reciprocal >> 64) as u64, reciprocal as u64);
    // Cells stay below 2^86, so that a weight of 40 bits times a cell fits.
    let scale = (1 << 86) / (meeting.turns as u128 * 5);
    let pays = PAYS.map(|side| side.map(|pay| pay as u128 * scale));
    let columns = b.rows();
    let mut cells = vec![[0u128; 2]; a.rows() * columns];
    let mut next = cells.clone();
    for _ in 0..meeting.turns {
        for u in 0..a.rows() {
            for v in 0..columns {
                let weights = plays(shown_a[u], all_a, shown_b[v], all_b);
                let mut sums = [0u128; 2];
                for play in 0..4 {
                    let w = weights[play] as u128;
                    let child = &cells[a.next[u][play] * columns + b.next[v][TURNED[play]]];
                    for side in 0..2 {
                        sums[side] += w * (child[side] + pays[side][play]);
                    }
                }
                next[u * columns + v] = sums.map(|sum| divided(sum, high, low));
            }
        }
        std::mem::swap(&mut cells, &mut next);
    }
    OneSided {
        low: cells[0],
        error: 4 * meeting.turns as u128,
        scale,
    }
}

/// (c) The same in double precision, with no bound on the error.
pub fn doubles(meeting: &Match<'_>) -> [f64; 2] {
    let (a, b) = (meeting.left, meeting.right);
    let (all_a, all_b) = (a.den * meeting.e, b.den * meeting.e);
    let (shown_a, shown_b) = (shown(a, meeting), shown(b, meeting));
    let reciprocal = 1.0 / (all_a * all_b) as f64;
    let pays = PAYS.map(|side| side.map(|pay| pay as f64));
    let columns = b.rows();
    let mut cells = vec![[0f64; 2]; a.rows() * columns];
    let mut next = cells.clone();
    for _ in 0..meeting.turns {
        for u in 0..a.rows() {
            for v in 0..columns {
                let weights = plays(shown_a[u], all_a, shown_b[v], all_b);
                let mut sums = [0f64; 2];
                for play in 0..4 {
                    let w = weights[play] as f64;
                    let child = &cells[a.next[u][play] * columns + b.next[v][TURNED[play]]];
                    for side in 0..2 {
                        sums[side] += w * (child[side] + pays[side][play]);
                    }
                }
                next[u * columns + v] = sums.map(|sum| sum * reciprocal);
            }
        }
        std::mem::swap(&mut cells, &mut next);
    }
    cells[0]
}
