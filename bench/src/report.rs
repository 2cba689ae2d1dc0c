//! The reports of sure labs, and the lines that follow from a tournament's scores.

use crate::lab::{Lab, PAYS};
use crate::methods::{Span, UNITS};
use crate::sure::{follow, Tally};

/// Points with twelve decimals.
pub fn points_text(points: u64) -> String {
    format!("{points}.000000000000")
}

fn units_text(units: u128) -> String {
    format!("{}.{:012}", units / UNITS, units % UNITS)
}

/// A score in units of 10^-12.
pub fn span_text(span: Span) -> String {
    if span.lo == span.hi {
        units_text(span.lo)
    } else {
        format!("{}..{}", units_text(span.lo), units_text(span.hi))
    }
}

/// What two scores tell of the winner.
pub fn winner(left: Span, right: Span) -> &'static str {
    if left.lo > right.hi {
        "left"
    } else if right.lo > left.hi {
        "right"
    } else if is_same(left, right) {
        "level"
    } else {
        "undecided"
    }
}

// Whether both are one and the same number.
fn is_same(left: Span, right: Span) -> bool {
    left.lo == left.hi && right.lo == right.hi && left.lo == right.lo
}

fn head_text(lab: &Lab) -> String {
    let word = if lab.is_tournament {
        "tournament"
    } else {
        "match"
    };
    format!(
        "axlab|1|{word}\ngame|3|0|5|1|dilemma|yes\nnoise|{}|{}\n",
        lab.n, lab.e
    )
}

fn paid(tally: Tally) -> [Span; 2] {
    PAYS.map(|pays| {
        let points: u64 = tally.iter().zip(pays).map(|(count, pay)| count * pay).sum();
        let units = u128::from(points) * UNITS;
        Span {
            lo: units,
            hi: units,
        }
    })
}

fn match_text(lab: &Lab, pair: [usize; 2], tally: Tally, scores: [Span; 2]) -> String {
    let [left, right] = pair.map(|place| &lab.names[place]);
    let word = winner(scores[0], scores[1]);
    let [left_score, right_score] = scores.map(span_text);
    let [cc, cd, dc, dd] = tally;
    let counts = format!("{}|{}|{cc}|{cd}|{dc}|{dd}", cc + cd, cc + dc);
    format!(
        "match|{left}|{right}|{}|{left_score}|{right_score}|{word}|sure|{counts}\n",
        lab.turns
    )
}

/// The report of a lab in which nothing is left to chance.
pub fn sure_text(lab: &Lab) -> Option<String> {
    if lab.n > 0 || !lab.entries.iter().all(|entry| entry.is_sure()) {
        return None;
    }
    let mut text = head_text(lab);
    let mut scores = Vec::new();
    for pair in &lab.pairs {
        let meeting = lab.meeting(*pair);
        let tally = follow(meeting.left, meeting.right, lab.turns).tally;
        scores.push(paid(tally));
        text.push_str(&match_text(lab, *pair, tally, paid(tally)));
    }
    if lab.is_tournament {
        text.push_str(&entries_text(lab, &scores));
    }
    text.push_str("end\n");
    Some(text)
}

// What an entry has of its matches.
#[derive(Clone, Copy, Default)]
struct Entry {
    total: Span,
    wins: u32,
    undecided: u32,
}

fn entries(lab: &Lab, scores: &[[Span; 2]]) -> Vec<Entry> {
    let mut entries = vec![Entry::default(); lab.names.len()];
    for ([left, right], scores) in lab.pairs.iter().zip(scores) {
        let word = winner(scores[0], scores[1]);
        let is_own = left == right;
        for (side, place) in [left, right]
            .into_iter()
            .enumerate()
            .take(2 - usize::from(is_own))
        {
            let entry = &mut entries[*place];
            entry.total.lo += scores[side].lo;
            entry.total.hi += scores[side].hi;
            entry.wins += u32::from(!is_own && word == ["left", "right"][side]);
            entry.undecided += u32::from(!is_own && word == "undecided");
        }
    }
    entries
}

fn rank(entries: &[Entry], place: usize) -> String {
    let own = entries[place].total;
    let others = || {
        entries
            .iter()
            .enumerate()
            .filter(|(other, _)| *other != place)
    };
    if others().any(|(_, other)| winner(own, other.total) == "undecided") {
        return String::from("undecided");
    }
    let above = others()
        .filter(|(_, other)| other.total.lo > own.hi)
        .count();
    (above + 1).to_string()
}

/// The lines of a tournament's entries, by the scores of its matches.
pub fn entries_text(lab: &Lab, scores: &[[Span; 2]]) -> String {
    let entries = entries(lab, scores);
    let line = |(place, entry): (usize, &Entry)| {
        let (name, total) = (&lab.names[place], span_text(entry.total));
        let rank = rank(&entries, place);
        format!(
            "entry|{name}|{total}|{rank}|{}|{}\n",
            entry.wins, entry.undecided
        )
    };
    entries.iter().enumerate().map(line).collect()
}
