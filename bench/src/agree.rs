//! Whether the answers are one: all in units of 10^-18, so that finer ends can be told apart.

use crate::lab::{Lab, Match};
use crate::methods::{doubles, one_sided, two_sided, OneSided, Span, UNITS};
use crate::report::{entries_text, winner};

const FINE: u128 = 1_000_000_000_000_000_000;

// x / scale in units of 10^-18, rounded down, or up where a rest is left.
fn fine(x: u128, scale: u128, up: bool) -> u128 {
    let mut units = x / scale;
    let mut rest = x % scale;
    for _ in 0..18 {
        rest *= 10;
        units = units * 10 + rest / scale;
        rest %= scale;
    }
    units + (up && rest > 0) as u128
}

/// The two answers of the second method, in units of 10^-18, rounded outward.
pub fn fine_spans(answer: &OneSided) -> [Span; 2] {
    answer.low.map(|low| Span {
        lo: fine(low, answer.scale, false),
        hi: fine(low + answer.error, answer.scale, true),
    })
}

// A number with a point and so many decimals at most, in units of 10^-18.
fn fine_number(text: &str) -> Option<u128> {
    let (whole, part) = text.split_once('.').unwrap_or((text, ""));
    if part.len() > 18 {
        return None;
    }
    let whole: u128 = whole.parse().ok()?;
    let part: u128 = format!("{part:0<18}").parse().ok()?;
    Some(whole * FINE + part)
}

fn fine_span(text: &str) -> Option<Span> {
    let (lo, hi) = text.split_once("..").unwrap_or((text, text));
    Some(Span {
        lo: fine_number(lo)?,
        hi: fine_number(hi)?,
    })
}

// The two scores of a mixed match's line, which must be that of a pair.
fn line_spans(lab: &Lab, pair: [usize; 2], line: &str) -> Option<[Span; 2]> {
    let fields: Vec<&str> = line.split('|').collect();
    let ["match", left, right, turns, left_score, right_score, word, "mixed"] = fields[..] else {
        return None;
    };
    let names = pair.map(|place| lab.names[place].as_str());
    let spans = [fine_span(left_score)?, fine_span(right_score)?];
    let is_told = [left, right] == names
        && turns.parse() == Ok(lab.turns)
        && word == winner(spans[0], spans[1]);
    is_told.then_some(spans)
}

// The first disagreement of a side, if there is one: the report's span must hold the second method's,
// meet the first's, and lie within 10^-6 of the third's number.
fn disagreement(report: Span, first: Span, second: Span, third: f64) -> Option<&'static str> {
    let coarse = FINE / UNITS;
    let near = |end: u128| (end as f64 / FINE as f64 - third).abs() < 1e-6;
    if report.lo > second.lo || second.hi > report.hi {
        Some("axlab's span does not hold what (b) leaves open")
    } else if report.hi < first.lo * coarse || first.hi * coarse < report.lo {
        Some("axlab's span and that of (a) lie apart")
    } else if !near(report.lo) || !near(report.hi) {
        Some("axlab's span is not within 10^-6 of (c)")
    } else {
        None
    }
}

fn check_match(meeting: &Match<'_>, reports: [Span; 2]) -> Result<(), &'static str> {
    let first = two_sided(meeting);
    let second = fine_spans(&one_sided(meeting));
    let third = doubles(meeting);
    for side in 0..2 {
        if let Some(why) = disagreement(reports[side], first[side], second[side], third[side]) {
            return Err(why);
        }
    }
    Ok(())
}

// Ends that a report shows, in its own units.
fn coarse(span: Span) -> Span {
    let [lo, hi] = [span.lo, span.hi].map(|end| end / (FINE / UNITS));
    Span { lo, hi }
}

/// Checks the report of a lab of mixed matches: each match by the three methods, and the lines of the
/// entries by what the lines of matches say.
pub fn check_report(lab: &Lab, report: &str) -> Result<String, String> {
    let mut lines = report.split_inclusive('\n').skip(3);
    let mut scores = Vec::new();
    for pair in &lab.pairs {
        let [left, right] = pair.map(|place| &lab.names[place]);
        let line = lines.next().unwrap_or("").trim_end();
        let spans = line_spans(lab, *pair, line).ok_or(format!("no line of {left} and {right}"))?;
        check_match(&lab.meeting(*pair), spans).map_err(|why| format!("{left}, {right}: {why}"))?;
        scores.push(spans.map(coarse));
    }
    let mut wanted = String::new();
    if lab.is_tournament {
        wanted = entries_text(lab, &scores);
    }
    wanted.push_str("end\n");
    if lines.collect::<String>() != wanted {
        return Err(String::from(
            "the lines of the entries don't follow from those above",
        ));
    }
    Ok(String::from("the four answers agree"))
}
