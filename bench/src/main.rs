//! Matches, tournaments and drills in plain Rust, to compare the program's answers and speed with.
//!
//!     bench lab DEPTH TURNS      writes a lab of two lookups to standard output
//!     bench entries COUNT DEPTH  writes such a lab of so many lookups, without a job
//!     bench machines             writes a lab of two machines of 256 states
//!     bench twelve               writes a tournament of twelve entries
//!     bench many                 writes a tournament of 64 sure entries
//!     bench a|b|c LAB            prints both scores of each match by a method
//!     bench sure LAB             prints the report of a lab in which nothing is left to chance
//!     bench drill NUMBER         prints the report of a drill
//!     bench agree LAB REPORT     says whether the three methods and axlab's report agree

mod agree;
mod automaton;
mod draws;
mod drill;
mod lab;
mod makers;
mod methods;
mod report;
mod sure;

use agree::{check_report, fine_spans};
use drill::drill_text;
use lab::{read_lab, Lab, Match};
use makers::{entries_text, lab_text, machines_text, many_text, twelve_text};
use methods::{doubles, one_sided, two_sided, Span, UNITS};
use report::{span_text, sure_text};
use std::process::ExitCode;

fn read(name: &str) -> Result<String, String> {
    std::fs::read_to_string(name).map_err(|error| format!("{name}: {error}"))
}

fn read_as_lab(name: &str) -> Result<Lab, String> {
    read_lab(&read(name)?).ok_or(format!("{name}: no lab of this bench"))
}

fn fine_text(span: Span) -> String {
    let fine = UNITS * 1_000_000;
    let shown = |end: u128| format!("{}.{:018}", end / fine, end % fine);
    format!("{}..{}", shown(span.lo), shown(span.hi))
}

fn by_a(meeting: Match<'_>) -> String {
    two_sided(&meeting).map(span_text).join(" ") + "\n"
}

fn by_b(meeting: Match<'_>) -> String {
    fine_spans(&one_sided(&meeting)).map(fine_text).join(" ") + "\n"
}

fn by_c(meeting: Match<'_>) -> String {
    doubles(&meeting)
        .map(|score| format!("{score:.12}"))
        .join(" ")
        + "\n"
}

fn number<T: std::str::FromStr>(word: &str) -> Result<T, String> {
    word.parse()
        .map_err(|_| format!("{word} is no such number"))
}

fn answer(words: &[&str]) -> Result<String, String> {
    match words {
        ["lab", depth, turns] => Ok(lab_text(number(depth)?, number(turns)?)),
        ["entries", count, depth] => {
            let names: Vec<String> = (0..number(count)?).map(|place: u32| format!("e{place}")).collect();
            Ok(entries_text(&names, number(depth)?))
        }
        ["machines"] => Ok(machines_text()),
        ["twelve"] => Ok(twelve_text()),
        ["many"] => Ok(many_text()),
        ["a", lab] => Ok(read_as_lab(lab)?.matches().map(by_a).collect()),
        ["b", lab] => Ok(read_as_lab(lab)?.matches().map(by_b).collect()),
        ["c", lab] => Ok(read_as_lab(lab)?.matches().map(by_c).collect()),
        ["sure", lab] => sure_text(&read_as_lab(lab)?).ok_or(format!("{lab} isn't sure")),
        ["drill", seed] => Ok(drill_text(number(seed)?)),
        ["agree", lab, report] => check_report(&read_as_lab(lab)?, &read(report)?),
        _ => Err(String::from(
            "words: lab DEPTH TURNS, entries COUNT DEPTH, machines, twelve, many, a LAB, b LAB, c LAB, sure LAB, \
             drill NUMBER, or agree LAB REPORT",
        )),
    }
}

fn main() -> ExitCode {
    let words: Vec<String> = std::env::args().skip(1).collect();
    let words: Vec<&str> = words.iter().map(String::as_str).collect();
    match answer(&words) {
        Ok(text) => {
            println!("{}", text.trim_end());
            ExitCode::SUCCESS
        }
        Err(why) => {
            eprintln!("bench: {why}");
            ExitCode::FAILURE
        }
    }
}
