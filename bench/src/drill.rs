//! The drill of a number.

use crate::automaton::{Automaton, Heard};
use crate::draws::Draws;
use crate::lab::PAYS;
use crate::report::points_text;
use crate::sure::follow;

const MACHINES: usize = 64;
const STATES: usize = 16;
const TURNS: u64 = 1_000_000_000;

// A move is C where the top bit of its draw is 0, a state the four highest bits.
fn machine(draws: &mut Draws) -> Automaton {
    let is_c = |draw: u64| draw >> 63 == 0;
    let opens_with_c = is_c(draws.draw());
    let mut heard = || -> Heard {
        let next = (draws.draw() >> 60) as usize;
        (next, is_c(draws.draw()))
    };
    let entries: Vec<[Heard; 2]> = (0..STATES).map(|_| [heard(), heard()]).collect();
    Automaton::machine(opens_with_c, &entries)
}

/// The machines that are drawn from a number.
pub fn machines(number: u64) -> Vec<Automaton> {
    let mut draws = Draws(number);
    (0..MACHINES).map(|_| machine(&mut draws)).collect()
}

// The points of each machine in its 63 matches.
fn totals(machines: &[Automaton]) -> Vec<u64> {
    let mut totals = vec![0; machines.len()];
    for (left, a) in machines.iter().enumerate() {
        for (right, b) in machines.iter().enumerate().skip(left + 1) {
            let tally = follow(a, b, TURNS).tally;
            for (place, pays) in [left, right].into_iter().zip(PAYS) {
                totals[place] += tally.iter().zip(pays).map(|(n, pay)| n * pay).sum::<u64>();
            }
        }
    }
    totals
}

/// The report of a number's drill.
pub fn drill_text(number: u64) -> String {
    let totals = totals(&machines(number));
    let most = totals.iter().copied().max().unwrap_or(0);
    let first: String = totals
        .iter()
        .enumerate()
        .filter(|(_, total)| **total == most)
        .map(|(place, total)| format!("first|d{place:02}|{}\n", points_text(*total)))
        .collect();
    let sum = points_text(totals.iter().sum());
    format!("axlab|1|drill\ndrill|{number}|{MACHINES}|{TURNS}\n{first}total|{sum}\nend\n")
}
