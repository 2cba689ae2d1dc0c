//! The labs of the bench, made by a fixed generator.

use crate::automaton::{Automaton, Heard};
use crate::draws::Draws;
use crate::sure::follow;
use std::fmt::Write;

// A machine as its entries for each state.
type Machine = Vec<[Heard; 2]>;

/// The lab of two lookups over the last `depth` moves of both sides, with pseudo-random weights over
/// 10, under the noise 1/100.
pub fn lab_text(depth: u32, turns: u64) -> String {
    let entries = entries_text(&["left", "right"].map(String::from), depth);
    format!("{entries}\n[match]\nleft = \"left\"\nright = \"right\"\nturns = {turns}\n")
}

/// The head of such a lab, with a lookup for each name, and no job.
pub fn entries_text(names: &[String], depth: u32) -> String {
    let mut text = String::from("version = 1\n\n[noise]\nn = 1\ne = 100\n");
    let mut draws = Draws(1);
    for name in names {
        let opening = weights(&mut draws, depth as usize);
        let table = weights(&mut draws, 1 << (2 * depth));
        write!(
            text,
            "\n[[entry]]\nname = \"{name}\"\nkind = \"lookup\"\nden = 10\nown = {depth}\nother = {depth}\nfirst = 0\n\
             opening = {opening:?}\ntable = {table:?}\n"
        )
        .unwrap();
    }
    text
}

// Weights from 0 to 10.
fn weights(draws: &mut Draws, len: usize) -> Vec<u64> {
    (0..len).map(|_| draws.below(11)).collect()
}

// The turns of the longest match, and the fewest steps that the match of two drawn machines takes: at
// most 524,288 are possible.
const LONGEST: u64 = 1_000_000_000_000;
const MANY_STEPS: u64 = 500_000;

/// The lab of a match of 10^12 turns between two machines of 256 states that takes long to follow. Each
/// machine's entries are a permutation of all its states and moves, so that each pair of rows has one
/// before it; two such are drawn until the match takes many steps.
pub fn machines_text() -> String {
    let mut draws = Draws(1);
    let [left, right] = loop {
        let pair = [(); 2].map(|()| permutation(&mut draws));
        let [a, b] = [0, 1].map(|side: usize| Automaton::machine(true, &pair[side]));
        if follow(&a, &b, LONGEST).steps >= MANY_STEPS {
            break pair;
        }
    };
    let mut text = String::from("version = 1\n");
    push_machine(&mut text, "left", &left);
    push_machine(&mut text, "right", &right);
    write!(
        text,
        "\n[match]\nleft = \"left\"\nright = \"right\"\nturns = {LONGEST}\n"
    )
    .unwrap();
    text
}

// Entries that lead to each of 256 states with each move once (Fisher and Yates).
fn permutation(draws: &mut Draws) -> Machine {
    let mut all: Vec<Heard> = (0..512).map(|place| (place / 2, place % 2 == 0)).collect();
    for place in (1..all.len()).rev() {
        all.swap(place, draws.below(place as u64 + 1) as usize);
    }
    all.chunks_exact(2).map(|two| [two[0], two[1]]).collect()
}

fn push_machine(text: &mut String, name: &str, machine: &Machine) {
    write!(
        text,
        "\n[[entry]]\nname = \"{name}\"\nkind = \"machine\"\nstart = 0\nopening = \"C\"\nrows = [\n"
    )
    .unwrap();
    let letter = |is_c: bool| if is_c { "C" } else { "D" };
    for (state, heard) in machine.iter().enumerate() {
        for (side, (next, plays_c)) in heard.iter().enumerate() {
            let (heard, play) = (letter(side == 0), letter(*plays_c));
            writeln!(text, "[{state}, \"{heard}\", {next}, \"{play}\"],").unwrap();
        }
    }
    text.push_str("]\n");
}

// Two vectors and a table.
const DRAWING: &str = "
[[entry]]
name = \"generous\"
kind = \"memory-one\"
den = 10
opening = 10
weights = [10, 3, 10, 3]

[[entry]]
name = \"fickle\"
kind = \"memory-one\"
den = 10
opening = 5
weights = [7, 2, 4, 1]

[[entry]]
name = \"table\"
kind = \"lookup\"
den = 1
own = 2
other = 2
first = 0
opening = [1, 1]
table = [1, 0, 1, 1, 1, 0, 0, 1, 1, 1, 0, 0, 1, 0, 0, 0]
";

const PLUGS: [&str; 7] = [
    "Cooperator",
    "Defector",
    "Tit For Tat",
    "Tit For Two Tats",
    "Grudger",
    "Win-Stay Lose-Shift",
    "Alternator",
];

/// The lab of a tournament of twelve entries under the noise 1/100: two vectors, a table, the built-in
/// strategies, and two machines of 16 states.
pub fn twelve_text() -> String {
    let mut text = format!("version = 1\n\n[noise]\nn = 1\ne = 100\n{DRAWING}");
    for (place, plug) in PLUGS.iter().enumerate() {
        push_plug(&mut text, &format!("plug{place}"), plug);
    }
    // One move leads to the next state, the other back to the first.
    let onward = |state: usize| ((state + 1) % 16, true);
    let machine = |turned: usize| -> Machine {
        let mut all: Machine = (0..16).map(|state| [onward(state), (0, false)]).collect();
        all.iter_mut().for_each(|heard| heard.rotate_left(turned));
        all
    };
    push_machine(&mut text, "onward", &machine(0));
    push_machine(&mut text, "backward", &machine(1));
    text.push_str("\n[tournament]\nturns = 200\n");
    text
}

fn push_plug(text: &mut String, name: &str, plug: &str) {
    write!(
        text,
        "\n[[entry]]\nname = \"{name}\"\nkind = \"plug\"\nplug = \"{plug}\"\n"
    )
    .unwrap();
}

/// The lab of a tournament of 64 built-in strategies, each of which meets itself too.
pub fn many_text() -> String {
    let mut text = String::from("version = 1\n");
    for (place, plug) in PLUGS.iter().cycle().take(64).enumerate() {
        push_plug(&mut text, &format!("e{place}"), plug);
    }
    text.push_str("\n[tournament]\nturns = 200\nself_play = true\n");
    text
}
