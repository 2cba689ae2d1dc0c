//! Labs, read by their few keys: no TOML but what the makers of the bench and the examples write.

use crate::automaton::{Automaton, Heard};

/// The payoffs of CC, CD, DC and DD to the left side and to the right.
pub const PAYS: [[u64; 4]; 2] = [[3, 0, 5, 1], [3, 5, 0, 1]];

/// The play as the other side sees it: CD and DC exchanged.
pub const TURNED: [usize; 4] = [0, 2, 1, 3];

/// One match: two strategies, whose moves are each flipped with the chance n/e.
pub struct Match<'a> {
    pub left: &'a Automaton,
    pub right: &'a Automaton,
    pub n: u64,
    pub e: u64,
    pub turns: u64,
}

/// A lab: its entries with their names, its noise, and the pairs of entries that meet.
pub struct Lab {
    pub names: Vec<String>,
    pub entries: Vec<Automaton>,
    pub n: u64,
    pub e: u64,
    pub turns: u64,
    pub pairs: Vec<[usize; 2]>,
    pub is_tournament: bool,
}

impl Lab {
    /// The match of a pair.
    pub fn meeting(&self, pair: [usize; 2]) -> Match<'_> {
        let [left, right] = pair.map(|place| &self.entries[place]);
        Match {
            left,
            right,
            n: self.n,
            e: self.e,
            turns: self.turns,
        }
    }

    /// All matches, in the order in which they are told.
    pub fn matches(&self) -> impl Iterator<Item = Match<'_>> {
        self.pairs.iter().map(|pair| self.meeting(*pair))
    }
}

/// Reads a lab.
pub fn read_lab(text: &str) -> Option<Lab> {
    let (body, job, is_tournament) = match text.split_once("[match]") {
        Some((body, job)) => (body, job, false),
        None => {
            let (body, job) = text.split_once("[tournament]")?;
            (body, job, true)
        }
    };
    let mut parts = body.split("[[entry]]");
    let head = parts.next()?;
    let parts: Vec<&str> = parts.collect();
    let names: Option<Vec<String>> = parts.iter().map(|part| quoted(part, "name")).collect();
    let names = names?;
    let entries: Option<Vec<Automaton>> = parts.into_iter().map(read_entry).collect();
    let pairs = if is_tournament {
        all_pairs(names.len(), value(job, "self_play") == Some("true"))
    } else {
        let place = |key| {
            names
                .iter()
                .position(|name| quoted(job, key).as_ref() == Some(name))
        };
        vec![[place("left")?, place("right")?]]
    };
    Some(Lab {
        names,
        entries: entries?,
        n: whole(head, "n").unwrap_or(0),
        e: whole(head, "e").unwrap_or(1),
        turns: whole(job, "turns")?,
        pairs,
        is_tournament,
    })
}

// The pairs of so many entries in ascending order.
fn all_pairs(count: usize, with_self: bool) -> Vec<[usize; 2]> {
    let from = |left| left + usize::from(!with_self);
    (0..count)
        .flat_map(|left| (from(left)..count).map(move |right| [left, right]))
        .collect()
}

fn read_entry(text: &str) -> Option<Automaton> {
    match quoted(text, "kind")?.as_str() {
        "plug" => Automaton::plug(&quoted(text, "plug")?),
        "machine" => read_machine(text),
        "lookup" => read_lookup(text),
        "memory-one" => {
            let weights = list(text, "weights")?.try_into().ok()?;
            Some(Automaton::vector(
                whole(text, "den")?,
                whole(text, "opening")?,
                weights,
            ))
        }
        _ => None,
    }
}

fn read_lookup(text: &str) -> Option<Automaton> {
    let depth = whole(text, "own")?;
    if whole(text, "other")? != depth || whole(text, "first")? != 0 {
        return None;
    }
    let opening = list(text, "opening")?;
    let table = list(text, "table")?;
    Some(Automaton::lookup(
        whole(text, "den")?,
        depth as u32,
        &opening,
        &table,
    ))
}

// The rows must be those of state 0 for heard C and for heard D, then those of state 1, and so on.
fn read_machine(text: &str) -> Option<Automaton> {
    if whole(text, "start")? != 0 {
        return None;
    }
    let (_, rows) = text.split_once("rows = [\n")?;
    let (rows, _) = rows.split_once("\n]")?;
    let heard: Option<Vec<Heard>> = rows
        .lines()
        .enumerate()
        .map(|(place, line)| read_row(place, line))
        .collect();
    let heard = heard?;
    let entries: Vec<[Heard; 2]> = heard.chunks_exact(2).map(|two| [two[0], two[1]]).collect();
    Some(Automaton::machine(
        quoted(text, "opening")? == "C",
        &entries,
    ))
}

fn read_row(place: usize, line: &str) -> Option<Heard> {
    let inside = line.trim().strip_prefix('[')?.strip_suffix("],")?;
    let parts: Vec<&str> = inside.split(", ").collect();
    let [state, heard, next, play] = parts[..] else {
        return None;
    };
    let wanted = ["\"C\"", "\"D\""][place % 2];
    if state.parse() != Ok(place / 2) || heard != wanted {
        return None;
    }
    Some((next.parse().ok()?, play == "\"C\""))
}

fn value<'a>(text: &'a str, key: &str) -> Option<&'a str> {
    text.lines()
        .find_map(|line| line.strip_prefix(key)?.strip_prefix(" = "))
}

fn whole(text: &str, key: &str) -> Option<u64> {
    value(text, key)?.replace('_', "").parse().ok()
}

fn quoted(text: &str, key: &str) -> Option<String> {
    let inside = value(text, key)?.strip_prefix('"')?.strip_suffix('"')?;
    Some(String::from(inside))
}

fn list(text: &str, key: &str) -> Option<Vec<u64>> {
    let inside = value(text, key)?.strip_prefix('[')?.strip_suffix(']')?;
    inside
        .split(", ")
        .map(|weight| weight.parse().ok())
        .collect()
}
