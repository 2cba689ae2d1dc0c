//! Sure matches: as soon as a pair of rows comes again, whole cycles are counted and not played.

use crate::automaton::Automaton;
use crate::lab::TURNED;

/// How often each of CC, CD, DC and DD came, the left move first.
pub type Tally = [u64; 4];

/// What came of a match: its plays, and how many of them were played one by one.
pub struct Followed {
    pub tally: Tally,
    pub steps: u64,
}

// Where a match stands.
struct Walk<'a> {
    left: &'a Automaton,
    right: &'a Automaton,
    row: usize,
    column: usize,
    tally: Tally,
    steps: u64,
}

impl Walk<'_> {
    fn step(&mut self) {
        let left_defects = self.left.weights[self.row] == 0;
        let right_defects = self.right.weights[self.column] == 0;
        let play = 2 * usize::from(left_defects) + usize::from(right_defects);
        self.row = self.left.next[self.row][play];
        self.column = self.right.next[self.column][TURNED[play]];
        self.tally[play] += 1;
        self.steps += 1;
    }
}

/// Follows a match in which no move is left to chance. A mark for each pair of rows holds the plays
/// before the match first met it.
pub fn follow(left: &Automaton, right: &Automaton, turns: u64) -> Followed {
    let columns = right.rows();
    let mut marks: Vec<Option<[u32; 4]>> = vec![None; left.rows() * columns];
    let mut walk = Walk {
        left,
        right,
        row: 0,
        column: 0,
        tally: [0; 4],
        steps: 0,
    };
    while walk.steps < turns {
        let mark = &mut marks[walk.row * columns + walk.column];
        if let Some(plays) = mark {
            let before = plays.map(u64::from);
            return by_cycle(walk, before, turns);
        }
        *mark = Some(walk.tally.map(|count| count as u32));
        walk.step();
    }
    Followed {
        tally: walk.tally,
        steps: walk.steps,
    }
}

// The rest of a match that has come back to where it stood after these plays.
fn by_cycle(mut walk: Walk<'_>, before: Tally, turns: u64) -> Followed {
    let long = walk.steps - before.iter().sum::<u64>();
    let left = turns - walk.steps;
    for (count, before) in walk.tally.iter_mut().zip(before) {
        *count += (*count - before) * (left / long);
    }
    for _ in 0..left % long {
        walk.step();
    }
    Followed {
        tally: walk.tally,
        steps: walk.steps,
    }
}
