//! Strategies of all kinds as rows.

/// A strategy as rows: the weight of C, and the next row after CC, CD, DC and DD, the own move first.
/// It starts at row 0.
pub struct Automaton {
    pub den: u64,
    pub weights: Vec<u64>,
    pub next: Vec<[usize; 4]>,
}

/// A machine's entry for a state and a heard move: the next state, and whether it plays C.
pub type Heard = (usize, bool);

impl Automaton {
    pub fn rows(&self) -> usize {
        self.weights.len()
    }

    /// Whether no row leaves its move to chance.
    pub fn is_sure(&self) -> bool {
        self.weights.iter().all(|w| *w == 0 || *w == self.den)
    }

    /// By the last turn alone: a row for the first turn, and one for each last play.
    pub fn vector(den: u64, opening: u64, weights: [u64; 4]) -> Automaton {
        let mut all = vec![opening];
        all.extend(weights);
        Automaton {
            den,
            weights: all,
            next: vec![[1, 2, 3, 4]; 5],
        }
    }

    /// A machine that starts in state 0, by its entries for each state, for heard C and for heard D. Of
    /// the two rows of a state the first plays the opening.
    pub fn machine(opens_with_c: bool, entries: &[[Heard; 2]]) -> Automaton {
        let row = |(state, plays_c): Heard| 2 * state + usize::from(plays_c != opens_with_c);
        let next = |heard: &[Heard; 2]| {
            let [c, d] = heard.map(row);
            [[c, d, c, d]; 2]
        };
        let opening = u64::from(opens_with_c);
        Automaton {
            den: 1,
            weights: [opening, 1 - opening].repeat(entries.len()),
            next: entries.iter().flat_map(next).collect(),
        }
    }

    /// The rows of a lookup over the last `depth` moves of both sides. Rows are in the order of the
    /// turns behind them, and then of the own moves and of the other's as binary digits, C as 0.
    pub fn lookup(den: u64, depth: u32, opening: &[u64], table: &[u64]) -> Automaton {
        let mut weights = Vec::new();
        let mut next = Vec::new();
        for age in 0..=depth {
            let later = (age + 1).min(depth);
            let mask = (1 << later) - 1;
            for place in 0..1usize << (2 * age) {
                let (mine, theirs) = (place >> age, place & ((1 << age) - 1));
                weights.push(if age < depth {
                    opening[age as usize]
                } else {
                    table[place]
                });
                next.push([0, 1, 2, 3].map(|play| {
                    let mine = (mine << 1 | play >> 1) & mask;
                    let theirs = (theirs << 1 | play & 1) & mask;
                    first_row(later) + (mine << later | theirs)
                }));
            }
        }
        Automaton { den, weights, next }
    }

    /// A built-in strategy by its name.
    pub fn plug(name: &str) -> Option<Automaton> {
        let rows: &[(u64, [usize; 4])] = match name {
            "Cooperator" => &[(1, [0; 4])],
            "Defector" => &[(0, [0; 4])],
            "Tit For Tat" => &[(1, [0, 1, 0, 1]), (0, [0, 1, 0, 1])],
            "Tit For Two Tats" => &[(1, [0, 1, 0, 1]), (1, [0, 2, 0, 2]), (0, [0, 2, 0, 2])],
            "Grudger" => &[(1, [0, 1, 0, 1]), (0, [1; 4])],
            "Win-Stay Lose-Shift" => &[(1, [0, 1, 1, 0]), (0, [0, 1, 1, 0])],
            "Alternator" => &[(1, [1, 1, 0, 0]), (0, [1, 1, 0, 0])],
            _ => return None,
        };
        let (weights, next) = rows.iter().copied().unzip();
        Some(Automaton {
            den: 1,
            weights,
            next,
        })
    }
}

// The number of rows with fewer turns behind them.
fn first_row(age: u32) -> usize {
    ((1 << (2 * age)) - 1) / 3
}
