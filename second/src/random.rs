//! A small random generator that gives the same numbers for the same seed, and random sheets.

use crate::sheet::Sheet;

/// The generator: a counter whose values are mixed.
pub struct Random {
    counter: u64,
}

/// What a random sheet looks like.
#[derive(Clone, Copy, Debug)]
pub struct Shape {
    pub states: u64,
    pub commands: u64,
    /// Percentage of following sets that are empty.
    pub impossible: u64,
    /// The most states that are drawn for a following set.
    pub spread: u64,
}

impl Random {
    /// A generator for this seed.
    pub fn new(seed: u64) -> Random {
        Random { counter: seed }
    }

    /// The next number of 64 bits.
    pub fn number(&mut self) -> u64 {
        self.counter = self.counter.wrapping_add(0x9e37_79b9_7f4a_7c15);
        let mut mixed = self.counter;
        mixed = (mixed ^ (mixed >> 30)).wrapping_mul(0xbf58_476d_1ce4_e5b9);
        mixed = (mixed ^ (mixed >> 27)).wrapping_mul(0x94d0_49bb_1331_11eb);
        mixed ^ (mixed >> 31)
    }

    /// A number under `limit`, which must not be 0.
    pub fn below(&mut self, limit: u64) -> u64 {
        self.number() % limit
    }

    /// A number from `low` to `high`, both included.
    pub fn between(&mut self, low: u64, high: u64) -> u64 {
        low + self.below(high - low + 1)
    }

    /// True in about this many of a hundred cases.
    pub fn percent(&mut self, share: u64) -> bool {
        self.below(100) < share
    }

    /// Random bytes.
    pub fn bytes(&mut self, length: usize) -> Vec<u8> {
        (0..length).map(|_| self.number() as u8).collect()
    }

    /// A plan whose bytes are all under `commands`.
    pub fn plan(&mut self, commands: u64, length: usize) -> Vec<u8> {
        (0..length).map(|_| self.below(commands) as u8).collect()
    }

    /// The union of 1 to `most` states drawn at random.
    pub fn some_states(&mut self, states: u64, most: u64) -> u64 {
        let draws = self.between(1, most);
        (0..draws).fold(0, |set, _| set | 1 << self.below(states))
    }

    /// A shape within these bounds.
    pub fn shape(&mut self, most_states: u64, most_commands: u64) -> Shape {
        Shape {
            states: self.between(1, most_states),
            commands: self.between(1, most_commands),
            impossible: [0, 0, 5, 20, 50][self.below(5) as usize],
            spread: [1, 1, 2, 3, 8][self.below(5) as usize],
        }
    }

    /// A sheet of this shape that every reader must accept.
    pub fn sheet(&mut self, shape: &Shape) -> Sheet {
        let Shape {
            states, commands, ..
        } = *shape;
        let mut following = Vec::new();
        for _ in 0..commands * states {
            following.push(if self.percent(shape.impossible) {
                0
            } else {
                self.some_states(states, shape.spread)
            });
        }
        let goal = if self.percent(10) {
            0
        } else {
            self.some_states(states, states)
        };
        Sheet {
            states,
            commands,
            initial: self.some_states(states, states),
            goal,
            following,
        }
    }
}
