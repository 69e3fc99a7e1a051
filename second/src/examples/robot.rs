//! The running example of the 2004 paper: a robot in a room of 4 by 4 places with a hole and a
//! slippery spot.

use super::Example;
use crate::sheet::Sheet;

/// The commands, in the order of their numbers.
pub const WEST: u8 = 0;
pub const EAST: u8 = 1;
pub const NORTH: u8 = 2;
pub const SOUTH: u8 = 3;

const SIDE: i64 = 4;
const HOLE: (i64, i64) = (1, 1);
const SLIPPERY: (i64, i64) = (2, 2);

/// The set that holds just this place.
pub fn place(x: i64, y: i64) -> u64 {
    1 << (x + SIDE * y)
}

/// The room with these initial states and this goal.
pub fn room(initial: u64, goal: u64) -> Sheet {
    Sheet::from_rule((16, 4), initial, goal, |command, state| {
        follows(command as u8, (state as i64 % SIDE, state as i64 / SIDE))
    })
}

/// Where a command may lead. A command that may lead into the hole is impossible, and nothing is
/// possible in the hole.
fn follows(command: u8, (x, y): (i64, i64)) -> u64 {
    let (right, down) = match command {
        WEST => (-1, 0),
        EAST => (1, 0),
        NORTH => (0, -1),
        _ => (0, 1),
    };
    if (x, y) == HOLE {
        return 0;
    }
    let slips = if (x, y) == SLIPPERY {
        vec![-1, 0, 1]
    } else {
        vec![0]
    };
    let mut set = 0;
    for slip in slips {
        let to = (stay(x + right + slip * down), stay(y + down + slip * right));
        if to == HOLE {
            return 0;
        }
        set |= place(to.0, to.1);
    }
    set
}

/// Keeps a coordinate inside the room.
fn stay(coordinate: i64) -> i64 {
    coordinate.clamp(0, SIDE - 1)
}

/// The room as in the paper's third example, and from each of its two initial places alone.
pub fn examples() -> Vec<Example> {
    let about = "States: 4 * y + x for the place (x, y), x to the east and y to the south; (1, 1) \
                 is a hole and (2, 2) is slippery. Commands: 0 west, 1 east, 2 north, 3 south; at \
                 a wall the robot stays, and a command that may end in the hole is impossible. \
                 Goal: (3, 1) and (3, 2).";
    let goal = place(3, 1) | place(3, 2);
    let starts = [
        ("robot-room", "(0, 1) and (0, 2)", place(0, 1) | place(0, 2)),
        ("robot-room-from-0-1", "(0, 1)", place(0, 1)),
        ("robot-room-from-0-2", "(0, 2)", place(0, 2)),
    ];
    starts
        .into_iter()
        .map(|(name, from, initial)| {
            let about = format!("{about} Initial: {from}.");
            Example::of(name, about, &room(initial, goal))
        })
        .collect()
}
