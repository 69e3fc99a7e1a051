//! Empty rooms: the SQUARE and CUBE domains, whose coordinates run from 0 to k.

use super::{all_states, Example};
use crate::sheet::Sheet;

/// A room with this many coordinates, each from 0 to `k`; any place is initial. Command 2d lowers
/// coordinate d and command 2d + 1 raises it; at a wall the robot stays.
fn room(k: u64, goal: &[u64]) -> Sheet {
    let side = k + 1;
    let coordinates = goal.len() as u32;
    let states = side.pow(coordinates);
    let commands = 2 * u64::from(coordinates);
    let wanted = 1 << number(side, goal);
    let initial = all_states(states);
    Sheet::from_rule((states, commands), initial, wanted, |command, state| {
        let mut at: Vec<u64> = (0..coordinates)
            .map(|d| state / side.pow(d) % side)
            .collect();
        let moved = &mut at[command as usize / 2];
        *moved = if command % 2 == 0 {
            moved.saturating_sub(1)
        } else {
            (*moved + 1).min(k)
        };
        1 << number(side, &at)
    })
}

/// The state number of a place; the first coordinate counts least.
fn number(side: u64, at: &[u64]) -> u64 {
    at.iter().rev().fold(0, |sum, c| sum * side + c)
}

/// SQUARE-corner(k): reach (0, 0). At most k = 7.
pub fn square_corner(k: u64) -> Sheet {
    room(k, &[0, 0])
}

/// SQUARE-side(k): reach (0, k / 2).
pub fn square_side(k: u64) -> Sheet {
    room(k, &[0, k / 2])
}

/// SQUARE-center(k): reach (k / 2, k / 2).
pub fn square_center(k: u64) -> Sheet {
    room(k, &[k / 2, k / 2])
}

/// CUBE-corner(k): reach (0, 0, 0). At most k = 3.
pub fn cube_corner(k: u64) -> Sheet {
    room(k, &[0, 0, 0])
}

/// CUBE-edge(k): reach (0, 0, k / 2).
pub fn cube_edge(k: u64) -> Sheet {
    room(k, &[0, 0, k / 2])
}

/// SQUARE-corner(3) to (7), side and center of 3, 5 and 7, CUBE-corner(3) and CUBE-edge(3).
pub fn examples() -> Vec<Example> {
    let mut examples = Vec::new();
    for k in 3..=7 {
        examples.push(square("corner", k, "(0, 0)", &square_corner(k)));
    }
    for k in [3, 5, 7] {
        let half = k / 2;
        let side = format!("(0, {half})");
        let center = format!("({half}, {half})");
        examples.push(square("side", k, &side, &square_side(k)));
        examples.push(square("center", k, &center, &square_center(k)));
    }
    examples.push(cube("corner", 3, "(0, 0, 0)", &cube_corner(3)));
    examples.push(cube("edge", 3, "(0, 0, 1)", &cube_edge(3)));
    examples
}

/// A square with its text.
fn square(kind: &str, k: u64, goal: &str, sheet: &Sheet) -> Example {
    let about = format!(
        "States: {} * y + x for the place (x, y), x and y from 0 to {k}. Commands: 0 lowers x, 1 \
         raises x, 2 lowers y, 3 raises y; at a wall the robot stays. Initial: any place. Goal: \
         {goal}.",
        k + 1
    );
    Example::of(format!("square-{kind}-{k}"), about, sheet)
}

/// A cube with its text.
fn cube(kind: &str, k: u64, goal: &str, sheet: &Sheet) -> Example {
    let side = k + 1;
    let about = format!(
        "States: {} * z + {side} * y + x for the place (x, y, z), each from 0 to {k}. Commands: 0 \
         lowers x, 1 raises x, 2 lowers y, 3 raises y, 4 lowers z, 5 raises z; at a wall the \
         robot stays. Initial: any place. Goal: {goal}.",
        side * side
    );
    Example::of(format!("cube-{kind}-{k}"), about, sheet)
}
