//! The slide tray of 8 rows by 8 columns on a motor stage with no home switch.

use super::Example;
use crate::sheet::Sheet;

/// The tray with these initial pockets and this goal. Pocket 8 * row + column; command 0 left,
/// 1 right, 2 back, 3 forward; at an edge the stage stays.
pub fn tray(initial: u64, goal: u64) -> Sheet {
    Sheet::from_rule((64, 4), initial, goal, |command, pocket| {
        let at_edge = match command {
            0 => pocket % 8 == 0,
            1 => pocket % 8 == 7,
            2 => pocket < 8,
            _ => pocket >= 56,
        };
        let here = 1 << pocket;
        match command {
            _ if at_edge => here,
            0 => here >> 1,
            1 => here << 1,
            2 => here >> 8,
            _ => here << 8,
        }
    })
}

/// The tray from all pockets to pocket 0, and with an empty goal.
pub fn examples() -> Vec<Example> {
    let about = "States: pocket 8 * row + column of a tray of 8 by 8. Commands: 0 left (column \
                 down by 1), 1 right, 2 back (row down by 1), 3 forward; at an edge the stage \
                 stays. Initial: any pocket.";
    vec![
        Example::of(
            "tray-to-0",
            format!("{about} Goal: pocket 0."),
            &tray(u64::MAX, 1),
        ),
        Example::of(
            "tray-no-goal",
            format!("{about} Goal: empty."),
            &tray(u64::MAX, 0),
        ),
    ]
}
