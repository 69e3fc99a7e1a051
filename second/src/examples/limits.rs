//! Inputs at the program's limits: the largest sheet, longer inputs, and a sheet with more sets than the store has places.

use super::{all_states, Example};
use crate::sheet::Sheet;

/// 64 states and 32 commands. Command a brings every state above 63 - 2a down to that state.
pub fn largest() -> Sheet {
    Sheet::from_rule((64, 32), u64::MAX, 3, |command, state| {
        1 << state.min(63 - 2 * command)
    })
}

/// A carrier may be in any of 13 slots. Command a takes it from slot a to the tray, which is state 13.
pub fn slots() -> Sheet {
    Sheet::from_rule((14, 13), all_states(14), 1 << 13, |command, state| {
        1 << if state == command { 13 } else { state }
    })
}

/// The bytes of the largest sheet, with as many more after it.
fn longer(by: usize) -> Vec<u8> {
    let mut bytes = largest()
        .to_bytes()
        .expect("the largest sheet can be written");
    bytes.resize(bytes.len() + by, 0);
    bytes
}

/// The sheets and the longer inputs.
pub fn examples() -> Vec<Example> {
    vec![
        Example::of(
            "largest",
            "64 states, 32 commands, 16,407 bytes. Command a brings every state above 63 - 2a \
             down to that state and keeps the others. Initial: any state. Goal: states 0 and 1.",
            &largest(),
        ),
        Example::raw(
            "largest-and-one-byte",
            "The largest sheet and one byte more; refused.",
            longer(1),
        ),
        Example::raw(
            "far-too-long",
            "The largest sheet and 4,000 bytes more, of which the program reads one; refused.",
            longer(4_000),
        ),
        Example::of(
            "thirteen-slots",
            "States: a carrier in slot 0 to 12, or on the tray, which is 13. Command a takes it \
             from slot a to the tray, and does nothing to another slot. Initial: any state. \
             Goal: on the tray. Each command once is a plan, but it comes after 8,191 other sets.",
            &slots(),
        ),
    ]
}
