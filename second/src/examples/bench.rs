//! Sheet S of the scope's table, its variants, and the damaged ones.

use super::Example;
use crate::sheet::Sheet;

/// Sheet S: command 0 swaps the two states, command 1 leads to state 0 from both.
pub fn s() -> Sheet {
    Sheet {
        states: 2,
        commands: 2,
        initial: 3,
        goal: 1,
        following: vec![2, 1, 1, 1],
    }
}

/// S with another goal.
pub fn s_with_goal(goal: u64) -> Sheet {
    Sheet { goal, ..s() }
}

/// S with command 0 only.
pub fn swap_only() -> Sheet {
    Sheet {
        commands: 1,
        following: vec![2, 1],
        ..s()
    }
}

/// S with command 0 only, initial set 1 and goal 2.
pub fn swap_from_0_to_1() -> Sheet {
    Sheet {
        initial: 1,
        goal: 2,
        ..swap_only()
    }
}

/// S in which command 1 is impossible in state 1.
pub fn s_half_possible() -> Sheet {
    Sheet {
        following: vec![2, 1, 1, 0],
        ..s()
    }
}

/// One command that may or may not leave state 0.
pub fn may_leave() -> Sheet {
    Sheet {
        states: 2,
        commands: 1,
        initial: 1,
        goal: 2,
        following: vec![3, 2],
    }
}

/// Two commands that both lead to state 1 from everywhere.
pub fn both_lead_to_1() -> Sheet {
    Sheet {
        states: 2,
        commands: 2,
        initial: 1,
        goal: 2,
        following: vec![2; 4],
    }
}

/// The bytes of S with version 2 and a wrong length.
pub fn version_2_wrong_length() -> Vec<u8> {
    let mut bytes = s().to_bytes().expect("S can be written");
    bytes[0] = 2;
    bytes[4] = 0x33;
    bytes
}

/// The bytes of S with 4 as its second following set.
pub fn second_set_4() -> Vec<u8> {
    let mut bytes = s().to_bytes().expect("S can be written");
    bytes[38] = 4;
    bytes
}

/// The sheets of the scope's table.
pub fn examples() -> Vec<Example> {
    let mut examples = variants_of_s();
    examples.extend(other_sheets());
    examples.extend(damaged());
    examples
}

/// S and what is made from it.
fn variants_of_s() -> Vec<Example> {
    let swap = "States: 0 and 1. Commands: 0 swaps the states";
    let both = format!("{swap}, 1 leads to state 0 from both.");
    let one = format!("{swap}.");
    let half = format!("{swap}, 1 keeps state 0 and is impossible in state 1.");
    [
        ("s", &both, s()),
        ("s-goal-3", &both, s_with_goal(3)),
        ("s-goal-0", &both, s_with_goal(0)),
        ("s-swap-only", &one, swap_only()),
        ("s-swap-only-from-0-to-1", &one, swap_from_0_to_1()),
        ("s-half-possible", &half, s_half_possible()),
    ]
    .into_iter()
    .map(|(name, about, sheet)| {
        let sets = format!("Initial set {}, goal set {}.", sheet.initial, sheet.goal);
        Example::of(name, format!("{about} {sets}"), &sheet)
    })
    .collect()
}

/// The table's two sheets that are not made from S.
fn other_sheets() -> Vec<Example> {
    vec![
        Example::of(
            "may-leave",
            "States: 0 and 1. Command 0 leads from state 0 to either state and keeps state 1. \
             Initial set 1, goal set 2.",
            &may_leave(),
        ),
        Example::of(
            "both-lead-to-1",
            "States: 0 and 1. Commands 0 and 1 lead to state 1 from both. Initial set 1, goal \
             set 2.",
            &both_lead_to_1(),
        ),
    ]
}

/// The table's three inputs that are refused.
fn damaged() -> Vec<Example> {
    vec![
        Example::raw(
            "s-version-2",
            "S with version 2 and a wrong length; refused.",
            version_2_wrong_length(),
        ),
        Example::raw(
            "s-second-set-4",
            "S whose second following set is 4, a state that is missing; refused.",
            second_set_4(),
        ),
        Example::raw("no-bytes", "No bytes at all; refused.", Vec::new()),
    ]
}
