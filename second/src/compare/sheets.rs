//! Sheets for the comparison: of every size, sparse and dense, deterministic or not, with
//! impossible commands, and with structure.

use crate::examples::{all_states, bench, bomb, grid, ring, scanner, tray};
use crate::random::Random;
use crate::sheet::Sheet;

/// Counts at which something may turn.
const STATE_EDGES: [u64; 9] = [1, 2, 8, 31, 32, 33, 62, 63, 64];
const COMMAND_EDGES: [u64; 6] = [1, 2, 8, 16, 31, 32];
/// Ways to fill the row of one command.
const STYLES: u64 = 10;

/// A sheet that every reader must accept.
pub fn sheet(random: &mut Random) -> Sheet {
    if random.percent(5) {
        return known(random);
    }
    let (states, commands) = match random.below(10) {
        0..=4 => (random.between(1, 5), random.between(1, 4)),
        5..=7 => (random.between(1, 12), random.between(1, 8)),
        8 => (random.between(1, 64), random.between(1, 32)),
        _ => (pick(random, &STATE_EDGES), pick(random, &COMMAND_EDGES)),
    };
    sized(random, states, commands)
}

/// A sheet of few bytes.
pub fn small(random: &mut Random) -> Sheet {
    let (states, commands) = (random.between(1, 3), random.between(1, 2));
    sized(random, states, commands)
}

/// A sheet with these counts.
pub fn sized(random: &mut Random, states: u64, commands: u64) -> Sheet {
    let style = random.below(STYLES);
    let mixed = random.percent(50);
    let impossible = pick(random, &[0, 0, 0, 3, 20]);
    let mut following = Vec::new();
    for _ in 0..commands {
        let style = if mixed { random.below(STYLES) } else { style };
        for set in row(random, states, style) {
            let none = random.percent(impossible);
            following.push(if none { 0 } else { set });
        }
    }
    let mut sheet = Sheet {
        states,
        commands,
        initial: initial(random, states),
        goal: 0,
        following,
    };
    sheet.goal = goal(random, &sheet);
    sheet
}

/// A sheet with a long listing: commands that lead each state to another one of its own, so that no
/// set shrinks.
pub fn long_listing(random: &mut Random, states: u64, commands: u64) -> Sheet {
    let mut following = Vec::new();
    for _ in 0..commands {
        following.extend(row(random, states, 0));
    }
    Sheet {
        states,
        commands,
        initial: 1 | random.number() & all_states(states),
        goal: 0,
        following,
    }
}

/// The following sets of one command.
fn row(random: &mut Random, states: u64, style: u64) -> Vec<u64> {
    let all = all_states(states);
    let one = 1 << random.below(states);
    let step = random.between(1, states);
    let order = shuffled(random, states);
    (0..states)
        .map(|state| match style {
            0 => 1 << order[state as usize],
            1 => 1 << random.below(states),
            2 => random.some_states(states, 3),
            3 => one | random.number() & all,
            4 => 1 << (state + step).min(states - 1),
            5 => one,
            6 => 1 << state | 1 << ((state + step) % states),
            7 => random.number() & random.number() & random.number() & all,
            8 => 1 << (state - state.min(step)),
            _ if one == 1 => 0,
            _ => 1 << ((state + 1) % states),
        })
        .collect()
}

/// The states in random order.
fn shuffled(random: &mut Random, states: u64) -> Vec<u64> {
    let mut order: Vec<u64> = (0..states).collect();
    for last in (1..order.len()).rev() {
        order.swap(last, random.below(last as u64 + 1) as usize);
    }
    order
}

/// An initial set: one state, all, or any.
fn initial(random: &mut Random, states: u64) -> u64 {
    match random.below(4) {
        0 => 1 << random.below(states),
        1 => all_states(states),
        2 => random.some_states(states, 3),
        _ => 1 << random.below(states) | random.number() & all_states(states),
    }
}

/// A goal: empty, one state, all but one, all, any, or what some walk leads to.
fn goal(random: &mut Random, sheet: &Sheet) -> u64 {
    let all = all_states(sheet.states);
    let one = 1 << random.below(sheet.states);
    match random.below(12) {
        0 => 0,
        1..=3 => one,
        4 => all & !one,
        5 => all,
        6 => random.number() & all,
        7 => random.number() & random.number() & all,
        8 => walked(random, sheet) | one,
        _ => walked(random, sheet),
    }
}

/// The set in which some sendable commands end.
fn walked(random: &mut Random, sheet: &Sheet) -> u64 {
    let mut set = sheet.initial;
    for _ in 0..random.below(9) {
        let command = random.below(sheet.commands);
        set = sheet.image(command, set).unwrap_or(set);
    }
    set
}

/// One of the examples, now and then with other sets.
fn known(random: &mut Random) -> Sheet {
    let mut sheet = match random.below(9) {
        0 => bench::s(),
        1 => bench::s_half_possible(),
        2 => bench::may_leave(),
        3 => scanner::scanner(),
        4 => bomb::btc(random.between(1, 5)),
        5 => bomb::btuc(random.between(1, 5)),
        6 => grid::square_corner(random.between(1, 3)),
        7 => ring::ring(ring::Windows::Moving),
        _ => tray::tray(0x0303, 1),
    };
    if random.percent(40) {
        sheet.initial = initial(random, sheet.states);
    }
    if random.percent(40) {
        sheet.goal = goal(random, &sheet);
    }
    sheet
}

/// One of these numbers.
pub fn pick(random: &mut Random, from: &[u64]) -> u64 {
    from[random.below(from.len() as u64) as usize]
}
