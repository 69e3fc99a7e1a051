//! The bomb in the toilet: without clogging (BT), with clogging (BTC), with uncertain clogging
//! (BTUC).

use super::{all_states, Example};
use crate::sheet::Sheet;

/// What dunking does to the toilet.
#[derive(Clone, Copy, Debug, PartialEq, Eq)]
enum Clogging {
    Always,
    Perhaps,
}

/// BT(p): state i is an armed bomb in package i, state p + i a disarmed one. Command i dunks
/// package i. At most 32 packages.
pub fn bt(packages: u64) -> Sheet {
    let armed = all_states(packages);
    let disarmed = armed << packages;
    Sheet::from_rule((2 * packages, packages), armed, disarmed, |dunk, state| {
        1 << after_dunk(packages, dunk, state)
    })
}

/// BTC(p): as BT(p), with the clogged toilet's states 2p higher and flushing as command p.
pub fn btc(packages: u64) -> Sheet {
    with_toilet(packages, Clogging::Always)
}

/// BTUC(p): as BTC(p), but a dunk only may clog.
pub fn btuc(packages: u64) -> Sheet {
    with_toilet(packages, Clogging::Perhaps)
}

/// A bomb with a toilet that may be clogged. At most 16 packages.
fn with_toilet(packages: u64, clogging: Clogging) -> Sheet {
    let armed = all_states(packages);
    let disarmed = armed << packages;
    let goal = disarmed | disarmed << (2 * packages);
    let counts = (4 * packages, packages + 1);
    Sheet::from_rule(counts, armed, goal, |command, state| {
        let clear = state % (2 * packages);
        if command == packages {
            return 1 << clear;
        }
        if state != clear {
            return 0;
        }
        let dunked = 1u64 << after_dunk(packages, command, clear);
        match clogging {
            Clogging::Always => dunked << (2 * packages),
            Clogging::Perhaps => dunked | dunked << (2 * packages),
        }
    })
}

/// The bomb's state after a dunk, whatever the toilet's.
fn after_dunk(packages: u64, dunk: u64, state: u64) -> u64 {
    if state == dunk {
        state + packages
    } else {
        state
    }
}

/// BT(4) to BT(10), BTC(4) to BTC(9), BTUC(4) to BTUC(9).
pub fn examples() -> Vec<Example> {
    let mut examples = Vec::new();
    for p in 4..=10 {
        let about = about(p, "");
        examples.push(Example::of(format!("bt-{p}"), about, &bt(p)));
    }
    for p in 4..=9 {
        let about = about(p, &toilet(p, "clogs"));
        examples.push(Example::of(format!("btc-{p}"), about, &btc(p)));
    }
    for p in 4..=9 {
        let about = about(p, &toilet(p, "may clog"));
        examples.push(Example::of(format!("btuc-{p}"), about, &btuc(p)));
    }
    examples
}

/// The text on the packages, with the toilet's after it.
fn about(p: u64, toilet: &str) -> String {
    format!(
        "States: i for an armed bomb in package i of {p}, {p} + i for a disarmed one. Commands: i \
         dunks package i.{toilet} Initial: armed, in any package. Goal: disarmed."
    )
}

/// The text on a toilet that clogs or may.
fn toilet(p: u64, clogs: &str) -> String {
    format!(
        " Each of these states again, {} higher, for a clogged toilet. A dunk {clogs} the toilet \
         and is impossible in a clogged one; command {p} flushes. At first the toilet is clear.",
        2 * p
    )
}
