//! The scanner of the course's first mistake: a session that may be open, a carrier that may be in,
//! a base that may hold it.

use super::{all_states, Example};
use crate::sheet::Sheet;

/// The commands, in the order of their numbers.
pub const CLOSE: u8 = 0;
pub const EJECT: u8 = 1;
pub const RELEASE: u8 = 2;

const OPEN: u64 = 1;
const IN: u64 = 2;
const HELD: u64 = 4;

/// The scanner from any state to the one with the session closed, the carrier out and the base
/// free. Closing is impossible with the carrier in; ejecting may fail where the base holds it.
pub fn scanner() -> Sheet {
    Sheet::from_rule((8, 3), all_states(8), 1, |command, state| {
        match command as u8 {
            CLOSE if state & IN != 0 => 0,
            CLOSE => 1 << (state & !OPEN),
            EJECT if state & HELD != 0 => 1 << state | 1 << (state & !IN),
            EJECT => 1 << (state & !IN),
            _ => 1 << (state & !HELD),
        }
    })
}

/// The one example.
pub fn examples() -> Vec<Example> {
    let about =
        "States: 1 if the session is open, plus 2 if the carrier is in, plus 4 if the base \
                 holds it. Commands: 0 close the session, impossible with the carrier in; 1 eject \
                 the carrier, which may fail where the base holds it; 2 release the base. Initial: \
                 any state. Goal: session closed, carrier out, base free. The reset that comes to \
                 mind, eject and then close, is refused: the carrier may still be in.";
    vec![Example::of("first-mistake", about, &scanner())]
}
