//! The RING domains with two rooms, which are the ones that fit: a robot goes round and locks the
//! windows, with or without a key to be found first.

use super::Example;
use crate::sheet::Sheet;

const CLOCKWISE: u64 = 0;
const COUNTERCLOCKWISE: u64 = 1;
const CLOSE: u64 = 2;
const LOCK: u64 = 3;

const OPEN: u64 = 0;
const CLOSED: u64 = 1;
const LOCKED: u64 = 2;

/// The key's position when the robot has it; 0 and 1 are the rooms.
const HELD: u64 = 2;

/// Whether windows that are not locked stay as they are or may move at every command.
#[derive(Clone, Copy, Debug, PartialEq, Eq)]
pub enum Windows {
    Still,
    Moving,
}

/// What there is to know: the robot's room, the two windows, and where the key is.
#[derive(Clone, Copy)]
struct Situation {
    room: usize,
    windows: [u64; 2],
    key: u64,
}

impl Situation {
    /// The situation with this number.
    fn of(state: u64) -> Situation {
        Situation {
            room: (state % 2) as usize,
            windows: [state / 2 % 3, state / 6 % 3],
            key: state / 18,
        }
    }

    /// The set that holds just this situation.
    fn set(&self) -> u64 {
        1 << (self.room as u64 + 2 * self.windows[0] + 6 * self.windows[1] + 18 * self.key)
    }

    /// The window of the robot's room.
    fn here(&mut self) -> &mut u64 {
        &mut self.windows[self.room]
    }
}

/// DET-RING(2) or ND-RING(2): 18 states, all of them initial.
pub fn ring(windows: Windows) -> Sheet {
    let initial = states_where(18, |_| true);
    let goal = states_where(18, all_locked);
    Sheet::from_rule((18, 4), initial, goal, |command, state| {
        follows(command, state, windows, false)
    })
}

/// DET-RING-KEY(2) or ND-RING-KEY(2): 54 states; at first the key lies in one of the rooms.
pub fn ring_with_key(windows: Windows) -> Sheet {
    let initial = states_where(54, |situation| situation.key != HELD);
    let goal = states_where(54, all_locked);
    Sheet::from_rule((54, 5), initial, goal, |command, state| {
        follows(command, state, windows, true)
    })
}

/// Where a command may lead. Locking needs a window that is not open, and the key if there is one.
fn follows(command: u64, state: u64, windows: Windows, with_key: bool) -> u64 {
    let mut to = Situation::of(state);
    let mut settled = None;
    match command {
        CLOCKWISE | COUNTERCLOCKWISE => to.room = 1 - to.room,
        CLOSE => {
            let room = to.room;
            *to.here() = (*to.here()).max(CLOSED);
            settled = Some(room);
        }
        LOCK if *to.here() == OPEN || (with_key && to.key != HELD) => return 0,
        LOCK => *to.here() = LOCKED,
        _ if to.key == to.room as u64 => to.key = HELD,
        _ => {}
    }
    match windows {
        Windows::Still => to.set(),
        Windows::Moving => moved(to, settled),
    }
}

/// Every way the windows may move, but for locked ones and the one just closed.
fn moved(situation: Situation, settled: Option<usize>) -> u64 {
    let mut set = 0;
    for choice in [
        [OPEN, OPEN],
        [OPEN, CLOSED],
        [CLOSED, OPEN],
        [CLOSED, CLOSED],
    ] {
        let mut to = situation;
        for (room, window) in to.windows.iter_mut().enumerate() {
            if *window != LOCKED && settled != Some(room) {
                *window = choice[room];
            }
        }
        set |= to.set();
    }
    set
}

/// Whether both windows are locked.
fn all_locked(situation: &Situation) -> bool {
    situation.windows == [LOCKED, LOCKED]
}

/// The set of the states under `count` whose situation meets the condition.
fn states_where(count: u64, condition: impl Fn(&Situation) -> bool) -> u64 {
    (0..count)
        .filter(|state| condition(&Situation::of(*state)))
        .fold(0, |set, state| set | 1 << state)
}

/// The four rings of two rooms.
pub fn examples() -> Vec<Example> {
    let plain = "States: room + 2 * (window of room 0) + 6 * (window of room 1); a window is 0 \
                 open, 1 closed, 2 locked. Commands: 0 clockwise, 1 counterclockwise, 2 close the \
                 window here, 3 lock it, which is impossible when it is open. Initial: anything. \
                 Goal: both windows locked.";
    let key =
        "States: room + 2 * (window of room 0) + 6 * (window of room 1) + 18 * key; a window \
               is 0 open, 1 closed, 2 locked; the key is in room 0 or 1 or, as 2, with the robot. \
               Commands: 0 clockwise, 1 counterclockwise, 2 close the window here, 3 lock it, \
               which is impossible when it is open or without the key, 4 pick up the key if it is \
               here. Initial: anything but the key with the robot. Goal: both windows locked.";
    let moving = "At every command each window that is neither locked nor just closed may open or \
                  close.";
    vec![
        Example::of("det-ring-2", plain, &ring(Windows::Still)),
        Example::of(
            "nd-ring-2",
            format!("{plain} {moving}"),
            &ring(Windows::Moving),
        ),
        Example::of("det-ring-key-2", key, &ring_with_key(Windows::Still)),
        Example::of(
            "nd-ring-key-2",
            format!("{key} {moving}"),
            &ring_with_key(Windows::Moving),
        ),
    ]
}
