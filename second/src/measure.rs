//! The time of the proved search beside that of this program's own, in one run on one machine.

use crate::compare::damage::bytes_of;
use crate::compare::side::{Ours, Side};
use crate::examples::tray::tray;
use crate::proved::Proved;
use crate::random::{Random, Shape};
use crate::search::{Record, MOST_PLACES};
use crate::sheet::Sheet;
use std::io::{self, Write};
use std::time::{Duration, Instant};

/// What every place holds before a search is timed.
const BLANK: Record = Record {
    set: 0,
    parent: 0,
    command: 0,
};
/// The rooms that the random sheets fill.
const ROOMS: [usize; 2] = [4_096, MOST_PLACES];
/// States, commands and spread of the random sheets.
const SHAPES: [(u64, u64, u64); 3] = [(64, 4, 2), (64, 8, 3), (48, 16, 2)];
/// How many places the timed searches of one kind fill in all, about: each is timed as often as
/// that takes, both sides in turn, and the shortest time counts.
const FILLED: usize = 1_000_000;

/// One measured search: its sheet, in words and in bytes, and its room.
struct Search {
    name: String,
    sheet: Vec<u8>,
    room: usize,
}

/// Prints a row for each search: the places filled, both times, and the proved one as a multiple.
pub fn measure(output: &mut dyn Write) -> io::Result<bool> {
    writeln!(
        output,
        "| Sheet | Room | Answer | Places filled | Proved | Ordinary Rust | Ratio |"
    )?;
    writeln!(output, "|---|---|---|---|---|---|---|")?;
    let mut same = true;
    for search in searches() {
        let [(proved, answer), (ours, expected)] = fastest(&search);
        same &= answer == expected;
        let ratio = proved.as_secs_f64() / ours.as_secs_f64();
        let [number, _, count, _] = answer;
        let Search { name, room, .. } = &search;
        let (proved, ours) = (in_milliseconds(proved), in_milliseconds(ours));
        writeln!(
            output,
            "| {name} | {room} | {number} | {count} | {proved} | {ours} | {ratio:.2} |"
        )?;
    }
    Ok(same)
}

/// The tray with an empty goal, and random sheets in rooms that they fill.
fn searches() -> Vec<Search> {
    let mut searches = vec![Search {
        name: "tray, empty goal".to_string(),
        sheet: bytes_of(&tray(u64::MAX, 0)),
        room: ROOMS[0],
    }];
    for room in ROOMS {
        for shape in SHAPES {
            let (states, commands, spread) = shape;
            searches.push(Search {
                name: format!("{states} states, {commands} commands, 1 to {spread} outcomes"),
                sheet: bytes_of(&random_sheet(shape)),
                room,
            });
        }
    }
    searches
}

/// A random sheet of this shape from state 0 and with an empty goal, the same at each call.
fn random_sheet((states, commands, spread): (u64, u64, u64)) -> Sheet {
    let shape = Shape {
        states,
        commands,
        impossible: 0,
        spread,
    };
    Sheet {
        initial: 1,
        goal: 0,
        ..Random::new(1).sheet(&shape)
    }
}

/// The shortest time and the answer of this search, of the archive and of this program.
fn fastest(search: &Search) -> [(Duration, [u64; 4]); 2] {
    let mut best = [(Duration::MAX, [0; 4]); 2];
    for _ in 0..FILLED / search.room {
        for (side, (shortest, answer)) in [&Proved as &dyn Side, &Ours].into_iter().zip(&mut best) {
            *shortest = timed(side, search, answer).min(*shortest);
        }
    }
    best
}

/// The time of one search. The buffers are made and cleared before the clock runs.
fn timed(side: &dyn Side, search: &Search, answer: &mut [u64; 4]) -> Duration {
    let mut store = vec![BLANK; search.room];
    store.fill(BLANK);
    let mut plan = vec![0; search.room];
    plan.fill(0);
    let begin = Instant::now();
    side.search(&search.sheet, &mut store, &mut plan, answer);
    begin.elapsed()
}

/// A time in milliseconds.
fn in_milliseconds(time: Duration) -> String {
    format!("{:.3} ms", time.as_secs_f64() * 1_000.0)
}
