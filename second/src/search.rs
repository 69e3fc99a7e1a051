//! The search: lists the sets of possible states breadth first in the lent store until one lies
//! inside the goal, none is left, or the room is used up.

use crate::sheet::{self, Refusal, Sheet};
use std::collections::HashSet;

/// The most places of a store that are ever used.
pub const MOST_PLACES: usize = 65_536;
/// The command in the record of the initial set.
pub const NO_COMMAND: u8 = 255;

/// One place of the store: a set, the place it was reached from, and the command that did it. Its
/// fields lie in memory as in the proved archive's record, so that one store can be lent to both.
#[derive(Clone, Copy, Debug, PartialEq, Eq)]
#[repr(C)]
pub struct Record {
    pub set: u64,
    pub parent: u32,
    pub command: u8,
}

/// How a search ended.
#[derive(Clone, Copy, Debug, PartialEq, Eq)]
pub enum Outcome {
    /// The plan stands in the plan buffer.
    Plan,
    /// There is a plan, but the plan buffer is too short for it (refusal 14).
    Long,
    /// No sequence of any length would do.
    NoPlan,
    /// The room did not suffice (refusal 13).
    NoRoom,
    /// The sheet was refused.
    Refused(Refusal),
}

/// The search's answer: how it ended, how many places it filled, and the length of the plan.
#[derive(Clone, Copy, Debug, PartialEq, Eq)]
pub struct Answer {
    pub outcome: Outcome,
    pub count: usize,
    pub length: usize,
}

impl Answer {
    /// The refusal that this answer is, if it is one.
    pub fn refusal(&self) -> Option<Refusal> {
        match self.outcome {
            Outcome::Plan | Outcome::NoPlan => None,
            Outcome::Long => Some(Refusal::new(14, self.length as u64)),
            Outcome::NoRoom => Some(Refusal::new(13, 0)),
            Outcome::Refused(refusal) => Some(refusal),
        }
    }

    /// The place reported, which is 0 for a plan and for no plan.
    pub fn place(&self) -> u64 {
        self.refusal().map_or(0, |refusal| refusal.place)
    }
}

/// Searches for the first plan of the sheet, in the lent store and plan buffer.
pub fn search(sheet: &[u8], store: &mut [Record], plan: &mut [u8]) -> Answer {
    let sheet = match sheet::read(sheet) {
        Ok(sheet) => sheet,
        Err(refusal) => return answer(Outcome::Refused(refusal), 0, 0),
    };
    let room = store.len().min(MOST_PLACES);
    let mut kept = Kept::new(&mut store[..room]);
    match explore(&sheet, &mut kept) {
        End::Inside => {
            let sequence = kept.sequence(kept.count - 1);
            let outcome = hand_out(&sequence, plan);
            answer(outcome, kept.count, sequence.len())
        }
        End::NothingNew => answer(Outcome::NoPlan, kept.count, 0),
        End::Full => answer(Outcome::NoRoom, kept.count, 0),
    }
}

/// Puts the three parts of an answer together.
fn answer(outcome: Outcome, count: usize, length: usize) -> Answer {
    Answer {
        outcome,
        count,
        length,
    }
}

/// Copies the sequence to the start of the plan buffer if it fits there.
fn hand_out(sequence: &[u8], plan: &mut [u8]) -> Outcome {
    match plan.get_mut(..sequence.len()) {
        Some(start) => {
            start.copy_from_slice(sequence);
            Outcome::Plan
        }
        None => Outcome::Long,
    }
}

/// Why the listing stopped.
enum End {
    /// The last set kept lies inside the goal.
    Inside,
    /// Every set was kept and none lies inside the goal.
    NothingNew,
    /// A set was met that found no place.
    Full,
}

/// Keeps sets in the order in which breadth-first search meets them.
fn explore(sheet: &Sheet, kept: &mut Kept) -> End {
    if !kept.keep(sheet.initial, 0, NO_COMMAND) {
        return End::Full;
    }
    if sheet.inside_goal(sheet.initial) {
        return End::Inside;
    }
    let mut place = 0;
    while place < kept.count {
        for command in 0..sheet.commands {
            let Some(image) = sheet.image(command, kept.store[place].set) else {
                continue;
            };
            if kept.seen.contains(&image) {
                continue;
            }
            if !kept.keep(image, place, command as u8) {
                return End::Full;
            }
            if sheet.inside_goal(image) {
                return End::Inside;
            }
        }
        place += 1;
    }
    End::NothingNew
}

/// The part of the store that may be used, how much of it is, and the sets in it.
struct Kept<'a> {
    store: &'a mut [Record],
    count: usize,
    seen: HashSet<u64>,
}

impl<'a> Kept<'a> {
    /// Nothing is kept yet.
    fn new(store: &'a mut [Record]) -> Kept<'a> {
        Kept {
            store,
            count: 0,
            seen: HashSet::new(),
        }
    }

    /// Gives a new set the next place, or says that there is none.
    fn keep(&mut self, set: u64, parent: usize, command: u8) -> bool {
        let Some(record) = self.store.get_mut(self.count) else {
            return false;
        };
        *record = Record {
            set,
            parent: parent as u32,
            command,
        };
        self.count += 1;
        self.seen.insert(set);
        true
    }

    /// The commands that lead from place 0 to this place.
    fn sequence(&self, place: usize) -> Vec<u8> {
        let mut commands = Vec::new();
        let mut at = place;
        while at != 0 {
            commands.push(self.store[at].command);
            at = self.store[at].parent as usize;
        }
        commands.reverse();
        commands
    }
}
