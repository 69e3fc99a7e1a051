//! Slow second versions of the judge and of the search, straight from the definitions of runs and
//! of the listing. They exist to check the others on small sheets and short plans.

use crate::judge::Judgement;
use crate::search::{Answer, Outcome, Record, MOST_PLACES, NO_COMMAND};
use crate::sheet::{self, Refusal, Sheet};
use std::collections::{BTreeSet, HashSet};

/// A domain as the triples of state, command and next state.
struct Domain {
    states: u64,
    triples: HashSet<(u64, u8, u64)>,
}

impl Domain {
    /// Takes the triples from the following sets, bit by bit.
    fn of(sheet: &Sheet) -> Domain {
        let mut triples = HashSet::new();
        for (index, set) in sheet.following.iter().enumerate() {
            let command = (index as u64 / sheet.states) as u8;
            let state = index as u64 % sheet.states;
            for next in states_of(*set) {
                triples.insert((state, command, next));
            }
        }
        Domain {
            states: sheet.states,
            triples,
        }
    }

    /// The states that may follow.
    fn next(&self, state: u64, command: u8) -> Vec<u64> {
        (0..self.states)
            .filter(|next| self.triples.contains(&(state, command, *next)))
            .collect()
    }

    /// All full runs of the plan from this state, each as the list of its states.
    fn runs(&self, plan: &[u8], state: u64) -> Vec<Vec<u64>> {
        let Some((command, rest)) = plan.split_first() else {
            return vec![vec![state]];
        };
        let mut runs = Vec::new();
        for next in self.next(state, *command) {
            for tail in self.runs(rest, next) {
                let mut run = vec![state];
                run.extend(tail);
                runs.push(run);
            }
        }
        runs
    }

    /// Whether no run of the plan from this state gets stuck.
    fn applicable(&self, plan: &[u8], state: u64) -> bool {
        let Some((command, rest)) = plan.split_first() else {
            return true;
        };
        let next = self.next(state, *command);
        !next.is_empty() && next.iter().all(|state| self.applicable(rest, *state))
    }

    /// The states in which the full runs from these states end.
    fn ends(&self, plan: &[u8], from: &BTreeSet<u64>) -> BTreeSet<u64> {
        let mut ends = BTreeSet::new();
        for state in from {
            for run in self.runs(plan, *state) {
                ends.extend(run.last());
            }
        }
        ends
    }

    /// Walks one command at a time and stops where one cannot be sent.
    fn walk(&self, sequence: &[u8], from: &BTreeSet<u64>) -> Option<BTreeSet<u64>> {
        let mut set = from.clone();
        for command in sequence {
            let mut image = BTreeSet::new();
            for state in &set {
                let next = self.next(*state, *command);
                if next.is_empty() {
                    return None;
                }
                image.extend(next);
            }
            set = image;
        }
        Some(set)
    }
}

/// Judges a plan by its single runs. The time grows with the number of runs.
pub fn judge_by_runs(sheet: &[u8], plan: &[u8]) -> Judgement {
    let sheet = match sheet::read(sheet) {
        Ok(sheet) => sheet,
        Err(refusal) => return Judgement::refused(refusal, 0),
    };
    let foreign = plan.iter().position(|c| u64::from(*c) >= sheet.commands);
    if let Some(index) = foreign {
        return Judgement::refused(Refusal::new(10, index as u64), 0);
    }
    let domain = Domain::of(&sheet);
    let initial = states_of(sheet.initial);
    for length in 1..=plan.len() {
        let start = &plan[..length];
        if !initial.iter().all(|s| domain.applicable(start, *s)) {
            let met = domain.ends(&plan[..length - 1], &initial);
            let stuck = Refusal::new(11, length as u64 - 1);
            return Judgement::refused(stuck, number_of(&met));
        }
    }
    let ends = domain.ends(plan, &initial);
    if ends.is_subset(&states_of(sheet.goal)) {
        Judgement::good(number_of(&ends))
    } else {
        Judgement::refused(Refusal::new(12, plan.len() as u64), number_of(&ends))
    }
}

/// A set of the listing with its first sequence.
struct Listed {
    set: BTreeSet<u64>,
    sequence: Vec<u8>,
}

/// The whole listing, by trying every sequence of length 0, 1, 2 and so on in order. It ends with
/// the first length that brings nothing new.
fn listing(sheet: &Sheet) -> Vec<Listed> {
    let domain = Domain::of(sheet);
    let initial = states_of(sheet.initial);
    let mut list: Vec<Listed> = Vec::new();
    for length in 0.. {
        let before = list.len();
        let mut sequence = vec![0; length];
        loop {
            if let Some(set) = domain.walk(&sequence, &initial) {
                if list.iter().all(|listed| listed.set != set) {
                    let sequence = sequence.clone();
                    list.push(Listed { set, sequence });
                }
            }
            if !step(&mut sequence, sheet.commands) {
                break;
            }
        }
        if list.len() == before {
            break;
        }
    }
    list
}

/// Steps to the next sequence of the same length, or says that this was the last.
fn step(sequence: &mut [u8], commands: u64) -> bool {
    for command in sequence.iter_mut().rev() {
        *command += 1;
        if u64::from(*command) < commands {
            return true;
        }
        *command = 0;
    }
    false
}

/// Searches by making the whole listing first and then reading the answer off it.
pub fn search_by_sequences(sheet: &[u8], store: &mut [Record], plan: &mut [u8]) -> Answer {
    let sheet = match sheet::read(sheet) {
        Ok(sheet) => sheet,
        Err(refusal) => return plain(Outcome::Refused(refusal), 0),
    };
    let list = listing(&sheet);
    let goal = states_of(sheet.goal);
    let room = store.len().min(MOST_PLACES);
    match list.iter().position(|listed| listed.set.is_subset(&goal)) {
        Some(place) if place < room => {
            fill(&list, store, place + 1);
            let sequence = &list[place].sequence;
            let fits = sequence.len() <= plan.len();
            if fits {
                plan[..sequence.len()].copy_from_slice(sequence);
            }
            Answer {
                outcome: if fits { Outcome::Plan } else { Outcome::Long },
                count: place + 1,
                length: sequence.len(),
            }
        }
        None if list.len() <= room => {
            fill(&list, store, list.len());
            plain(Outcome::NoPlan, list.len())
        }
        _ => {
            fill(&list, store, room);
            plain(Outcome::NoRoom, room)
        }
    }
}

/// An answer without a plan.
fn plain(outcome: Outcome, count: usize) -> Answer {
    Answer {
        outcome,
        count,
        length: 0,
    }
}

/// Fills the first `count` places with the listing.
fn fill(list: &[Listed], store: &mut [Record], count: usize) {
    for (place, listed) in list.iter().enumerate().take(count) {
        let (parent, command) = match listed.sequence.split_last() {
            None => (0, NO_COMMAND),
            Some((last, shorter)) => (first_with(list, shorter), *last),
        };
        store[place] = Record {
            set: number_of(&listed.set),
            parent: parent as u32,
            command,
        };
    }
}

/// The place whose first sequence is this one. A first sequence without its last command is itself
/// the first sequence of some set.
fn first_with(list: &[Listed], sequence: &[u8]) -> usize {
    list.iter()
        .position(|listed| listed.sequence == sequence)
        .expect("a first sequence has a first sequence as its start")
}

/// The states of a set, found by halving the number.
fn states_of(set: u64) -> BTreeSet<u64> {
    let mut states = BTreeSet::new();
    let mut rest = set;
    let mut state = 0;
    while rest > 0 {
        if rest % 2 == 1 {
            states.insert(state);
        }
        rest /= 2;
        state += 1;
    }
    states
}

/// The number of a set of states, as a sum of powers of two.
fn number_of(states: &BTreeSet<u64>) -> u64 {
    states.iter().map(|state| 2u64.pow(*state as u32)).sum()
}
