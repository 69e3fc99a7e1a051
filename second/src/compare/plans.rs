//! Plans for the comparison: short and long, with and without foreign bytes, walks that can be
//! sent, plans that were found, and their neighbours.

use super::sheets::pick;
use crate::random::Random;
use crate::search::{search, Outcome, Record};
use crate::sheet::{read, Sheet};

/// Places and plan bytes of the search that looks for a plan here.
const LOOK: usize = 64;

/// A plan for these bytes, which need not be a sheet.
pub fn plan(random: &mut Random, bytes: &[u8]) -> Vec<u8> {
    let length = length(random);
    let Ok(sheet) = read(bytes) else {
        return random.plan(33, length);
    };
    match random.below(12) {
        0 => Vec::new(),
        1 => random.bytes(length.min(8)),
        2..=4 => random.plan(sheet.commands, length),
        5 => foreign(random, &sheet, length),
        6 | 7 => walk(random, &sheet, length),
        8 | 9 => found(bytes).unwrap_or_default(),
        _ => {
            let plan = found(bytes).unwrap_or_else(|| walk(random, &sheet, length));
            neighbour(random, &sheet, plan)
        }
    }
}

/// A length, mostly short.
fn length(random: &mut Random) -> usize {
    let below = match random.below(2_000) {
        0 => 100_000,
        1..=9 => 3_000,
        10..=99 => 200,
        100..=799 => 20,
        _ => 5,
    };
    random.below(below) as usize
}

/// A plan with one byte that is no command, often the smallest such.
fn foreign(random: &mut Random, sheet: &Sheet, length: usize) -> Vec<u8> {
    let mut plan = random.plan(sheet.commands, length + 1);
    let index = random.below(plan.len() as u64) as usize;
    let any = random.between(sheet.commands, 255);
    plan[index] = pick(random, &[sheet.commands, sheet.commands, any, 255]) as u8;
    plan
}

/// Commands that can be sent one after the other, as far as they are met by chance.
fn walk(random: &mut Random, sheet: &Sheet, length: usize) -> Vec<u8> {
    let mut plan = Vec::new();
    let mut set = sheet.initial;
    for _ in 0..2 * length {
        let command = random.below(sheet.commands);
        if let Some(image) = sheet.image(command, set) {
            plan.push(command as u8);
            set = image;
        }
        if sheet.inside_goal(set) && random.percent(30) {
            break;
        }
    }
    plan
}

/// The plan that a short search finds.
pub fn found(bytes: &[u8]) -> Option<Vec<u8>> {
    let blank = Record {
        set: 0,
        parent: 0,
        command: 0,
    };
    let mut plan = [0; LOOK];
    let answer = search(bytes, &mut [blank; LOOK], &mut plan);
    (answer.outcome == Outcome::Plan).then(|| plan[..answer.length].to_vec())
}

/// A plan with one byte more or less, or with one or two bytes changed.
fn neighbour(random: &mut Random, sheet: &Sheet, plan: Vec<u8>) -> Vec<u8> {
    let mut plan = plan;
    let command = random.below(sheet.commands) as u8;
    let index = random.below(plan.len() as u64 + 1) as usize;
    match random.below(5) {
        0 => plan.insert(index, command),
        1 => plan.push(command),
        2 => plan.truncate(index),
        3 if index > 0 => plan.swap(0, index - 1),
        _ if index > 0 => plan[index - 1] = command,
        _ => plan.push(command),
    }
    plan
}
