//! The cases: which calls case I of seed N makes. Each case has a small seed of its own, so that it
//! can be made again without those before it.

use super::call::{Call, Work};
use super::damage::{bytes, damaged, small_bytes};
use super::plans::{found, plan};
use super::rooms::{full_search, here, search};
use super::sheets::{pick, sheet};
use super::side::Searches;
use crate::random::Random;
use crate::sheet::{read, Sheet, HEAD};

/// One case in this many tries every single-byte change of a small sheet.
const SWEEP_EVERY: u64 = 1_000;
/// One case in this many fills a store to its limit.
const FULL_EVERY: u64 = 20_000;
/// Numbers that are no command, no state and no count.
const HUGE: [u64; 9] = [
    255,
    256,
    1 << 32,
    1 << 58,
    1 << 60,
    1 << 61,
    1 << 63,
    u64::MAX - 63,
    u64::MAX,
];

/// The kinds of cases.
#[derive(Clone, Copy, Debug, PartialEq, Eq)]
pub enum Kind {
    Read,
    View,
    Write,
    Judge,
    Better,
    Search,
    /// All single-byte changes of a small sheet, in turn.
    Sweep,
}

/// Every kind with its name.
pub const KINDS: [(Kind, &str); 7] = [
    (Kind::Read, "read"),
    (Kind::View, "view"),
    (Kind::Write, "write"),
    (Kind::Judge, "judge"),
    (Kind::Better, "better"),
    (Kind::Search, "search"),
    (Kind::Sweep, "sweep"),
];

/// A case: its kind and its calls.
#[derive(Clone, Debug, PartialEq, Eq)]
pub struct Made {
    pub kind: Kind,
    pub calls: Vec<Call>,
}

/// Makes a case for a side that has these searches.
pub fn made(seed: u64, index: u64, searches: Searches) -> Made {
    let own = Random::new(seed).number().wrapping_add(index);
    let mut random = Random::new(Random::new(own).number());
    let random = &mut random;
    let kind = kind(random, index);
    let works = match kind {
        Kind::Read => vec![reading(random)],
        Kind::View => viewing(random),
        Kind::Write => vec![writing(random)],
        Kind::Judge => vec![judging(random)],
        Kind::Better => vec![bettering(random)],
        Kind::Search if index % FULL_EVERY == FULL_EVERY / 2 => vec![full_search(random, searches)],
        Kind::Search => vec![searching(random, searches)],
        Kind::Sweep => sweeping(random, searches),
    };
    let calls = works.into_iter().map(|work| Call {
        noise: random.number(),
        work,
    });
    Made {
        kind,
        calls: calls.collect(),
    }
}

/// The kind of a case: by chance, but for those that take long.
fn kind(random: &mut Random, index: u64) -> Kind {
    if index % FULL_EVERY == FULL_EVERY / 2 {
        return Kind::Search;
    }
    if index % SWEEP_EVERY == SWEEP_EVERY / 4 {
        return Kind::Sweep;
    }
    match random.below(100) {
        0..=17 => Kind::Read,
        18..=24 => Kind::View,
        25..=41 => Kind::Write,
        42..=62 => Kind::Judge,
        63..=72 => Kind::Better,
        _ => Kind::Search,
    }
}

/// Reads bytes that are mostly damaged.
fn reading(random: &mut Random) -> Work {
    Work::Read {
        sheet: bytes(random, 80),
    }
}

/// Views following sets: the commands and states around the counts, some others, and huge numbers.
fn viewing(random: &mut Random) -> Vec<Work> {
    let bytes = bytes(random, 20);
    let (states, commands) = match read(&bytes) {
        Ok(sheet) => (sheet.states, sheet.commands),
        Err(_) => (2, 2),
    };
    let commands = numbers_around(random, commands);
    let states = numbers_around(random, states);
    let mut works = Vec::new();
    for command in &commands {
        for state in &states {
            works.push(Work::View {
                sheet: bytes.clone(),
                command: *command,
                state: *state,
            });
        }
    }
    works
}

/// All numbers up to a small count and just past it, or some of them, and huge ones.
fn numbers_around(random: &mut Random, count: u64) -> Vec<u64> {
    let mut numbers = if count <= 4 {
        (0..count + 2).collect()
    } else {
        vec![0, random.below(count), count - 1, count, count + 1]
    };
    numbers.push(pick(random, &HUGE));
    numbers.push(random.number());
    numbers
}

/// Writes a sheet, whole or with a wrong number, to an output that is mostly about long enough.
fn writing(random: &mut Random) -> Work {
    let mut numbers = sheet(random);
    let needed = HEAD + 8 * numbers.following.len();
    if random.percent(50) {
        for _ in 0..pick(random, &[1, 1, 2]) {
            spoil(random, &mut numbers);
        }
    }
    let room = match random.below(10) {
        0 => needed - 1,
        1 => needed + 1,
        2 => random.below(needed as u64) as usize,
        3 => random.below(24) as usize,
        4 => 0,
        5 => needed + random.below(20_000) as usize,
        6 | 7 => needed + random.below(40) as usize,
        _ => needed,
    };
    Work::Write { numbers, room }
}

/// Makes one number of a sheet wrong, or another.
fn spoil(random: &mut Random, numbers: &mut Sheet) {
    let missing = 1u64.checked_shl(numbers.states as u32).unwrap_or(1 << 63);
    match random.below(10) {
        0 => numbers.states = wrong_count(random, numbers.states),
        1 => numbers.commands = wrong_count(random, numbers.commands),
        2 => numbers.following.push(random.below(2)),
        3 => drop(numbers.following.pop()),
        4 => numbers.following.clear(),
        5 => numbers.initial = pick(random, &[0, missing]),
        6 => numbers.goal = pick(random, &[0, missing, missing | 1]),
        7 => numbers.initial = random.number(),
        _ => {
            let other = pick(random, &[missing, missing, 0]) | random.below(2);
            let index = random.below(numbers.following.len() as u64 + 1) as usize;
            if let Some(set) = numbers.following.get_mut(index) {
                *set = other;
            }
        }
    }
}

/// A count near this one, at a limit, or huge.
fn wrong_count(random: &mut Random, count: u64) -> u64 {
    match random.below(4) {
        0 => count.wrapping_add(1),
        1 => count.wrapping_sub(1),
        2 => pick(random, &[0, 32, 33, 64, 65]),
        _ => pick(random, &HUGE),
    }
}

/// Judges a plan.
fn judging(random: &mut Random) -> Work {
    let sheet = bytes(random, 8);
    let plan = plan(random, &sheet);
    Work::Judge { sheet, plan }
}

/// Picks the better of two plans, which are good more often than by chance.
fn bettering(random: &mut Random) -> Work {
    let sheet = bytes(random, 5);
    let mut first = plan(random, &sheet);
    let mut second = plan(random, &sheet);
    if random.percent(30) {
        second.clone_from(&first);
    }
    if let (Some(good), true) = (found(&sheet), random.percent(40)) {
        if random.percent(50) {
            first = good;
        } else {
            second = good;
        }
    }
    Work::Better {
        sheet,
        first,
        second,
    }
}

/// Searches in a lent store, or in the side's own.
fn searching(random: &mut Random, searches: Searches) -> Work {
    if searches.own && (!searches.lent || random.percent(30)) {
        here(random)
    } else {
        search(random)
    }
}

/// Reads every sheet that differs from a small one in a single byte, and judges and searches with
/// those that are changed in one bit.
fn sweeping(random: &mut Random, searches: Searches) -> Vec<Work> {
    let mut base = small_bytes(random);
    if random.percent(10) {
        base = damaged(random, base);
        base.truncate(60);
    }
    let mut works = Vec::new();
    for offset in 0..base.len() {
        for change in 1..=255 {
            let mut sheet = base.clone();
            sheet[offset] ^= change;
            if u8::is_power_of_two(change) {
                works.extend(uses(&sheet, searches));
            }
            works.push(Work::Read { sheet });
        }
    }
    works
}

/// A judgement and a search of these bytes.
fn uses(sheet: &[u8], searches: Searches) -> [Work; 2] {
    let sheet = sheet.to_vec();
    let search = if searches.lent {
        Work::Search {
            sheet: sheet.clone(),
            places: 5,
            plan_bytes: 3,
        }
    } else {
        Work::Here {
            sheet: sheet.clone(),
            plan_bytes: 3,
        }
    };
    let plan = vec![0, 1];
    [Work::Judge { sheet, plan }, search]
}
