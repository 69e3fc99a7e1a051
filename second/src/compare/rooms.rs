//! Searches for the comparison: how much room they get, and how long a plan may be.

use super::call::Work;
use super::damage::{bytes_of, searchable};
use super::sheets::{long_listing, pick, sheet, sized};
use super::side::{Searches, OWN_PLACES};
use crate::random::Random;
use crate::search::{search as search_sets, Answer, Record, MOST_PLACES};
use crate::sheet::Sheet;

/// Places of the search that looks where the answer turns.
const LOOK: usize = 300;
/// Large stores, about the most places that are used.
const LARGE: [u64; 6] = [4_096, 65_535, 65_536, 65_537, 65_600, 70_000];
/// What a store holds before this module's own searches.
const BLANK: Record = Record {
    set: 0,
    parent: 0,
    command: 0,
};

/// A search in a lent store.
pub fn search(random: &mut Random) -> Work {
    if random.below(400) == 0 {
        return wide_search(random);
    }
    let numbers = sheet(random);
    let sheet = searchable(random, &numbers);
    let (mut places, mut plan_bytes) = sizes(random);
    if random.percent(40) {
        let known = looked(&sheet, LOOK);
        places = near(random, known.count);
        if random.percent(70) {
            plan_bytes = near(random, known.length);
        }
    }
    Work::Search {
        sheet,
        places,
        plan_bytes,
    }
}

/// A room and a plan buffer, mostly small.
fn sizes(random: &mut Random) -> (usize, usize) {
    let places = match random.below(100) {
        0 => random.below(1_000),
        1..=9 => random.below(200),
        10..=39 => random.below(40),
        _ => random.below(9),
    };
    let plan_bytes = match random.below(100) {
        0 => random.below(20_000),
        1..=39 => random.below(40),
        _ => random.below(5),
    };
    (places as usize, plan_bytes as usize)
}

/// One less than this number, the number itself, or one more.
fn near(random: &mut Random, number: usize) -> usize {
    (number + random.below(3) as usize).saturating_sub(1)
}

/// What this program's search says with this room and a long plan buffer.
fn looked(sheet: &[u8], room: usize) -> Answer {
    search_sets(sheet, &mut vec![BLANK; room], &mut vec![0; room])
}

/// A search in a large store, most of which stays as it is, or of a long listing in a smaller one.
fn wide_search(random: &mut Random) -> Work {
    if random.percent(50) {
        let (states, commands) = (random.between(1, 9), random.between(1, 4));
        let numbers = sized(random, states, commands);
        let any = random.between(4_096, 70_000);
        let large = pick(random, &LARGE);
        return Work::Search {
            sheet: searchable(random, &numbers),
            places: pick(random, &[any, large]) as usize,
            plan_bytes: pick(random, &[0, 10, 300, 70_000]) as usize,
        };
    }
    let places = random.between(1_000, 5_000) as usize;
    let numbers = with_goal_at(random, places);
    Work::Search {
        sheet: bytes_of(&numbers),
        places,
        plan_bytes: pick(random, &[0, 5, 40, 5_000]) as usize,
    }
}

/// A search without a lent store, of a sheet with a short listing but now and then with a long one.
pub fn here(random: &mut Random) -> Work {
    let numbers = match random.below(60) {
        0 => with_goal_at(random, OWN_PLACES),
        1 => sheet(random),
        _ => {
            let (states, commands) = (random.between(1, 8), random.between(1, 6));
            sized(random, states, commands)
        }
    };
    let sheet = searchable(random, &numbers);
    let (_, mut plan_bytes) = sizes(random);
    if random.percent(40) {
        plan_bytes = near(random, looked(&sheet, LOOK).length);
    }
    Work::Here { sheet, plan_bytes }
}

/// A search that comes to the limit of its store: 65,536 places if it is lent, else 4,096.
pub fn full_search(random: &mut Random, searches: Searches) -> Work {
    if searches.lent {
        let numbers = with_goal_at(random, MOST_PLACES);
        Work::Search {
            sheet: bytes_of(&numbers),
            places: pick(random, &[65_535, 65_536, 65_537, 66_000]) as usize,
            plan_bytes: pick(random, &[0, 14, 15, 16, 17, 18, 70_000]) as usize,
        }
    } else {
        let numbers = with_goal_at(random, OWN_PLACES);
        Work::Here {
            sheet: bytes_of(&numbers),
            plan_bytes: pick(random, &[0, 10, 11, 12, 13, 5_000]) as usize,
        }
    }
}

/// A sheet with a long listing whose goal is the set in the last of these places, the first after
/// them, the last but one, or nowhere.
fn with_goal_at(random: &mut Random, places: usize) -> Sheet {
    let mut numbers = long_listing(random, 64, 2);
    if random.percent(30) {
        return numbers;
    }
    let mut store = vec![BLANK; (places + 1).min(MOST_PLACES)];
    let answer = search_sets(&bytes_of(&numbers), &mut store, &mut []);
    let listed = &store[..answer.count];
    let back = random.between(1, 3) as usize;
    numbers.goal = listed[listed.len().saturating_sub(back)].set;
    numbers
}
