//! The search: against the one that tries every sequence, with every small room and plan buffer,
//! and at its limits.

mod common;

use common::{answer, bytes_of, random_sheet, run, searched, After, BLANK, FILL};
use second::examples::bench;
use second::judge::judge;
use second::naive::search_by_sequences;
use second::random::Random;
use second::search::{Outcome, MOST_PLACES};
use second::sheet::{Refusal, Sheet};

/// Searches in both ways and wants the same answer and the same buffers.
fn assert_agree(sheet: &[u8], places: usize, plan_bytes: usize) -> After {
    let quick = searched(sheet, places, plan_bytes);
    let slow = run(search_by_sequences, sheet, places, plan_bytes);
    assert_eq!(quick, slow, "{sheet:?} {places} {plan_bytes}");
    quick.assert_rest_untouched();
    quick
}

#[test]
fn both_searches_agree_in_every_small_room() {
    let mut random = Random::new(31);
    let mut met = [0; 4];
    for _ in 0..700 {
        let sheet = random_sheet(&mut random, 3, 3);
        let bytes = bytes_of(&sheet);
        for places in 0..9 {
            let after = assert_agree(&bytes, places, 8);
            met[kind(after.answer.outcome)] += 1;
        }
    }
    assert!(met[0] > 300 && met[2] > 300 && met[3] > 300, "{met:?}");
}

/// A number for each outcome that an accepted sheet can have.
fn kind(outcome: Outcome) -> usize {
    match outcome {
        Outcome::Plan => 0,
        Outcome::Long => 1,
        Outcome::NoPlan => 2,
        Outcome::NoRoom => 3,
        Outcome::Refused(_) => panic!("no sheet is refused here"),
    }
}

#[test]
fn both_searches_agree_with_every_short_plan_buffer() {
    let mut random = Random::new(32);
    let mut long = 0;
    for _ in 0..400 {
        let bytes = bytes_of(&random_sheet(&mut random, 3, 3));
        for plan_bytes in 0..5 {
            let after = assert_agree(&bytes, 7, plan_bytes);
            long += usize::from(after.answer.outcome == Outcome::Long);
        }
    }
    assert!(long > 50, "{long}");
}

#[test]
fn both_searches_agree_on_four_and_five_states() {
    let mut random = Random::new(33);
    let mut most = 0;
    for _ in 0..400 {
        let mut sheet = random_sheet(&mut random, 5, 2);
        if random.percent(50) {
            sheet.initial = 1;
        }
        let places = random.between(1, 32) as usize;
        most = most.max(assert_agree(&bytes_of(&sheet), places, 40).answer.count);
    }
    assert!(most > 6, "{most}");
}

#[test]
fn both_searches_agree_on_many_commands() {
    let mut random = Random::new(34);
    for _ in 0..60 {
        let mut shape = random.shape(2, 8);
        shape.commands = random.between(4, 12);
        let bytes = bytes_of(&random.sheet(&shape));
        assert_agree(&bytes, 4, 4);
    }
}

#[test]
fn plans_found_are_good_and_all_that_is_said_of_them_holds() {
    let mut random = Random::new(35);
    let mut plans = 0;
    for _ in 0..3_000 {
        let sheet = random_sheet(&mut random, 64, 32);
        let bytes = bytes_of(&sheet);
        let after = searched(&bytes, 200, 200);
        after.assert_rest_untouched();
        assert_records_hold(&sheet, &after);
        let count = after.answer.count;
        match after.answer.outcome {
            Outcome::Plan => {
                plans += 1;
                let judgement = judge(&bytes, after.plan_found());
                assert!(judgement.is_good());
                assert_eq!(after.store[count - 1].set, judgement.set);
                assert!(after.answer.length < count);
            }
            Outcome::NoRoom => assert_eq!(count, 200),
            Outcome::NoPlan => {}
            other => panic!("{other:?}"),
        }
    }
    assert!(plans > 500, "{plans}");
}

/// Checks each record against the one it came from.
fn assert_records_hold(sheet: &Sheet, after: &After) {
    for (place, record) in after.store[..after.answer.count].iter().enumerate() {
        if place == 0 {
            assert_eq!((record.set, record.parent), (sheet.initial, 0));
            assert_eq!(record.command, 255);
            continue;
        }
        let parent = record.parent as usize;
        assert!(parent < place);
        let image = sheet.image(u64::from(record.command), after.store[parent].set);
        assert_eq!(image, Some(record.set));
        let earlier = &after.store[..place];
        assert!(earlier.iter().all(|other| other.set != record.set));
        assert!(earlier.iter().all(|other| !sheet.inside_goal(other.set)));
    }
}

#[test]
fn the_answer_turns_at_the_right_room() {
    let mut random = Random::new(36);
    for _ in 0..1_500 {
        let bytes = bytes_of(&random_sheet(&mut random, 8, 5));
        let wide = searched(&bytes, 255, 255);
        let needed = wide.answer.count;
        assert_ne!(wide.answer.outcome, Outcome::NoRoom);
        let exact = searched(&bytes, needed, wide.answer.length);
        assert_eq!(exact.answer, wide.answer);
        assert_eq!(exact.store, wide.store[..needed]);
        let tight = searched(&bytes, needed - 1, 255);
        assert_eq!(tight.answer, answer(Outcome::NoRoom, needed - 1, 0));
        assert_eq!(tight.store, wide.store[..needed - 1]);
        assert_eq!(tight.plan, [FILL; 255]);
        if wide.answer.length > 0 {
            let length = wide.answer.length;
            let long = searched(&bytes, 255, length - 1);
            assert_eq!(long.answer, answer(Outcome::Long, needed, length));
            assert_eq!(long.answer.place(), length as u64);
            assert_eq!(long.store, wide.store);
            assert!(long.plan.iter().all(|byte| *byte == FILL));
        }
    }
}

#[test]
fn no_goal_met_later_than_the_first() {
    let sheet = Sheet::from_rule((4, 2), 1, 0b1100, |command, state| match (command, state) {
        (0, 0) => 0b0010,
        (1, 0) => 0b0100,
        _ => 0b1000,
    });
    let after = searched(&bytes_of(&sheet), 10, 10);
    assert_eq!(after.answer, answer(Outcome::Plan, 3, 1));
    assert_eq!(after.plan_found(), [1]);
    assert_eq!(after.sets(), [1, 2, 4]);
}

#[test]
fn larger_sets_are_kept_though_a_smaller_one_was_seen() {
    let sheet = Sheet::from_rule((3, 2), 1, 0, |command, state| match (command, state) {
        (0, 0) => 0b010,
        (1, 0) => 0b110,
        _ => 1 << state,
    });
    let after = searched(&bytes_of(&sheet), 10, 0);
    assert_eq!(after.answer, answer(Outcome::NoPlan, 3, 0));
    assert_eq!(after.sets(), [1, 2, 6]);
}

#[test]
fn a_refused_sheet_changes_nothing() {
    let damaged = [
        bench::second_set_4(),
        bench::version_2_wrong_length(),
        Vec::new(),
    ];
    for bytes in damaged {
        let refusal = second::sheet::read(&bytes).unwrap_err();
        for places in [0, 1, 4] {
            let after = searched(&bytes, places, 4);
            assert_eq!(after.answer, answer(Outcome::Refused(refusal), 0, 0));
            assert_eq!(after.answer.place(), refusal.place);
            assert!(after.store.iter().all(|record| *record == BLANK));
            assert_eq!(after.plan, [FILL; 4]);
        }
    }
}

/// Each command moves one state on to the next in a ring, so that every set but the empty one is
/// met from the full one.
fn merging_ring(states: u64) -> Sheet {
    let full = second::examples::all_states(states);
    Sheet::from_rule((states, states), full, 0, |command, state| {
        let to = if state == command { state + 1 } else { state };
        1 << (to % states)
    })
}

#[test]
fn with_a_place_for_each_set_there_is_always_room() {
    for states in 1..=12 {
        let all = (1 << states) - 1;
        let bytes = bytes_of(&merging_ring(states));
        let after = searched(&bytes, all, 0);
        assert_eq!(after.answer, answer(Outcome::NoPlan, all, 0));
        let after = searched(&bytes, all - 1, 0);
        assert_eq!(after.answer, answer(Outcome::NoRoom, all - 1, 0));
    }
}

#[test]
fn sixteen_states_fill_all_their_places() {
    let bytes = bytes_of(&merging_ring(16));
    let after = searched(&bytes, 65_535, 0);
    assert_eq!(after.answer, answer(Outcome::NoPlan, 65_535, 0));
    let mut sets = after.sets();
    sets.sort_unstable();
    assert!(sets.into_iter().eq(1..=65_535));
}

#[test]
fn places_beyond_the_most_are_unused() {
    let bytes = bytes_of(&merging_ring(17));
    let after = searched(&bytes, MOST_PLACES + 5, 0);
    assert_eq!(after.answer, answer(Outcome::NoRoom, MOST_PLACES, 0));
    assert_eq!(after.answer.refusal(), Some(Refusal::new(13, 0)));
    assert_eq!(after.store[MOST_PLACES..], [BLANK; 5]);
    let exact = searched(&bytes, MOST_PLACES, 0);
    assert_eq!(exact.answer, after.answer);
    assert_eq!(exact.store, after.store[..MOST_PLACES]);
}

/// Switches: states 2i and 2i + 1 stand for switch i off and on, and command i throws it. Every set
/// met has one state for each switch, so that none lies inside another.
fn switches(count: u64, wanted_on: impl Fn(u64) -> bool) -> Sheet {
    let all_off = (0..count).fold(0, |set, switch| set | 1 << (2 * switch));
    let goal = (0..count).fold(0, |set, switch| {
        set | 1 << (2 * switch + u64::from(wanted_on(switch)))
    });
    Sheet::from_rule((2 * count, count), all_off, goal, |command, state| {
        1 << if state / 2 == command {
            state ^ 1
        } else {
            state
        }
    })
}

#[test]
fn a_listing_that_just_fits() {
    let mut sheet = switches(16, |_| true);
    let bytes = bytes_of(&sheet);
    let after = searched(&bytes, MOST_PLACES, 16);
    assert_eq!(after.answer, answer(Outcome::Plan, MOST_PLACES, 16));
    assert!(after.plan.iter().copied().eq(0..16));
    let tight = searched(&bytes, MOST_PLACES - 1, 16);
    assert_eq!(tight.answer, answer(Outcome::NoRoom, MOST_PLACES - 1, 0));
    sheet.goal = 0;
    let after = searched(&bytes_of(&sheet), MOST_PLACES + 1, 16);
    assert_eq!(after.answer, answer(Outcome::NoPlan, MOST_PLACES, 0));
    after.assert_rest_untouched();
}

#[test]
fn a_goal_in_the_last_place_that_counts_and_in_the_next() {
    // Of 17 switches, 65,536 choices have at most eight; the last of them has the highest eight,
    // and the next choice has the lowest nine.
    let last = searched(&bytes_of(&switches(17, |s| s >= 9)), MOST_PLACES + 1, 20);
    assert_eq!(last.answer, answer(Outcome::Plan, MOST_PLACES, 8));
    assert!(last.plan_found().iter().copied().eq(9..17));
    last.assert_rest_untouched();
    let next = searched(&bytes_of(&switches(17, |s| s < 9)), MOST_PLACES + 1, 20);
    assert_eq!(next.answer, answer(Outcome::NoRoom, MOST_PLACES, 0));
    assert_eq!(next.store, last.store);
    next.assert_rest_untouched();
}

#[test]
fn a_plan_as_long_as_the_store_allows() {
    let states = 64;
    let sheet = Sheet::from_rule((states, 1), 1, 1 << 63, |_, state| {
        1 << (state + 1).min(states - 1)
    });
    let bytes = bytes_of(&sheet);
    let after = searched(&bytes, 64, 63);
    assert_eq!(after.answer, answer(Outcome::Plan, 64, 63));
    assert_eq!(after.plan, [0; 63]);
    assert_eq!(
        searched(&bytes, 63, 63).answer,
        answer(Outcome::NoRoom, 63, 0)
    );
    assert_eq!(
        searched(&bytes, 64, 62).answer,
        answer(Outcome::Long, 64, 63)
    );
}
