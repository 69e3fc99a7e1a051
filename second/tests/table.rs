//! Every row of the scope's table of examples, and what stands around it.

mod common;

use common::{answer, bytes_of, refused, searched, After, BLANK, FILL};
use second::examples::bench;
use second::judge::{judge, Judgement};
use second::printing;
use second::search::{Outcome, Record};
use second::sheet::{self, Refusal, Sheet};

const S: [u8; 55] = [
    0x01, 0, 0, 0, 0x32, 0x02, 0x02, //
    0, 0, 0, 0, 0, 0, 0, 3, //
    0, 0, 0, 0, 0, 0, 0, 1, //
    0, 0, 0, 0, 0, 0, 0, 2, //
    0, 0, 0, 0, 0, 0, 0, 1, //
    0, 0, 0, 0, 0, 0, 0, 1, //
    0, 0, 0, 0, 0, 0, 0, 1,
];

fn record(set: u64, parent: u32, command: u8) -> Record {
    Record {
        set,
        parent,
        command,
    }
}

/// Searches with this room and a plan buffer of four bytes.
fn in_room(sheet: &Sheet, places: usize) -> After {
    searched(&bytes_of(sheet), places, 4)
}

fn judged(sheet: &Sheet, plan: &[u8]) -> Judgement {
    judge(&bytes_of(sheet), plan)
}

#[test]
fn s_has_the_bytes_shown() {
    assert_eq!(bytes_of(&bench::s()), S);
    assert_eq!(sheet::read(&S), Ok(bench::s()));
}

#[test]
fn the_program_prints_the_plan_of_s() {
    assert_eq!(printing::line(&S), "PLAN 2 1 1\n");
}

#[test]
fn s_room_2() {
    let after = in_room(&bench::s(), 2);
    assert_eq!(after.answer, answer(Outcome::Plan, 2, 1));
    assert_eq!(after.answer.place(), 0);
    assert_eq!(after.plan, [1, FILL, FILL, FILL]);
    assert_eq!(after.store, [record(3, 0, 255), record(1, 0, 1)]);
}

#[test]
fn s_room_1() {
    let after = in_room(&bench::s(), 1);
    assert_eq!(after.answer, answer(Outcome::NoRoom, 1, 0));
    assert_eq!(after.answer.refusal(), Some(Refusal::new(13, 0)));
    assert_eq!(after.store, [record(3, 0, 255)]);
    assert_eq!(after.plan, [FILL; 4]);
}

#[test]
fn s_room_0() {
    let after = in_room(&bench::s(), 0);
    assert_eq!(after.answer, answer(Outcome::NoRoom, 0, 0));
    assert_eq!(after.answer.refusal(), Some(Refusal::new(13, 0)));
    assert_eq!(after.plan, [FILL; 4]);
}

#[test]
fn s_room_2_empty_plan_buffer() {
    let after = searched(&S, 2, 0);
    assert_eq!(after.answer, answer(Outcome::Long, 2, 1));
    assert_eq!(after.answer.refusal(), Some(Refusal::new(14, 1)));
    assert_eq!(after.store, [record(3, 0, 255), record(1, 0, 1)]);
}

#[test]
fn s_with_command_0_only_room_1() {
    let after = in_room(&bench::swap_only(), 1);
    assert_eq!(after.answer, answer(Outcome::NoPlan, 1, 0));
    assert_eq!(after.answer.refusal(), None);
    assert_eq!(after.store, [record(3, 0, 255)]);
}

#[test]
fn s_with_command_0_only_from_state_0_to_state_1() {
    let after = in_room(&bench::swap_from_0_to_1(), 4);
    assert_eq!(after.answer, answer(Outcome::Plan, 2, 1));
    assert_eq!(after.plan_found(), [0]);
    let kept = [record(1, 0, 255), record(2, 0, 0), BLANK, BLANK];
    assert_eq!(after.store, kept);
}

#[test]
fn s_with_goal_3() {
    let after = in_room(&bench::s_with_goal(3), 4);
    assert_eq!(after.answer, answer(Outcome::Plan, 1, 0));
    assert_eq!(after.store, [record(3, 0, 255), BLANK, BLANK, BLANK]);
    assert_eq!(after.plan, [FILL; 4]);
}

#[test]
fn s_with_goal_0_room_3() {
    let after = in_room(&bench::s_with_goal(0), 3);
    assert_eq!(after.answer, answer(Outcome::NoPlan, 3, 0));
    let kept = [record(3, 0, 255), record(1, 0, 1), record(2, 1, 0)];
    assert_eq!(after.store, kept);
}

#[test]
fn s_with_goal_0_room_2() {
    let after = in_room(&bench::s_with_goal(0), 2);
    assert_eq!(after.answer, answer(Outcome::NoRoom, 2, 0));
    assert_eq!(after.sets(), [3, 1]);
}

#[test]
fn s_judge_plan_1() {
    let judgement = judged(&bench::s(), &[1]);
    assert_eq!(judgement, Judgement::good(1));
    assert_eq!((judgement.states, judgement.place()), (1, 0));
}

#[test]
fn s_judge_empty_plan() {
    let judgement = judged(&bench::s(), &[]);
    assert_eq!(judgement, Judgement::refused(Refusal::new(12, 0), 3));
    assert_eq!(judgement.states, 2);
}

#[test]
fn s_judge_1_then_7() {
    let judgement = judged(&bench::s(), &[1, 7]);
    assert_eq!(judgement, Judgement::refused(Refusal::new(10, 1), 0));
    assert_eq!(judgement.states, 0);
}

#[test]
fn s_with_command_1_impossible_in_state_1_judge_plan_1() {
    let judgement = judged(&bench::s_half_possible(), &[1]);
    assert_eq!(judgement, Judgement::refused(Refusal::new(11, 0), 3));
    assert_eq!(judgement.states, 2);
}

#[test]
fn one_command_that_may_stay() {
    let after = in_room(&bench::may_leave(), 4);
    assert_eq!(after.answer, answer(Outcome::NoPlan, 2, 0));
    assert_eq!(after.sets(), [1, 3]);
}

#[test]
fn two_commands_that_lead_to_state_1() {
    let after = in_room(&bench::both_lead_to_1(), 4);
    assert_eq!(after.answer, answer(Outcome::Plan, 2, 1));
    assert_eq!(after.plan_found(), [0]);
    assert_eq!(after.sets(), [1, 2]);
}

#[test]
fn version_2_with_a_wrong_length() {
    let bytes = bench::version_2_wrong_length();
    assert_eq!(sheet::read(&bytes), refused(2, 0));
    assert_eq!(printing::line(&bytes), "BAD 2 0\n");
}

#[test]
fn second_following_set_4() {
    let bytes = bench::second_set_4();
    assert_eq!(sheet::read(&bytes), refused(8, 31));
    assert_eq!(printing::line(&bytes), "BAD 8 31\n");
}

#[test]
fn no_bytes() {
    assert_eq!(sheet::read(&[]), refused(1, 0));
    assert_eq!(printing::line(&[]), "BAD 1 0\n");
}
