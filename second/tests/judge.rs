//! The judge: refusals and sets, the paper's running example, long plans, and the judge by single
//! runs as a check.

mod common;

use common::{bytes_of, random_sheet};
use second::examples::robot::{place, room, EAST, NORTH, SOUTH};
use second::examples::{self, bench, bomb, tray};
use second::judge::{judge, Judgement};
use second::naive::judge_by_runs;
use second::random::Random;
use second::sheet::{read, Refusal, Sheet};

fn judged(sheet: &Sheet, plan: &[u8]) -> Judgement {
    judge(&bytes_of(sheet), plan)
}

fn refused(number: u8, place: u64, set: u64) -> Judgement {
    Judgement::refused(Refusal::new(number, place), set)
}

/// The plan of the paper's third example.
const AROUND: [u8; 6] = [SOUTH, EAST, EAST, EAST, SOUTH, NORTH];
/// The first plan of its second example.
const NORTH_FIRST: [u8; 5] = [NORTH, EAST, EAST, EAST, SOUTH];
/// The second plan of its second example.
const STRAIGHT: [u8; 4] = [EAST, EAST, EAST, SOUTH];

#[test]
fn the_robot_s_plan_is_good() {
    let goal = place(3, 1) | place(3, 2);
    let both = room(place(0, 1) | place(0, 2), goal);
    assert_eq!(judged(&both, &AROUND), Judgement::good(goal));
    assert_eq!(
        judge_by_runs(&bytes_of(&both), &AROUND),
        Judgement::good(goal)
    );
}

#[test]
fn the_robot_s_sets_on_the_way() {
    let both = room(place(0, 1) | place(0, 2), 0);
    let met = [
        place(0, 1) | place(0, 2),
        place(0, 2) | place(0, 3),
        place(1, 2) | place(1, 3),
        place(2, 2) | place(2, 3),
        place(3, 1) | place(3, 2) | place(3, 3),
        place(3, 2) | place(3, 3),
        place(3, 1) | place(3, 2),
    ];
    for (length, set) in met.into_iter().enumerate() {
        let judgement = judged(&both, &AROUND[..length]);
        assert_eq!(judgement, refused(12, length as u64, set));
    }
}

#[test]
fn the_robot_s_other_plans() {
    let goal = place(3, 1) | place(3, 2);
    let from_1 = room(place(0, 1), goal);
    let from_2 = room(place(0, 2), goal);
    assert_eq!(judged(&from_1, &NORTH_FIRST), Judgement::good(place(3, 1)));
    assert_eq!(judged(&from_2, &NORTH_FIRST), refused(11, 1, place(0, 1)));
    assert_eq!(judged(&from_1, &STRAIGHT), refused(11, 0, place(0, 1)));
    let ends = place(3, 2) | place(3, 3);
    assert_eq!(judged(&from_2, &STRAIGHT), refused(12, 4, ends));
}

#[test]
fn nothing_leads_into_the_robot_s_hole_or_out_of_it() {
    let sheet = room(1, 1);
    let hole = place(1, 1);
    assert!(sheet.following.iter().all(|set| set & hole == 0));
    for command in 0..4 {
        assert_eq!(sheet.image(command, hole), None);
    }
    let impossible = sheet.following.iter().filter(|set| **set == 0).count();
    assert_eq!(impossible, 4 + 4 + 2);
}

#[test]
fn bytes_that_are_no_command() {
    let s = bench::s();
    assert_eq!(judged(&s, &[2]), refused(10, 0, 0));
    assert_eq!(judged(&s, &[255]), refused(10, 0, 0));
    assert_eq!(judged(&s, &[1, 1, 2, 255]), refused(10, 2, 0));
    let half = bench::s_half_possible();
    assert_eq!(judged(&half, &[1, 1, 2]), refused(10, 2, 0));
    let largest = Sheet::from_rule((64, 32), 1, 1, |_, _| 1);
    assert_eq!(judged(&largest, &[31]), Judgement::good(1));
    assert_eq!(judged(&largest, &[31, 32]), refused(10, 1, 0));
}

#[test]
fn a_refused_sheet_comes_first() {
    for plan in [&[][..], &[1], &[1, 7]] {
        assert_eq!(judge(&bench::second_set_4(), plan), refused(8, 31, 0));
        assert_eq!(
            judge(&bench::version_2_wrong_length(), plan),
            refused(2, 0, 0)
        );
        assert_eq!(judge(&[], plan), refused(1, 0, 0));
    }
}

#[test]
fn passing_the_goal_does_not_count() {
    assert_eq!(judged(&bench::s(), &[1, 0]), refused(12, 2, 2));
    assert_eq!(judged(&bench::s(), &[1, 0, 0]), Judgement::good(1));
}

#[test]
fn arriving_under_some_outcomes_does_not_count() {
    let sheet = bench::may_leave();
    for length in 0..6 {
        let set = if length == 0 { 1 } else { 3 };
        let judgement = judged(&sheet, &vec![0; length]);
        assert_eq!(judgement, refused(12, length as u64, set));
    }
}

#[test]
fn an_impossible_command_is_refused_even_where_the_rest_would_arrive() {
    let sheet = bench::s_half_possible();
    assert_eq!(judged(&sheet, &[0, 1]), refused(11, 1, 3));
    let from_0 = Sheet {
        initial: 1,
        ..sheet
    };
    assert_eq!(judged(&from_0, &[1, 0, 1]), refused(11, 2, 2));
    assert_eq!(judged(&from_0, &[1, 0, 0, 1]), Judgement::good(1));
}

#[test]
fn a_command_impossible_everywhere_has_no_image() {
    let sheet = Sheet::from_rule((3, 1), 7, 7, |_, _| 0);
    assert_eq!(judged(&sheet, &[]), Judgement::good(7));
    assert_eq!(judged(&sheet, &[0]), refused(11, 0, 7));
}

#[test]
fn an_empty_goal_has_no_good_plan() {
    let sheet = bench::s_with_goal(0);
    assert_eq!(judged(&sheet, &[]), refused(12, 0, 3));
    assert_eq!(judged(&sheet, &[1]), refused(12, 1, 1));
}

#[test]
fn long_plans() {
    let tray = tray::tray(u64::MAX, 1);
    let mut plan = vec![0; 5_000];
    plan.extend(vec![2; 5_000]);
    assert_eq!(judged(&tray, &plan), Judgement::good(1));
    plan.push(3);
    assert_eq!(judged(&tray, &plan), refused(12, 10_001, 1 << 8));
    let all = judged(&tray, &[]);
    assert_eq!(all, refused(12, 0, u64::MAX));
    assert_eq!(all.states, 64);
    assert_eq!(judged(&tray, &[0; 255]).states, 8);
}

#[test]
fn a_clogged_toilet_takes_no_package() {
    let plan = [0, 1];
    assert!(judged(&bomb::bt(2), &plan).is_good());
    assert_eq!(
        judged(&bomb::btc(2), &plan),
        refused(11, 1, 1 << 5 | 1 << 6)
    );
    let mixed = 1 << 1 | 1 << 2 | 1 << 5 | 1 << 6;
    assert_eq!(judged(&bomb::btuc(2), &plan), refused(11, 1, mixed));
    assert!(judged(&bomb::btuc(2), &[0, 2, 1]).is_good());
}

/// Judges in both ways and wants the same answer.
fn assert_agree(bytes: &[u8], plan: &[u8]) -> Judgement {
    let by_sets = judge(bytes, plan);
    assert_eq!(by_sets, judge_by_runs(bytes, plan), "{bytes:?} {plan:?}");
    by_sets
}

#[test]
fn both_judges_agree_on_random_sheets() {
    let mut random = Random::new(11);
    let mut met = [0; 16];
    for _ in 0..12_000 {
        let sheet = random_sheet(&mut random, 5, 4);
        let length = random.below(6) as usize;
        let mut plan = random.plan(sheet.commands, length);
        if random.percent(10) && length > 0 {
            plan[random.below(length as u64) as usize] = random.number() as u8;
        }
        let judgement = assert_agree(&bytes_of(&sheet), &plan);
        let number = match judgement.verdict {
            second::judge::Verdict::Good => 0,
            second::judge::Verdict::Refused(refusal) => refusal.number,
        };
        met[number as usize] += 1;
    }
    for number in [0, 10, 11, 12] {
        assert!(met[number] > 500, "{met:?}");
    }
}

#[test]
fn both_judges_agree_on_wide_sheets() {
    let mut random = Random::new(12);
    for _ in 0..600 {
        let sheet = random_sheet(&mut random, 64, 32);
        let length = random.below(3) as usize;
        let plan = random.plan(sheet.commands, length);
        assert_agree(&bytes_of(&sheet), &plan);
    }
}

#[test]
fn both_judges_agree_on_the_examples() {
    let mut random = Random::new(13);
    for example in examples::all() {
        let commands = read(&example.bytes).map_or(3, |sheet| sheet.commands);
        for length in 0..4 {
            let plan = random.plan(commands, length);
            assert_agree(&example.bytes, &plan);
        }
    }
}
