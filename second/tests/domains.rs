//! The published domains: the shortest lengths in the paper's tables, and the number of sets listed
//! until the first plan, recorded from this program and checked by formula where there is one.

mod common;

use common::{bytes_of, searched, After};
use second::examples::{self, bomb, grid, limits, ring, robot, scanner, tray};
use second::judge::{judge, Verdict};
use second::search::Outcome;
use second::sheet::{read, Refusal, Sheet};

/// Searches with room enough and wants a good plan of this length with this count.
fn assert_found(sheet: &Sheet, length: usize, count: usize) -> After {
    let bytes = bytes_of(sheet);
    let after = searched(&bytes, 4_096, 4_096);
    assert_eq!(after.answer.outcome, Outcome::Plan);
    assert_eq!((after.answer.length, after.answer.count), (length, count));
    assert!(judge(&bytes, after.plan_found()).is_good());
    after.assert_rest_untouched();
    after
}

#[test]
fn the_first_mistake_is_refused_and_the_reset_is_not() {
    let sheet = scanner::scanner();
    let refused = judge(&bytes_of(&sheet), &[scanner::EJECT, scanner::CLOSE]);
    assert_eq!(refused.verdict, Verdict::Refused(Refusal::new(11, 1)));
    let after = assert_found(&sheet, 3, 5);
    let reset = [scanner::RELEASE, scanner::EJECT, scanner::CLOSE];
    assert_eq!(after.plan_found(), reset);
}

#[test]
fn bt_needs_every_package_once() {
    for p in 4..=10 {
        let after = assert_found(&bomb::bt(p), p as usize, 1 << p);
        assert!(after.plan_found().iter().copied().eq(0..p as u8));
    }
}

#[test]
fn btc_and_btuc_need_a_flush_between_two_packages() {
    for p in 4..=9 {
        for sheet in [bomb::btc(p), bomb::btuc(p)] {
            let count = (1 << (p + 1)) - 2;
            let after = assert_found(&sheet, 2 * p as usize - 1, count);
            let flush = p as u8;
            let dunks = after.plan_found().iter().step_by(2);
            let between = after.plan_found().iter().skip(1).step_by(2);
            assert!(dunks.copied().eq(0..flush));
            assert!(between.into_iter().all(|command| *command == flush));
        }
    }
}

#[test]
fn square_corner_needs_twice_k() {
    let counts = [70, 160, 316, 566, 939];
    for (k, count) in (3..=7).zip(counts) {
        let after = assert_found(&grid::square_corner(k), 2 * k as usize, count);
        let (west, north) = after.plan_found().split_at(k as usize);
        assert!(west.iter().all(|command| *command == 0));
        assert!(north.iter().all(|command| *command == 2));
    }
}

#[test]
fn square_side_and_center() {
    assert_found(&grid::square_side(3), 7, 88);
    assert_found(&grid::square_side(5), 12, 408);
    assert_found(&grid::square_side(7), 17, 1_221);
    assert_found(&grid::square_center(3), 8, 97);
    assert_found(&grid::square_center(5), 14, 438);
    assert_found(&grid::square_center(7), 20, 1_293);
}

#[test]
fn cube_corner_and_edge() {
    assert_found(&grid::cube_corner(3), 9, 778);
    assert_found(&grid::cube_edge(3), 10, 899);
}

#[test]
fn rooms_list_one_set_for_each_box() {
    for (sheet, sets) in [
        (grid::square_corner(3), 10 * 10),
        (grid::square_corner(7), 36 * 36),
        (grid::cube_corner(3), 10 * 10 * 10),
    ] {
        let bytes = bytes_of(&Sheet { goal: 0, ..sheet });
        let answer = searched(&bytes, 2_000, 0).answer;
        assert_eq!((answer.outcome, answer.count), (Outcome::NoPlan, sets));
    }
}

#[test]
fn rings_of_two_rooms() {
    use ring::Windows::{Moving, Still};
    let det = assert_found(&ring::ring(Still), 5, 9);
    assert_eq!(det.plan_found(), [2, 3, 0, 2, 3]);
    let nd = assert_found(&ring::ring(Moving), 5, 6);
    assert_eq!(nd.plan_found(), [2, 3, 0, 2, 3]);
    assert_found(&ring::ring_with_key(Still), 8, 21);
    assert_found(&ring::ring_with_key(Moving), 8, 12);
}

#[test]
fn the_robot_s_room() {
    let goal = robot::place(3, 1) | robot::place(3, 2);
    let initial = robot::place(0, 1) | robot::place(0, 2);
    let after = assert_found(&robot::room(initial, goal), 6, 27);
    assert_eq!(after.plan_found(), [2, 2, 1, 1, 1, 3]);
    assert_found(&robot::room(robot::place(0, 1), goal), 5, 15);
    assert_found(&robot::room(robot::place(0, 2), goal), 5, 24);
}

#[test]
fn the_tray() {
    let to_0 = bytes_of(&tray::tray(u64::MAX, 1));
    let after = searched(&to_0, 1_296, 14);
    assert_eq!(after.answer.outcome, Outcome::Plan);
    assert_eq!(after.plan, [0, 0, 0, 0, 0, 0, 0, 2, 2, 2, 2, 2, 2, 2]);
    let no_goal = bytes_of(&tray::tray(u64::MAX, 0));
    let answer = searched(&no_goal, 1_296, 0).answer;
    assert_eq!((answer.outcome, answer.count), (Outcome::NoPlan, 1_296));
    let answer = searched(&no_goal, 1_295, 0).answer;
    assert_eq!((answer.outcome, answer.count), (Outcome::NoRoom, 1_295));
}

#[test]
fn the_tray_is_the_square_of_eight() {
    let tray = tray::tray(u64::MAX, 1);
    assert_eq!(tray.following.len(), 256);
    assert_eq!(tray, grid::square_corner(7));
}

#[test]
fn the_tray_stops_at_its_edges() {
    let tray = tray::tray(1, 1);
    for pocket in 0..64 {
        let (row, column) = (pocket / 8, pocket % 8);
        let to = |row: u64, column: u64| 1 << (8 * row + column);
        assert_eq!(tray.set(0, pocket), to(row, column.max(1) - 1));
        assert_eq!(tray.set(1, pocket), to(row, column.min(6) + 1));
        assert_eq!(tray.set(2, pocket), to(row.max(1) - 1, column));
        assert_eq!(tray.set(3, pocket), to(row.min(6) + 1, column));
    }
}

#[test]
fn thirteen_slots_need_every_place() {
    let sheet = bytes_of(&limits::slots());
    let after = searched(&sheet, 8_192, 13);
    assert_eq!(after.answer.outcome, Outcome::Plan);
    assert_eq!(after.plan, [0, 1, 2, 3, 4, 5, 6, 7, 8, 9, 10, 11, 12]);
    let answer = searched(&sheet, 8_191, 13).answer;
    assert_eq!((answer.outcome, answer.count), (Outcome::NoRoom, 8_191));
}

#[test]
fn names_are_distinct_and_only_five_are_refused() {
    let all = examples::all();
    let mut names: Vec<&str> = all.iter().map(|e| e.name.as_str()).collect();
    names.sort_unstable();
    names.dedup();
    assert_eq!(names.len(), all.len());
    let refused = all.iter().filter(|e| read(&e.bytes).is_err()).count();
    assert_eq!(refused, 5);
}
