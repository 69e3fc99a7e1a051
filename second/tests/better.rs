//! The better of two plans, handed back as the caller's own bytes.

mod common;

use common::{bytes_of, random_sheet};
use second::better::better;
use second::examples::bench;
use second::judge::judge;
use second::random::Random;

/// Whether this is the very same part of memory, not just equal bytes.
fn same(part: &[u8], plan: &[u8]) -> bool {
    std::ptr::eq(part, plan)
}

#[test]
fn the_shorter_good_plan() {
    let s = bytes_of(&bench::s());
    let (short, long): (&[u8], &[u8]) = (&[1], &[0, 1]);
    assert!(same(better(&s, short, long), short));
    assert!(same(better(&s, long, short), short));
}

#[test]
fn the_first_of_two_equally_long() {
    let s = bytes_of(&bench::s());
    let (one, other) = (vec![0, 1], vec![1, 1]);
    assert!(same(better(&s, &one, &other), &one));
    assert!(same(better(&s, &other, &one), &other));
    let twin = one.clone();
    assert!(same(better(&s, &one, &twin), &one));
    assert!(same(better(&s, &twin, &one), &twin));
}

#[test]
fn the_only_good_one() {
    let s = bytes_of(&bench::s());
    let bad: [&[u8]; 4] = [&[], &[0], &[7], &[1, 0]];
    let good: &[u8] = &[0, 0, 1];
    for plan in bad {
        assert!(same(better(&s, plan, good), good));
        assert!(same(better(&s, good, plan), good));
    }
}

#[test]
fn the_first_plan_s_empty_start() {
    let s = bytes_of(&bench::s());
    let (one, other): (&[u8], &[u8]) = (&[0, 0], &[7]);
    assert!(same(better(&s, one, other), &one[..0]));
    assert!(same(better(&s, other, one), &other[..0]));
    let good: &[u8] = &[1];
    assert!(same(better(&bench::second_set_4(), good, one), &good[..0]));
    assert!(same(better(&[], good, good), &good[..0]));
}

#[test]
fn the_empty_plan_when_it_is_good() {
    let sheet = bytes_of(&bench::s_with_goal(3));
    let (none, one): (&[u8], &[u8]) = (&[], &[1]);
    assert!(same(better(&sheet, one, none), none));
    assert!(same(better(&sheet, none, one), none));
}

#[test]
fn random_pairs() {
    let mut random = Random::new(21);
    for _ in 0..3_000 {
        let sheet = random_sheet(&mut random, 4, 3);
        let bytes = bytes_of(&sheet);
        let lengths = [random.below(5) as usize, random.below(5) as usize];
        let first = random.plan(sheet.commands, lengths[0]);
        let second = random.plan(sheet.commands, lengths[1]);
        let chosen = better(&bytes, &first, &second);
        let good: Vec<&[u8]> = [first.as_slice(), &second]
            .into_iter()
            .filter(|plan| judge(&bytes, plan).is_good())
            .collect();
        match good.iter().min_by_key(|plan| plan.len()) {
            Some(best) => assert!(same(chosen, best)),
            None => assert!(same(chosen, &first[..0])),
        }
    }
}
