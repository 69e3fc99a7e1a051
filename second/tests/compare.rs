//! The comparison: what its cases meet, that it finds a side that is wrong, and how small it makes
//! the case that shows it.

use second::compare::call::{differs, perform, Call, Work};
use second::compare::maker::{made, Kind, KINDS};
use second::compare::run::{compare, options, run, Options};
use second::compare::shrink::shrink;
use second::compare::side::{Ours, Searches, Side};
use second::compare::tally::Tally;
use second::examples::bench;
use second::search::{Record, MOST_PLACES};
use second::sheet::{read, Sheet};

/// Every way in which the searches can be there.
const BOTH: Searches = Searches {
    lent: true,
    own: true,
};
const OWN: Searches = Searches {
    lent: false,
    own: true,
};

/// What is wrong with a side. All else is as it should be.
#[derive(Clone, Copy, PartialEq)]
enum Fault {
    Nothing,
    /// The goal's missing states are not looked at.
    ReadsAnyGoal,
    /// A set past the last state of a command is that of the next command.
    ViewsPastTheStates,
    /// One byte more than the sheet has is written, if there is room for it.
    WritesOneMore,
    /// The bytes needed are not told.
    AnswersWithoutPlace,
    /// Commands that only some states can take are sent.
    SendsToSome,
    /// The second of two equally long plans is taken.
    PrefersTheSecond,
    /// A full store is 'no room' though nothing new is left.
    FullIsNoRoom,
    /// The place after the last one that counts is cleared.
    ClearsOneMore,
    /// The own store is one place short.
    OwnStoreTooSmall,
}

struct Wrong(Fault);

impl Side for Wrong {
    fn read(&self, sheet: &[u8], answer: &mut [u64; 6]) {
        Ours.read(sheet, answer);
        if self.0 == Fault::ReadsAnyGoal && answer[0] == 7 {
            let mut without_goal = sheet.to_vec();
            without_goal[15..23].fill(0);
            Ours.read(&without_goal, answer);
        }
    }

    fn write(&self, head: &[u64; 4], sets: &[u64], output: &mut [u8], answer: &mut [u64; 3]) {
        Ours.write(head, sets, output, answer);
        if self.0 == Fault::WritesOneMore && answer[0] == 0 {
            if let Some(next) = output.get_mut(answer[2] as usize) {
                *next = 0;
            }
        }
        if self.0 == Fault::AnswersWithoutPlace && answer[0] == 9 {
            answer[1] = 0;
        }
    }

    fn following(&self, sheet: &[u8], command: u64, state: u64, answer: &mut [u64; 2]) {
        let states = read(sheet).map_or(0, |sheet| sheet.states);
        let past = state >= states && state < 2 * states;
        if self.0 == Fault::ViewsPastTheStates && past && command < 31 {
            Ours.following(sheet, command + 1, state - states, answer);
        } else {
            Ours.following(sheet, command, state, answer);
        }
    }

    fn judge(&self, sheet: &[u8], plan: &[u8], answer: &mut [u64; 4]) {
        Ours.judge(sheet, plan, answer);
        if self.0 == Fault::SendsToSome && answer[0] == 11 {
            answer[0] = 12;
        }
    }

    fn better(&self, sheet: &[u8], first: &[u8], second: &[u8]) -> u8 {
        let choice = Ours.better(sheet, first, second);
        let other = Ours.better(sheet, second, first);
        let level = (choice, other, first.len()) == (1, 1, second.len());
        if self.0 == Fault::PrefersTheSecond && level {
            2
        } else {
            choice
        }
    }

    fn searches(&self) -> Searches {
        let own = self.0 == Fault::OwnStoreTooSmall;
        Searches { lent: !own, own }
    }

    fn search(&self, sheet: &[u8], store: &mut [Record], plan: &mut [u8], answer: &mut [u64; 4]) {
        Ours.search(sheet, store, plan, answer);
        let [number, _, count, _] = *answer;
        let full = number == 255 && count as usize == store.len().min(MOST_PLACES);
        if self.0 == Fault::FullIsNoRoom && full {
            answer[0] = 13;
        }
        if self.0 == Fault::ClearsOneMore && number < 15 && count > 0 {
            if let Some(next) = store.get_mut(count as usize) {
                next.command = 0;
            }
        }
    }

    fn search_here(&self, sheet: &[u8], plan: &mut [u8], answer: &mut [u64; 4]) {
        let blank = Record {
            set: 0,
            parent: 0,
            command: 0,
        };
        Ours.search(sheet, &mut [blank; 4_095], plan, answer);
    }
}

/// Cases 0 to `end` of a seed, on one thread.
fn cases(seed: u64, end: u64) -> Options {
    Options {
        seed,
        cases: 0..end,
        threads: 1,
    }
}

/// Finds a mismatch with a side that has this fault, and shrinks it.
fn smallest(fault: Fault) -> Work {
    let wrong = Wrong(fault);
    let (_, mismatch) = run(&cases(3, 20_000), [&Ours, &wrong]);
    let call = mismatch.expect("the fault is found").call;
    let smallest = shrink(&call, &|call| differs(&Ours, &wrong, call));
    assert!(differs(&Ours, &wrong, &smallest));
    smallest.work
}

#[test]
fn each_kind_and_each_refusal_is_met_often() {
    for searches in [BOTH, OWN] {
        let mut tally = Tally::default();
        for index in 0..4_000 {
            let made = made(1, index, searches);
            tally.case(made.kind);
            for call in made.calls {
                tally.call(&call.work, &perform(&Ours, &call));
            }
        }
        assert_eq!(tally.met_less_than(4), [""; 0], "{tally}");
    }
}

#[test]
fn a_case_can_be_made_again() {
    for index in [0, 1, 250, 777, 123_456_789, u64::MAX] {
        assert_eq!(made(5, index, BOTH), made(5, index, BOTH));
        assert_ne!(made(5, index, BOTH).calls, made(6, index, BOTH).calls);
    }
}

#[test]
fn only_the_searches_that_are_there_are_called() {
    for index in 0..1_500 {
        for call in made(2, index, OWN).calls {
            assert!(!matches!(call.work, Work::Search { .. }));
        }
    }
}

#[test]
fn a_sweep_changes_each_byte_in_every_way() {
    let sweep = made(1, 250, BOTH);
    assert_eq!(sweep.kind, Kind::Sweep);
    let reads = sweep.calls.iter().filter_map(|call| match &call.work {
        Work::Read { sheet } => Some(sheet),
        _ => None,
    });
    let reads: Vec<&Vec<u8>> = reads.collect();
    let length = reads[0].len();
    assert_eq!(reads.len(), 255 * length);
    let mut distinct = reads.clone();
    distinct.sort();
    distinct.dedup();
    assert_eq!(distinct.len(), reads.len());
    assert!(reads.iter().all(|bytes| bytes.len() == length));
}

#[test]
fn a_store_comes_to_its_limit_now_and_then() {
    for (searches, limit) in [(BOTH, 65_536), (OWN, 4_096)] {
        for index in [10_000, 30_000, 50_000] {
            let call = &made(1, index, searches).calls[0];
            let seen = perform(&Ours, call);
            let [_, _, count, _] = seen.answer.part() else {
                panic!("this case is a search");
            };
            assert!((limit - 3..=limit).contains(count), "{count}");
        }
    }
}

#[test]
fn a_side_without_a_fault_is_not_blamed() {
    let (tally, mismatch) = run(&cases(4, 2_000), [&Ours, &Wrong(Fault::Nothing)]);
    assert_eq!((mismatch, tally.cases), (None, 2_000));
}

#[test]
fn a_goal_that_is_not_looked_at() {
    let Work::Read { sheet } = smallest(Fault::ReadsAnyGoal) else {
        panic!("another kind");
    };
    assert_eq!(sheet.len(), 31);
    assert_eq!(sheet[5..7], [1, 1]);
    assert_eq!(read(&sheet).unwrap_err().number, 7);
}

#[test]
fn a_view_past_the_states() {
    let Work::View {
        sheet,
        command,
        state,
    } = smallest(Fault::ViewsPastTheStates)
    else {
        panic!("another kind");
    };
    assert_eq!((sheet.len(), command, state), (39, 0, 1));
}

#[test]
fn a_writer_that_writes_one_byte_more() {
    let Work::Write { numbers, room } = smallest(Fault::WritesOneMore) else {
        panic!("another kind");
    };
    let Sheet {
        states, commands, ..
    } = numbers;
    assert_eq!((states, commands, room), (1, 1, 32));
}

#[test]
fn a_wrong_place() {
    let Work::Write { numbers, room } = smallest(Fault::AnswersWithoutPlace) else {
        panic!("another kind");
    };
    assert_eq!((numbers.following.len(), room), (1, 0));
}

#[test]
fn a_judge_that_sends_to_some() {
    let Work::Judge { sheet, plan } = smallest(Fault::SendsToSome) else {
        panic!("another kind");
    };
    assert_eq!((sheet.len(), plan.len()), (31, 1));
}

#[test]
fn a_choice_of_the_second() {
    let Work::Better {
        sheet,
        first,
        second,
    } = smallest(Fault::PrefersTheSecond)
    else {
        panic!("another kind");
    };
    assert_eq!((sheet.len(), first.len(), second.len()), (31, 0, 0));
}

#[test]
fn a_full_store_taken_for_no_room() {
    let Work::Search {
        sheet,
        places,
        plan_bytes,
    } = smallest(Fault::FullIsNoRoom)
    else {
        panic!("another kind");
    };
    assert_eq!((sheet.len(), places, plan_bytes), (31, 1, 0));
}

#[test]
fn a_search_that_touches_the_next_place() {
    let Work::Search {
        sheet,
        places,
        plan_bytes,
    } = smallest(Fault::ClearsOneMore)
    else {
        panic!("another kind");
    };
    assert_eq!((sheet.len(), places, plan_bytes), (31, 2, 0));
}

#[test]
fn an_own_store_that_is_too_small() {
    let wrong = Wrong(Fault::OwnStoreTooSmall);
    let (_, mismatch) = run(&cases(3, 20_000), [&Ours, &wrong]);
    assert_eq!(mismatch.expect("the fault is found").kind, Kind::Search);
}

#[test]
fn the_first_mismatch_is_the_same_on_any_number_of_threads() {
    let wrong = Wrong(Fault::FullIsNoRoom);
    let alone = run(&cases(9, 5_000), [&Ours, &wrong]).1;
    let threads = 4;
    let four = Options {
        threads,
        ..cases(9, 5_000)
    };
    assert!(alone.is_some());
    assert_eq!(run(&four, [&Ours, &wrong]).1, alone);
}

#[test]
fn a_mismatch_is_printed_with_its_case() {
    let wrong = Wrong(Fault::SendsToSome);
    let mut out = Vec::new();
    assert!(!compare(&cases(7, 5_000), [&Ours, &wrong], &mut out).unwrap());
    let text = String::from_utf8(out).unwrap();
    assert!(text.starts_with("mismatch: --seed 7 --case "), "{text}");
    assert!(
        text.contains("smallest found:\njudge\n  sheet 01"),
        "{text}"
    );
    assert!(text.contains("answer differs at 0: second b, proved c"));
    assert!(text.contains("; mismatches 1; seconds "));
    let case: u64 = text[26..].split(',').next().unwrap().parse().unwrap();
    let again = Options {
        cases: case..case + 1,
        ..cases(7, 0)
    };
    assert!(!compare(&again, [&Ours, &wrong], &mut Vec::new()).unwrap());
}

#[test]
fn a_short_run_without_a_mismatch_is_well() {
    let mut out = Vec::new();
    assert!(compare(&cases(8, 300), [&Ours, &Ours], &mut out).unwrap());
    let text = String::from_utf8(out).unwrap();
    assert_eq!(text.lines().count(), 1);
    assert!(text.starts_with("cases 300 (read: "), "{text}");
    assert!(KINDS.iter().all(|(_, name)| text.contains(name)));
    assert!(text.contains("; mismatches 0; seconds "), "{text}");
}

#[test]
fn buffers_are_full_of_noise_and_their_surroundings_are_seen() {
    let sheet = bench::s().to_bytes().unwrap();
    let work = Work::Search {
        sheet,
        places: 40,
        plan_bytes: 40,
    };
    let seen = perform(&Ours, &Call { noise: 1, work });
    let store = seen.store.unwrap();
    let rest = &store.part()[2..];
    assert!(rest.iter().any(|record| record.set >> 32 != 0));
    assert_ne!(seen.bytes[1].part()[1..20], [0; 19]);
    assert_eq!(seen.answer.part(), [0, 0, 2, 1]);
}

#[test]
fn options_of_a_run() {
    let all = ["--seed", "3", "--cases", "10", "--threads", "2"];
    let expected = Options {
        threads: 2,
        ..cases(3, 10)
    };
    assert_eq!(options(&all), Some(expected));
    let one = options(&["--case", "7", "--seed", "0"]).unwrap();
    assert_eq!((one.seed, one.cases), (0, 7..8));
    for wrong in [
        &["--seed", "3"][..],
        &["--cases", "3"],
        &["--seed", "3", "--cases"],
        &["--seed", "x", "--cases", "3"],
        &["--seed", "3", "--sheets", "3"],
    ] {
        assert_eq!(options(wrong), None);
    }
}

/// With the archive linked, it is compared here too.
#[cfg(proved)]
#[test]
fn the_proved_archive_agrees() {
    let (tally, mismatch) = run(&cases(10, 3_000), [&Ours, &second::proved::Proved]);
    assert_eq!((mismatch, tally.cases), (None, 3_000));
}
