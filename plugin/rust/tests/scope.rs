//! The bench examples of the scope of work, the buffers that stay as lent, and the round trip of the writer.
use potuchlan::{better, following, judge, read, search, search_here, write};
use potuchlan::{Better, Found, Head, Judged, Node, Reason, Refusal, Searched};

const SWAP: [u64; 2] = [2, 1];

fn sheet(commands: usize, initial: u64, goal: u64, sets: &[u64]) -> Vec<u8> {
    let head = Head {
        states: 2,
        commands,
        initial,
        goal,
    };
    let mut out = vec![0; 23 + 8 * sets.len()];
    assert_eq!(write(head, sets, &mut out), Ok(out.len()));
    out
}

// Sheet S with that goal.
fn s(goal: u64) -> Vec<u8> {
    sheet(2, 3, goal, &[2, 1, 1, 1])
}

fn refused<T>(reason: Reason, place: usize) -> Result<T, Refusal> {
    Err(Refusal { reason, place })
}

fn answer(verdict: Result<Found<'_>, Refusal>, count: usize, length: usize) -> Searched<'_> {
    Searched {
        verdict,
        count,
        length,
    }
}

const UNTOUCHED: Node = Node {
    set: 0x5555,
    parent: 77,
    command: 99,
};

// The answer of a search with that room and plan buffer, the store's sets, and the plan buffer; the places and bytes
// that no answer fills stay as they were.
fn run(sheet: &[u8], room: usize, bytes: usize, expected: Searched<'_>, sets: &[u64]) -> Vec<Node> {
    let mut store = vec![UNTOUCHED; room];
    let mut plan = vec![0xee; bytes];
    assert_eq!(search(sheet, &mut store, &mut plan), expected);
    let found = if let Ok(Found::Plan(p)) = expected.verdict {
        p.len()
    } else {
        0
    };
    assert!(plan[found..].iter().all(|&b| b == 0xee));
    let stored: Vec<u64> = store[..expected.count].iter().map(|n| n.set).collect();
    assert_eq!(stored, sets);
    assert!(store[expected.count..].iter().all(|&n| n == UNTOUCHED));
    store.truncate(expected.count);
    store
}

#[test]
fn search_over_a_lent_store() {
    let plan = Ok(Found::Plan(&[1][..]));
    let start = Node {
        set: 3,
        parent: 0,
        command: 255,
    };
    let nodes = run(&s(1), 2, 4, answer(plan, 2, 1), &[3, 1]);
    assert_eq!(
        nodes,
        [
            start,
            Node {
                set: 1,
                parent: 0,
                command: 1
            }
        ]
    );
    run(&s(1), 4, 4, answer(plan, 2, 1), &[3, 1]);
    run(&s(1), 1, 4, answer(refused(Reason::NoRoom, 0), 1, 0), &[3]);
    run(&s(1), 0, 4, answer(refused(Reason::NoRoom, 0), 0, 0), &[]);
    run(
        &s(1),
        2,
        0,
        answer(refused(Reason::ShortPlan, 1), 2, 1),
        &[3, 1],
    );
    run(
        &sheet(1, 3, 1, &SWAP),
        1,
        4,
        answer(Ok(Found::NoPlan), 1, 0),
        &[3],
    );
    run(
        &sheet(1, 1, 2, &SWAP),
        4,
        4,
        answer(Ok(Found::Plan(&[0])), 2, 1),
        &[1, 2],
    );
    run(&s(3), 4, 4, answer(Ok(Found::Plan(&[])), 1, 0), &[3]);
    let nodes = run(&s(0), 3, 4, answer(Ok(Found::NoPlan), 3, 0), &[3, 1, 2]);
    assert_eq!(
        nodes[2],
        Node {
            set: 2,
            parent: 1,
            command: 0
        }
    );
    run(
        &s(0),
        2,
        4,
        answer(refused(Reason::NoRoom, 0), 2, 0),
        &[3, 1],
    );
    run(
        &sheet(1, 1, 2, &[3, 2]),
        4,
        4,
        answer(Ok(Found::NoPlan), 2, 0),
        &[1, 3],
    );
    run(
        &sheet(2, 1, 2, &[2, 2, 2, 2]),
        4,
        4,
        answer(Ok(Found::Plan(&[0])), 2, 1),
        &[1, 2],
    );
    run(&[], 4, 4, answer(refused(Reason::ShortInput, 0), 0, 0), &[]);
}

// Six switches, of which command c sets the c-th: all 64 states are listed, each as a set of its own, and the plan sets
// every switch. The store has more places than the search uses.
#[test]
fn search_with_many_places() {
    let switches = 6;
    let mut sets = Vec::new();
    for command in 0..switches {
        for state in 0..1u64 << switches {
            sets.push(1u64 << (state | 1 << command));
        }
    }
    let head = Head {
        states: 64,
        commands: switches,
        initial: 1,
        goal: 1 << 63,
    };
    let mut bytes = vec![0; 23 + 8 * sets.len()];
    write(head, &sets, &mut bytes).unwrap();
    let mut store = vec![UNTOUCHED; 70_000];
    let mut plan = [0xee; 8];
    let found = search(&bytes, &mut store, &mut plan);
    assert_eq!(found, answer(Ok(Found::Plan(&[0, 1, 2, 3, 4, 5])), 64, 6));
    assert!(store[64..].iter().all(|&n| n == UNTOUCHED));
}

#[test]
fn the_layout_of_a_place() {
    assert_eq!(std::mem::size_of::<Node>(), 16);
    assert_eq!(std::mem::align_of::<Node>(), 8);
    assert_eq!(std::mem::offset_of!(Node, parent), 8);
    assert_eq!(std::mem::offset_of!(Node, command), 12);
}

#[test]
fn search_in_its_own_store() {
    fn run(sheet: &[u8], bytes: usize, expected: Searched<'_>) {
        let mut plan = vec![0xee; bytes];
        assert_eq!(search_here(sheet, &mut plan), expected);
        let found = if let Ok(Found::Plan(p)) = expected.verdict {
            p.len()
        } else {
            0
        };
        assert!(plan[found..].iter().all(|&b| b == 0xee));
    }
    run(&s(1), 4, answer(Ok(Found::Plan(&[1])), 2, 1));
    run(&s(1), 0, answer(refused(Reason::ShortPlan, 1), 2, 1));
    run(&sheet(1, 3, 1, &SWAP), 4, answer(Ok(Found::NoPlan), 1, 0));
    run(
        &sheet(1, 1, 2, &SWAP),
        4,
        answer(Ok(Found::Plan(&[0])), 2, 1),
    );
    run(&s(3), 4, answer(Ok(Found::Plan(&[])), 1, 0));
    run(&s(0), 4, answer(Ok(Found::NoPlan), 3, 0));
    run(&sheet(1, 1, 2, &[3, 2]), 4, answer(Ok(Found::NoPlan), 2, 0));
    run(
        &sheet(2, 1, 2, &[2, 2, 2, 2]),
        4,
        answer(Ok(Found::Plan(&[0])), 2, 1),
    );
    run(&[], 4, answer(refused(Reason::ShortInput, 0), 0, 0));
}

#[test]
fn judge_by_the_scope() {
    fn good(set: u64, left: u32) -> Judged {
        Judged {
            verdict: Ok(()),
            set,
            left,
        }
    }
    fn bad(reason: Reason, place: usize, set: u64, left: u32) -> Judged {
        Judged {
            verdict: refused(reason, place),
            set,
            left,
        }
    }
    assert_eq!(judge(&s(1), &[1]), good(1, 1));
    assert_eq!(judge(&s(1), &[]), bad(Reason::NotInside, 0, 3, 2));
    assert_eq!(judge(&s(1), &[1, 7]), bad(Reason::NoCommand, 1, 0, 0));
    let partial = sheet(2, 3, 1, &[2, 1, 1, 0]);
    assert_eq!(judge(&partial, &[1]), bad(Reason::NotSendable, 0, 3, 2));
    assert_eq!(judge(&partial, &[1, 7]), bad(Reason::NoCommand, 1, 0, 0));
    assert_eq!(judge(&s(1), &[1, 0]), bad(Reason::NotInside, 2, 2, 1));
    assert_eq!(judge(&s(3), &[]), good(3, 2));
    assert_eq!(judge(&[], &[1]), bad(Reason::ShortInput, 0, 0, 0));
}

#[test]
fn better_hands_back_the_callers_bytes() {
    let (short, long, wrong): (&[u8], &[u8], &[u8]) = (&[1], &[0, 1], &[7]);
    let sheet = s(1);
    assert_eq!(better(&sheet, long, short), Better::Second(short));
    assert_eq!(better(&sheet, short, long), Better::First(short));
    assert_eq!(better(&sheet, short, &[1]), Better::First(short));
    assert_eq!(better(&sheet, wrong, long), Better::Second(long));
    assert_eq!(better(&sheet, long, wrong), Better::First(long));
    assert_eq!(better(&sheet, wrong, &[]), Better::Neither(&[]));
    assert_eq!(better(&[], short, long), Better::Neither(&[]));
    // neither plan is good, though an empty one would be
    assert_eq!(better(&s(3), wrong, wrong), Better::Neither(&[]));
    assert!(std::ptr::eq(better(&sheet, long, short).plan(), short));
    assert_eq!(better(&sheet, wrong, &[]).plan().as_ptr(), wrong.as_ptr());
}

#[test]
fn refusals_of_a_sheet() {
    assert_eq!(read(&[]), refused(Reason::ShortInput, 0));
    assert_eq!(read(&s(1)[..4]), refused(Reason::ShortInput, 4));
    let change = |at: usize, byte: u8| {
        let mut bytes = s(1);
        bytes[at] = byte;
        read(&bytes)
    };
    let mut version = s(1);
    (version[0], version[4]) = (2, 9);
    assert_eq!(read(&version), refused(Reason::Version, 0));
    assert_eq!(change(4, 51), refused(Reason::Length, 1));
    assert_eq!(change(5, 65), refused(Reason::Counts, 5));
    assert_eq!(change(6, 0), refused(Reason::Counts, 6));
    assert_eq!(change(6, 3), refused(Reason::Uneven, 1));
    assert_eq!(change(14, 0), refused(Reason::Initial, 7));
    assert_eq!(change(22, 4), refused(Reason::Goal, 15));
    assert_eq!(change(38, 4), refused(Reason::Following, 31));
    let refusal = change(38, 4).unwrap_err();
    assert_eq!(
        refusal.to_string(),
        "refusal 8 at 31: a following set names a missing state"
    );
}

#[test]
fn written_sheets_are_read_back() {
    for states in [1usize, 2, 3, 63, 64] {
        for commands in [1usize, 2, 31, 32] {
            let all = u64::MAX >> (64 - states);
            let head = Head {
                states,
                commands,
                initial: 1,
                goal: all,
            };
            let sets: Vec<u64> = (0..commands * states)
                .map(|i| (i as u64).wrapping_mul(0x9e37_79b9_7f4a_7c15) & all)
                .collect();
            let needed = 23 + 8 * sets.len();
            let mut out = vec![0xee; needed + 3];
            assert_eq!(write(head, &sets, &mut out), Ok(needed));
            assert_eq!(out[needed..], [0xee; 3]);
            let sheet = &out[..needed];
            assert_eq!(read(sheet), Ok(head));
            for command in 0..commands {
                for state in 0..states {
                    let bytes = following(sheet, command, state);
                    let at = 23 + 8 * (command * states + state);
                    assert!(std::ptr::eq(bytes, &sheet[at..at + 8]));
                    assert_eq!(bytes, sets[command * states + state].to_be_bytes());
                }
            }
            assert!(following(sheet, commands, 0).is_empty());
            assert!(following(sheet, 0, states).is_empty());
            assert!(following(sheet, usize::MAX, usize::MAX).is_empty());
            assert!(following(&out, 0, 0).is_empty());
        }
    }
}

#[test]
fn a_refused_write_changes_no_byte() {
    let head = Head {
        states: 2,
        commands: 2,
        initial: 3,
        goal: 1,
    };
    let refuses = |head: Head, sets: &[u64], room: usize, reason: Reason, place: usize| {
        let mut out = vec![0xee; room];
        assert_eq!(write(head, sets, &mut out), refused(reason, place));
        assert!(out.iter().all(|&b| b == 0xee));
    };
    refuses(head, &[2, 1, 1, 1], 54, Reason::ShortOutput, 55);
    refuses(head, &[2, 1, 1, 1], 0, Reason::ShortOutput, 55);
    refuses(head, &[2, 1, 1], 55, Reason::Uneven, 1);
    refuses(head, &[2, 4, 1, 1], 55, Reason::Following, 31);
    refuses(Head { states: 0, ..head }, &[], 55, Reason::Counts, 5);
    refuses(
        Head {
            commands: usize::MAX,
            ..head
        },
        &[],
        55,
        Reason::Counts,
        6,
    );
    refuses(
        Head { initial: 0, ..head },
        &[2, 1, 1, 1],
        55,
        Reason::Initial,
        7,
    );
    refuses(
        Head { goal: 4, ..head },
        &[2, 1, 1, 1],
        55,
        Reason::Goal,
        15,
    );
}

#[test]
fn every_reason_has_its_number() {
    for number in 1..=14 {
        assert_eq!(
            Reason::from_number(number).map(Reason::number),
            Some(number)
        );
    }
    assert_eq!(Reason::from_number(0), None);
    assert_eq!(Reason::from_number(15), None);
}
