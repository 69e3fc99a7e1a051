//! Reading and writing: each refusal at its boundary, the order of the checks, round trips, the
//! reading view, and what stays untouched.

mod common;

use common::{bytes_of, random_sheet, refused, FILL};
use second::examples::{self, bench};
use second::random::{Random, Shape};
use second::sheet::{following, read, write, Refusal, Sheet, HEAD, LARGEST};

/// A sheet of this size in which every command leads to state 0.
fn home(states: u64, commands: u64) -> Sheet {
    Sheet::from_rule((states, commands), 1, 1, |_, _| 1)
}

/// Bytes of version 1 with any length stated and this many bytes after it.
fn framed(stated: u32, after: usize) -> Vec<u8> {
    let mut bytes = vec![1];
    bytes.extend(stated.to_be_bytes());
    bytes.resize(5 + after, 0);
    bytes
}

/// Bytes of S with some of them changed.
fn changed(changes: &[(usize, u8)]) -> Vec<u8> {
    let mut bytes = bytes_of(&bench::s());
    for (offset, byte) in changes {
        bytes[*offset] = *byte;
    }
    bytes
}

/// Writes a sheet into a buffer that is filled first, and gives the buffer too.
fn written(sheet: &Sheet, room: usize) -> (Result<usize, Refusal>, Vec<u8>) {
    let mut output = vec![FILL; room];
    let result = write(
        sheet.states,
        sheet.commands,
        sheet.initial,
        sheet.goal,
        &sheet.following,
        &mut output,
    );
    (result, output)
}

/// Checks that writing this sheet is refused and changes nothing, whatever the buffer.
fn assert_not_written(sheet: &Sheet, number: u8, place: u64) {
    for room in [0, 22, 23, 100, LARGEST] {
        let (result, output) = written(sheet, room);
        assert_eq!(result, Err(Refusal::new(number, place)));
        assert!(output.iter().all(|byte| *byte == FILL));
    }
}

#[test]
fn fewer_than_five_bytes() {
    for length in 0..5 {
        assert_eq!(read(&vec![1; length]), refused(1, length as u64));
        assert_eq!(read(&vec![9; length]), refused(1, length as u64));
    }
    assert_eq!(read(&[1, 0, 0, 0, 0]), refused(3, 1));
    assert_eq!(read(&[2, 0, 0, 0, 0]), refused(2, 0));
}

#[test]
fn every_other_version() {
    for version in (0..=255).filter(|version| *version != 1) {
        assert_eq!(read(&changed(&[(0, version)])), refused(2, 0));
    }
}

#[test]
fn stated_length() {
    assert_eq!(read(&framed(17, 17)), refused(3, 1));
    assert_eq!(read(&framed(18, 17)), refused(3, 1));
    assert_eq!(read(&framed(17, 18)), refused(3, 1));
    assert_eq!(read(&framed(18, 18)), refused(4, 5));
    assert_eq!(read(&framed(0x100_0012, 18)), refused(3, 1));
    assert_eq!(read(&framed(u32::MAX, 18)), refused(3, 1));
    let s = bytes_of(&bench::s());
    assert_eq!(read(&s[..s.len() - 1]), refused(3, 1));
    let longer = [s.as_slice(), &[0]].concat();
    assert_eq!(read(&longer), refused(3, 1));
    assert_eq!(read(&changed(&[(4, 0x31)])), refused(3, 1));
    assert_eq!(read(&changed(&[(4, 0x33)])), refused(3, 1));
}

#[test]
fn stated_length_that_holds_but_does_not_fit_the_counts() {
    for length in [18, 19, 25, 26, 27, 33, 34] {
        let mut bytes = framed(length, length as usize);
        bytes[5..7].copy_from_slice(&[1, 1]);
        bytes[14] = 1;
        let right = length == 26;
        assert_eq!(read(&bytes).is_ok(), right);
        if !right {
            assert_eq!(read(&bytes), refused(5, 1));
        }
    }
}

#[test]
fn counts_of_states_and_commands() {
    for states in [0, 65, 255] {
        assert_eq!(read(&changed(&[(5, states)])), refused(4, 5));
        assert_eq!(read(&changed(&[(5, states), (6, 0)])), refused(4, 5));
    }
    for commands in [0, 33, 255] {
        assert_eq!(read(&changed(&[(6, commands)])), refused(4, 6));
    }
    for (states, commands) in [(1, 2), (64, 2), (2, 1), (2, 32)] {
        let bytes = changed(&[(5, states), (6, commands)]);
        assert_eq!(read(&bytes), refused(5, 1));
    }
}

#[test]
fn every_size_that_is_allowed_and_no_other() {
    for states in 0..=66 {
        for commands in 0..=34 {
            let sheet = home(states, commands);
            let allowed = (1..=64).contains(&states) && (1..=32).contains(&commands);
            match sheet.to_bytes() {
                Ok(bytes) => assert_eq!((read(&bytes), allowed), (Ok(sheet), true)),
                Err(refusal) => {
                    let states_wrong = !(1..=64).contains(&states);
                    let place = if states_wrong { 5 } else { 6 };
                    assert_eq!((refusal, allowed), (Refusal::new(4, place), false));
                }
            }
        }
    }
}

#[test]
fn initial_set() {
    for states in [1, 2, 8, 33, 63, 64] {
        let good = home(states, 2);
        let mut bytes = bytes_of(&good);
        bytes[7..15].fill(0);
        assert_eq!(read(&bytes), refused(6, 7));
        assert_not_written(
            &Sheet {
                initial: 0,
                ..good.clone()
            },
            6,
            7,
        );
        if states < 64 {
            let initial: u64 = 1 | 1 << states;
            bytes[7..15].copy_from_slice(&initial.to_be_bytes());
            assert_eq!(read(&bytes), refused(6, 7));
            assert_not_written(
                &Sheet {
                    initial,
                    ..good.clone()
                },
                6,
                7,
            );
        }
        let initial: u64 = 1 << (states - 1);
        bytes[7..15].copy_from_slice(&initial.to_be_bytes());
        assert_eq!(read(&bytes), Ok(Sheet { initial, ..good }));
    }
}

#[test]
fn goal_set() {
    for states in [1, 2, 8, 33, 63, 64] {
        let good = home(states, 2);
        let mut bytes = bytes_of(&good);
        bytes[15..23].fill(0);
        assert_eq!(
            read(&bytes),
            Ok(Sheet {
                goal: 0,
                ..good.clone()
            })
        );
        if states < 64 {
            let goal = 1 << states;
            bytes[15..23].copy_from_slice(&u64::to_be_bytes(goal));
            assert_eq!(read(&bytes), refused(7, 15));
            assert_not_written(
                &Sheet {
                    goal,
                    ..good.clone()
                },
                7,
                15,
            );
        }
        let goal = 1 << (states - 1);
        bytes[15..23].copy_from_slice(&u64::to_be_bytes(goal));
        assert_eq!(read(&bytes), Ok(Sheet { goal, ..good }));
    }
}

#[test]
fn each_following_set_wrong_in_turn() {
    for (states, commands) in [(1, 1), (2, 2), (5, 3), (63, 32)] {
        let good = home(states, commands);
        let count = good.following.len();
        for index in [0, 1, count / 2, count - 1] {
            let index = index.min(count - 1);
            let place = HEAD + 8 * index;
            let mut bad = good.clone();
            bad.following[index] = 1 << states;
            let mut bytes = bytes_of(&good);
            bytes[place..place + 8].copy_from_slice(&bad.following[index].to_be_bytes());
            assert_eq!(read(&bytes), refused(8, place as u64));
            assert_not_written(&bad, 8, place as u64);
        }
    }
}

#[test]
fn the_first_of_several_wrong_following_sets_is_named() {
    assert_eq!(read(&changed(&[(38, 4), (54, 4)])), refused(8, 31));
    assert_eq!(read(&changed(&[(30, 4), (38, 4)])), refused(8, 23));
}

#[test]
fn checks_run_in_the_order_of_the_table() {
    let mut changes = vec![(38, 4), (22, 4), (14, 0), (6, 3), (5, 0), (4, 0), (0, 9)];
    for (number, place) in [(2, 0), (3, 1), (4, 5), (5, 1), (6, 7), (7, 15), (8, 31)] {
        assert_eq!(read(&changed(&changes)), refused(number, place));
        changes.pop();
    }
    assert_eq!(read(&changed(&changes)), Ok(bench::s()));
}

#[test]
fn writing_checks_in_the_order_of_the_table() {
    let mut sheet = Sheet {
        states: 65,
        commands: 33,
        initial: 0,
        goal: 4,
        following: vec![2, 4, 1],
    };
    assert_not_written(&sheet, 4, 5);
    sheet.states = 2;
    assert_not_written(&sheet, 4, 6);
    sheet.commands = 2;
    assert_not_written(&sheet, 5, 1);
    sheet.following.push(1);
    assert_not_written(&sheet, 6, 7);
    sheet.initial = 3;
    assert_not_written(&sheet, 7, 15);
    sheet.goal = 1;
    assert_not_written(&sheet, 8, 31);
    sheet.following[1] = 1;
    assert_eq!(written(&sheet, 0).0, Err(Refusal::new(9, 55)));
    assert_eq!(sheet, bench::s());
}

#[test]
fn writing_takes_counts_of_any_size() {
    let s = bench::s();
    let high = 1 << 63;
    for states in [0, 65, 255, 256, 258, 1 << 32, high, high + 2, u64::MAX] {
        assert_not_written(
            &Sheet {
                states,
                ..s.clone()
            },
            4,
            5,
        );
    }
    for commands in [0, 33, 255, 256, 258, 1 << 32, high, high + 2, u64::MAX] {
        assert_not_written(
            &Sheet {
                commands,
                ..s.clone()
            },
            4,
            6,
        );
    }
}

#[test]
fn writing_counts_the_sets_given() {
    for count in [0, 1, 3, 5, 8, 3000] {
        let following = vec![1; count];
        assert_not_written(
            &Sheet {
                following,
                ..bench::s()
            },
            5,
            1,
        );
    }
}

#[test]
fn output_short_exact_and_long() {
    for sheet in [home(1, 1), bench::s(), home(7, 5), home(64, 32)] {
        let needed = HEAD + 8 * sheet.following.len();
        for room in [0, 1, 22, 23, needed - 1] {
            let (result, output) = written(&sheet, room.min(needed - 1));
            assert_eq!(result, Err(Refusal::new(9, needed as u64)));
            assert!(output.iter().all(|byte| *byte == FILL));
        }
        for room in [needed, needed + 1, needed + 100] {
            let (result, output) = written(&sheet, room);
            assert_eq!(result, Ok(needed));
            assert_eq!(read(&output[..needed]), Ok(sheet.clone()));
            assert!(output[needed..].iter().all(|byte| *byte == FILL));
        }
    }
}

#[test]
fn the_largest_sheet() {
    let mut random = Random::new(7);
    let shape = Shape {
        states: 64,
        commands: 32,
        impossible: 10,
        spread: 64,
    };
    let sheet = random.sheet(&shape);
    let bytes = bytes_of(&sheet);
    assert_eq!(bytes.len(), LARGEST);
    assert_eq!(&bytes[1..7], [0, 0, 0x40, 0x12, 64, 32]);
    assert_eq!(read(&bytes), Ok(sheet));
    let longer = [bytes.as_slice(), &[0]].concat();
    assert_eq!(read(&longer), refused(3, 1));
}

#[test]
fn random_sheets_read_back_equal_and_rewrite_to_the_same_bytes() {
    let mut random = Random::new(1);
    for _ in 0..500 {
        let sheet = random_sheet(&mut random, 64, 32);
        let bytes = bytes_of(&sheet);
        assert_eq!(bytes.len(), HEAD + 8 * sheet.following.len());
        let again = read(&bytes).expect("what was written is read");
        assert_eq!(again, sheet);
        assert_eq!(bytes_of(&again), bytes);
    }
}

/// What the scope says of S with one byte changed.
fn expected_of_change(offset: usize, byte: u8) -> Option<(u8, u64)> {
    match offset {
        0 => Some((2, 0)),
        1..=4 => Some((3, 1)),
        5 if byte == 0 || byte > 64 => Some((4, 5)),
        6 if byte == 0 || byte > 32 => Some((4, 6)),
        5 | 6 => Some((5, 1)),
        7..=14 if offset < 14 || byte == 0 || byte > 3 => Some((6, 7)),
        15..=22 if offset < 22 || byte > 3 => Some((7, 15)),
        23.. if offset % 8 != 6 || byte > 3 => Some((8, (offset - 23) as u64 / 8 * 8 + 23)),
        _ => None,
    }
}

#[test]
fn every_single_byte_change_of_s() {
    let s = bytes_of(&bench::s());
    for (offset, old) in s.iter().enumerate() {
        for byte in (0..=255).filter(|byte| byte != old) {
            let bytes = changed(&[(offset, byte)]);
            match (read(&bytes), expected_of_change(offset, byte)) {
                (Ok(sheet), None) => assert_eq!(bytes_of(&sheet), bytes),
                (Err(refusal), Some((number, place))) => {
                    assert_eq!(refusal, Refusal::new(number, place))
                }
                other => panic!("byte {offset} as {byte}: {other:?}"),
            }
        }
    }
}

#[test]
fn every_truncation_of_the_examples() {
    for example in examples::all().iter().filter(|e| read(&e.bytes).is_ok()) {
        for length in 0..example.bytes.len() {
            let expected = if length < 5 {
                refused(1, length as u64)
            } else {
                refused(3, 1)
            };
            assert_eq!(read(&example.bytes[..length]), expected);
        }
    }
}

#[test]
fn random_bytes_that_are_accepted_rewrite_to_themselves() {
    let mut random = Random::new(3);
    let mut accepted = 0;
    for _ in 0..20_000 {
        let sheet = random_sheet(&mut random, 4, 2);
        let mut bytes = bytes_of(&sheet);
        let offset = random.below(bytes.len() as u64) as usize;
        bytes[offset] = random.below(20) as u8;
        if let Ok(sheet) = read(&bytes) {
            accepted += 1;
            assert_eq!(bytes_of(&sheet), bytes);
        }
    }
    assert!(accepted > 1000);
}

#[test]
fn the_view_shows_the_sheet_s_own_bytes() {
    let mut random = Random::new(2);
    for _ in 0..30 {
        let sheet = random_sheet(&mut random, 64, 32);
        let bytes = bytes_of(&sheet);
        for (index, set) in sheet.following.iter().enumerate() {
            let command = index as u64 / sheet.states;
            let state = index as u64 % sheet.states;
            let part = following(&bytes, command, state);
            let offset = HEAD + 8 * index;
            assert_eq!(part, set.to_be_bytes());
            assert!(std::ptr::eq(part, &bytes[offset..offset + 8]));
        }
    }
}

#[test]
fn the_view_is_empty_where_something_is_missing() {
    let bytes = bytes_of(&bench::s());
    for missing in [2, 3, 255, 1 << 61, 1 << 63, u64::MAX] {
        assert!(following(&bytes, missing, 0).is_empty());
        assert!(following(&bytes, 0, missing).is_empty());
        assert!(following(&bytes, missing, missing).is_empty());
    }
    assert!(following(&bench::second_set_4(), 0, 0).is_empty());
    assert!(following(&bytes[..54], 0, 0).is_empty());
    assert!(following(&[], 0, 0).is_empty());
}
