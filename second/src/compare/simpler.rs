//! Every way to make a call a little simpler. Each offers its results one by one until one is
//! taken, and says whether one was.

use super::call::Work;
use crate::sheet::{Sheet, HEAD};

/// Takes a simpler thing or turns it down.
type Offer<'a, T> = &'a mut dyn FnMut(T) -> bool;

/// What was taken away from a sheet, so that numbers above it move down.
#[derive(Clone, Copy, PartialEq)]
enum Gone {
    Nothing,
    Command(u64),
    State(u64),
}

/// Offers simpler works.
pub fn each(work: &Work, offer: Offer<Work>) -> bool {
    match work {
        Work::Read { sheet } => bytes(sheet, &mut |(sheet, _)| offer(Work::Read { sheet })),
        Work::Write { numbers, room } => written(numbers, *room, offer),
        Work::Judge { sheet, plan } => judged(sheet, plan, offer),
        Work::Better {
            sheet,
            first,
            second,
        } => bettered(sheet, [first, second], offer),
        _ => sized(work, offer),
    }
}

/// Offers simpler works of those that have a sheet and two numbers.
fn sized(work: &Work, offer: Offer<Work>) -> bool {
    let Some((sheet, numbers)) = parts(work) else {
        return false;
    };
    let [one, two] = numbers;
    bytes(sheet, &mut |(sheet, gone)| {
        let viewed = matches!(work, Work::View { .. });
        let moved = if viewed {
            moved(numbers, gone)
        } else {
            numbers
        };
        offer(with_parts(work, &sheet, moved))
    }) || number(one, &mut |one| offer(with_parts(work, sheet, [one, two])))
        || number(two, &mut |two| offer(with_parts(work, sheet, [one, two])))
}

/// The sheet and the two numbers of such a work.
fn parts(work: &Work) -> Option<(&[u8], [u64; 2])> {
    match work {
        Work::View {
            sheet,
            command,
            state,
        } => Some((sheet, [*command, *state])),
        Work::Search {
            sheet,
            places,
            plan_bytes,
        } => Some((sheet, [*places as u64, *plan_bytes as u64])),
        Work::Here { sheet, plan_bytes } => Some((sheet, [0, *plan_bytes as u64])),
        _ => None,
    }
}

/// The same work with another sheet and other numbers.
fn with_parts(work: &Work, sheet: &[u8], [one, two]: [u64; 2]) -> Work {
    let sheet = sheet.to_vec();
    match work {
        Work::View { .. } => Work::View {
            sheet,
            command: one,
            state: two,
        },
        Work::Search { .. } => Work::Search {
            sheet,
            places: one as usize,
            plan_bytes: two as usize,
        },
        _ => Work::Here {
            sheet,
            plan_bytes: two as usize,
        },
    }
}

/// Offers simpler judgements.
fn judged(sheet: &[u8], plan: &[u8], offer: Offer<Work>) -> bool {
    bytes(sheet, &mut |(sheet, gone)| {
        let plan = renumbered(plan, gone);
        offer(Work::Judge { sheet, plan })
    }) || shorter(plan, &mut |plan| {
        let sheet = sheet.to_vec();
        offer(Work::Judge { sheet, plan })
    })
}

/// Offers simpler pairs of plans.
fn bettered(sheet: &[u8], [first, second]: [&[u8]; 2], offer: Offer<Work>) -> bool {
    let again = |sheet: &[u8], first: &[u8], second: &[u8]| Work::Better {
        sheet: sheet.to_vec(),
        first: first.to_vec(),
        second: second.to_vec(),
    };
    bytes(sheet, &mut |(sheet, gone)| {
        let (first, second) = (renumbered(first, gone), renumbered(second, gone));
        offer(again(&sheet, &first, &second))
    }) || shorter(first, &mut |first| offer(again(sheet, &first, second)))
        || shorter(second, &mut |second| offer(again(sheet, first, &second)))
}

/// Offers simpler numbers to be written.
fn written(numbers: &Sheet, room: usize, offer: Offer<Work>) -> bool {
    let again = |numbers: Sheet, room: usize| Work::Write { numbers, room };
    let sets = numbers.commands.checked_mul(numbers.states);
    let whole = sets == Some(numbers.following.len() as u64) && sets != Some(0);
    (whole && tables(numbers, &mut |(numbers, _)| offer(again(numbers, room))))
        || uneven(numbers, &mut |numbers| offer(again(numbers, room)))
        || number(room as u64, &mut |room| {
            offer(again(numbers.clone(), room as usize))
        })
}

/// Offers smaller numbers and fewer sets, without a look at what goes with what.
fn uneven(numbers: &Sheet, offer: Offer<Sheet>) -> bool {
    let with = |change: &dyn Fn(&mut Sheet)| {
        let mut numbers = numbers.clone();
        change(&mut numbers);
        numbers
    };
    number(numbers.states, &mut |n| offer(with(&|to| to.states = n)))
        || number(numbers.commands, &mut |n| {
            offer(with(&|to| to.commands = n))
        })
        || number(numbers.initial, &mut |n| offer(with(&|to| to.initial = n)))
        || number(numbers.goal, &mut |n| offer(with(&|to| to.goal = n)))
        || number(numbers.following.len() as u64, &mut |n| {
            offer(with(&|to| to.following.truncate(n as usize)))
        })
}

/// Offers simpler bytes, each with what was taken away.
fn bytes(bytes: &[u8], offer: Offer<(Vec<u8>, Gone)>) -> bool {
    if let Some(numbers) = loosely(bytes) {
        if tables(&numbers, &mut |(numbers, gone)| {
            offer((unchecked(&numbers), gone))
        }) {
            return true;
        }
    }
    number(bytes.len() as u64, &mut |length| {
        let cut = bytes[..length as usize].to_vec();
        offer((cut.clone(), Gone::Nothing)) || offer((restated(cut), Gone::Nothing))
    }) || (0..bytes.len()).any(|index| {
        let mut zeroed = bytes.to_vec();
        let before = std::mem::replace(&mut zeroed[index], 0);
        before != 0 && offer((zeroed, Gone::Nothing))
    })
}

/// Offers sheets with fewer commands, fewer states and smaller sets, each with what was taken
/// away.
fn tables(numbers: &Sheet, offer: Offer<(Sheet, Gone)>) -> bool {
    let Sheet {
        states, commands, ..
    } = *numbers;
    let fewer_states = |gone: u64, instead: bool| {
        let numbers = without_state(numbers, gone, instead);
        (numbers, Gone::State(gone))
    };
    (0..commands)
        .filter(|_| commands > 1)
        .any(|gone| offer((without_command(numbers, gone), Gone::Command(gone))))
        || (0..states)
            .filter(|_| states > 1)
            .any(|gone| offer(fewer_states(gone, false)) || offer(fewer_states(gone, true)))
        || fewer(numbers.initial, &mut |initial| {
            let numbers = numbers.clone();
            offer((Sheet { initial, ..numbers }, Gone::Nothing))
        })
        || fewer(numbers.goal, &mut |goal| {
            let numbers = numbers.clone();
            offer((Sheet { goal, ..numbers }, Gone::Nothing))
        })
        || (0..numbers.following.len()).any(|index| {
            fewer(numbers.following[index], &mut |set| {
                let mut numbers = numbers.clone();
                numbers.following[index] = set;
                offer((numbers, Gone::Nothing))
            })
        })
}

/// A sheet with one command less.
fn without_command(numbers: &Sheet, gone: u64) -> Sheet {
    let mut numbers = numbers.clone();
    let start = (gone * numbers.states) as usize;
    numbers
        .following
        .drain(start..start + numbers.states as usize);
    numbers.commands -= 1;
    numbers
}

/// A sheet with one state less, in which those above it have moved down. Sets that named it name
/// its neighbour instead, or nothing.
fn without_state(numbers: &Sheet, gone: u64, instead: bool) -> Sheet {
    let gone_bit = 1u64 << gone.min(63);
    let below = gone_bit - 1;
    let neighbour = 1u64 << gone.min(numbers.states - 2).min(63);
    let squeeze = |set: u64| {
        let rest = set & below | set >> 1 & !below;
        if instead && set & gone_bit != 0 {
            rest | neighbour
        } else {
            rest
        }
    };
    let rest = numbers.following.iter().enumerate();
    let rest = rest.filter(|(index, _)| *index as u64 % numbers.states != gone);
    Sheet {
        states: numbers.states - 1,
        commands: numbers.commands,
        initial: squeeze(numbers.initial),
        goal: squeeze(numbers.goal),
        following: rest.map(|(_, set)| squeeze(*set)).collect(),
    }
}

/// Offers the set without each of its states.
fn fewer(set: u64, offer: Offer<u64>) -> bool {
    (0..64).any(|state| set >> state & 1 == 1 && offer(set & !(1 << state)))
}

/// Offers 0, half of the number, and one less.
fn number(number: u64, offer: Offer<u64>) -> bool {
    number > 0 && (offer(0) || offer(number / 2) || offer(number - 1))
}

/// Offers the plan's halves, the plan without each byte, and with each byte made 0.
fn shorter(plan: &[u8], offer: Offer<Vec<u8>>) -> bool {
    let (start, end) = plan.split_at(plan.len() / 2);
    if plan.len() > 1 && (offer(start.to_vec()) || offer(end.to_vec())) {
        return true;
    }
    (0..plan.len()).any(|index| {
        let mut without = plan.to_vec();
        let mut zeroed = plan.to_vec();
        zeroed[index] = 0;
        let before = without.remove(index);
        offer(without) || before != 0 && offer(zeroed)
    })
}

/// A plan in which commands above the one that is gone have moved down.
fn renumbered(plan: &[u8], gone: Gone) -> Vec<u8> {
    let mut plan = plan.to_vec();
    if let Gone::Command(gone) = gone {
        for byte in &mut plan {
            *byte -= u8::from(u64::from(*byte) > gone);
        }
    }
    plan
}

/// A command and a state, moved down if they are above what is gone.
fn moved([command, state]: [u64; 2], gone: Gone) -> [u64; 2] {
    match gone {
        Gone::Command(gone) => [command - u64::from(command > gone), state],
        Gone::State(gone) => [command, state - u64::from(state > gone)],
        Gone::Nothing => [command, state],
    }
}

/// The numbers of bytes that have a sheet's length for their counts, whatever the sets are.
fn loosely(bytes: &[u8]) -> Option<Sheet> {
    let states = u64::from(*bytes.get(5)?);
    let commands = u64::from(*bytes.get(6)?);
    let sets = (states * commands) as usize;
    if sets == 0 || bytes.len() != HEAD + 8 * sets || restated(bytes.to_vec()) != bytes {
        return None;
    }
    let number = |part: &[u8]| part.iter().fold(0, |n, byte| n << 8 | u64::from(*byte));
    Some(Sheet {
        states,
        commands,
        initial: number(&bytes[7..15]),
        goal: number(&bytes[15..23]),
        following: bytes[23..].chunks(8).map(number).collect(),
    })
}

/// The bytes of these numbers, whether or not they are a sheet.
fn unchecked(numbers: &Sheet) -> Vec<u8> {
    let mut bytes = vec![1, 0, 0, 0, 0, numbers.states as u8, numbers.commands as u8];
    bytes.extend(numbers.initial.to_be_bytes());
    bytes.extend(numbers.goal.to_be_bytes());
    for set in &numbers.following {
        bytes.extend(set.to_be_bytes());
    }
    restated(bytes)
}

/// The bytes with their true length stated.
fn restated(bytes: Vec<u8>) -> Vec<u8> {
    let mut bytes = bytes;
    if let Some(after) = bytes.len().checked_sub(5) {
        bytes[1..5].copy_from_slice(&(after as u32).to_be_bytes());
    }
    bytes
}
