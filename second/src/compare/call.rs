//! One call, what it does on a side, and all that can be seen after it.

use super::lent::Lent;
use super::side::Side;
use crate::random::Random;
use crate::search::Record;
use crate::sheet::Sheet;

/// What is called, with its input.
#[derive(Clone, Debug, PartialEq, Eq)]
pub enum Work {
    Read {
        sheet: Vec<u8>,
    },
    View {
        sheet: Vec<u8>,
        command: u64,
        state: u64,
    },
    /// The numbers need not be those of a sheet.
    Write {
        numbers: Sheet,
        room: usize,
    },
    Judge {
        sheet: Vec<u8>,
        plan: Vec<u8>,
    },
    Better {
        sheet: Vec<u8>,
        first: Vec<u8>,
        second: Vec<u8>,
    },
    Search {
        sheet: Vec<u8>,
        places: usize,
        plan_bytes: usize,
    },
    /// A search without a lent store.
    Here {
        sheet: Vec<u8>,
        plan_bytes: usize,
    },
}

/// A call: its work, and the seed for what the lent buffers hold before it.
#[derive(Clone, Debug, PartialEq, Eq)]
pub struct Call {
    pub noise: u64,
    pub work: Work,
}

/// All that can be seen after a call: the answer and every lent buffer, inputs too.
#[derive(Clone, Debug, PartialEq, Eq)]
pub struct Seen {
    pub answer: Lent<u64>,
    pub bytes: Vec<Lent<u8>>,
    pub sets: Option<Lent<u64>>,
    pub store: Option<Lent<Record>>,
}

impl Seen {
    /// An answer with the buffers of bytes that were lent.
    fn plain(answer: Lent<u64>, bytes: Vec<Lent<u8>>) -> Seen {
        Seen {
            answer,
            bytes,
            sets: None,
            store: None,
        }
    }
}

/// Makes the call on this side.
pub fn perform(side: &dyn Side, call: &Call) -> Seen {
    let mut noise = Random::new(call.noise);
    match &call.work {
        Work::Read { sheet } => {
            let sheet = Lent::holding(&mut noise, sheet);
            let mut answer = Lent::filled(&mut noise, 6);
            side.read(sheet.part(), answer.array_mut());
            Seen::plain(answer, vec![sheet])
        }
        Work::View {
            sheet,
            command,
            state,
        } => {
            let sheet = Lent::holding(&mut noise, sheet);
            let mut answer = Lent::filled(&mut noise, 2);
            side.following(sheet.part(), *command, *state, answer.array_mut());
            Seen::plain(answer, vec![sheet])
        }
        Work::Write { numbers, room } => written(side, &mut noise, numbers, *room),
        Work::Judge { sheet, plan } => judged(side, &mut noise, sheet, plan),
        Work::Better {
            sheet,
            first,
            second,
        } => bettered(side, &mut noise, sheet, [first, second]),
        Work::Search {
            sheet,
            places,
            plan_bytes,
        } => searched(side, &mut noise, sheet, (*places, *plan_bytes)),
        Work::Here { sheet, plan_bytes } => searched_here(side, &mut noise, sheet, *plan_bytes),
    }
}

/// Writes to an output of this room.
fn written(side: &dyn Side, noise: &mut Random, numbers: &Sheet, room: usize) -> Seen {
    let sets = Lent::holding(noise, &numbers.following);
    let mut output = Lent::filled(noise, room);
    let mut answer = Lent::filled(noise, 3);
    let head = [
        numbers.states,
        numbers.commands,
        numbers.initial,
        numbers.goal,
    ];
    side.write(&head, sets.part(), output.part_mut(), answer.array_mut());
    Seen {
        sets: Some(sets),
        ..Seen::plain(answer, vec![output])
    }
}

/// Judges a plan.
fn judged(side: &dyn Side, noise: &mut Random, sheet: &[u8], plan: &[u8]) -> Seen {
    let sheet = Lent::holding(noise, sheet);
    let plan = Lent::holding(noise, plan);
    let mut answer = Lent::filled(noise, 4);
    side.judge(sheet.part(), plan.part(), answer.array_mut());
    Seen::plain(answer, vec![sheet, plan])
}

/// Picks the better of two plans.
fn bettered(side: &dyn Side, noise: &mut Random, sheet: &[u8], plans: [&[u8]; 2]) -> Seen {
    let sheet = Lent::holding(noise, sheet);
    let first = Lent::holding(noise, plans[0]);
    let second = Lent::holding(noise, plans[1]);
    let choice = side.better(sheet.part(), first.part(), second.part());
    let answer = Lent::holding(noise, &[u64::from(choice)]);
    Seen::plain(answer, vec![sheet, first, second])
}

/// Searches in a store and a plan buffer of these sizes.
fn searched(side: &dyn Side, noise: &mut Random, sheet: &[u8], sizes: (usize, usize)) -> Seen {
    let sheet = Lent::holding(noise, sheet);
    let mut store = Lent::filled(noise, sizes.0);
    let mut plan = Lent::filled(noise, sizes.1);
    let mut answer = Lent::filled(noise, 4);
    side.search(
        sheet.part(),
        store.part_mut(),
        plan.part_mut(),
        answer.array_mut(),
    );
    Seen {
        store: Some(store),
        ..Seen::plain(answer, vec![sheet, plan])
    }
}

/// Searches in the side's own store, with a plan buffer of this size.
fn searched_here(side: &dyn Side, noise: &mut Random, sheet: &[u8], plan_bytes: usize) -> Seen {
    let sheet = Lent::holding(noise, sheet);
    let mut plan = Lent::filled(noise, plan_bytes);
    let mut answer = Lent::filled(noise, 4);
    side.search_here(sheet.part(), plan.part_mut(), answer.array_mut());
    Seen::plain(answer, vec![sheet, plan])
}

/// Whether anything differs between the two sides after this call.
pub fn differs(ours: &dyn Side, other: &dyn Side, call: &Call) -> bool {
    perform(ours, call) != perform(other, call)
}
