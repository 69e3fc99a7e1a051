//! The functions that are compared, as numbers in and out, and this program's own side of them.

use crate::better::{choose, Choice};
use crate::judge::{judge, Verdict};
use crate::search::{search, Outcome, Record};
use crate::sheet::{following, read, write};

/// The number that stands for 'no plan' in a search's answer.
pub const NO_PLAN: u64 = 255;

/// Places of the store that a search has where none is lent.
pub const OWN_PLACES: usize = 4_096;

/// Which searches a side has.
#[derive(Clone, Copy, Debug, PartialEq, Eq)]
pub struct Searches {
    /// In a lent store.
    pub lent: bool,
    /// In a store of its own, of 4,096 places.
    pub own: bool,
}

/// One of the two that are compared. Every answer is written to the lent numbers.
pub trait Side: Sync {
    /// Number (0 accepted), place, states, commands, initial set, goal; zeros after a refusal.
    fn read(&self, sheet: &[u8], answer: &mut [u64; 6]);

    /// Number (0 written), place, bytes written. The head is states, commands, initial set, goal.
    fn write(&self, head: &[u64; 4], sets: &[u64], output: &mut [u8], answer: &mut [u64; 3]);

    /// Offset and length in the sheet; 0 and 0 where there is nothing.
    fn following(&self, sheet: &[u8], command: u64, state: u64, answer: &mut [u64; 2]);

    /// Number (0 good), place, set, states still possible.
    fn judge(&self, sheet: &[u8], plan: &[u8], answer: &mut [u64; 4]);

    /// 1 for the first plan, 2 for the second, 0 for neither.
    fn better(&self, sheet: &[u8], first: &[u8], second: &[u8]) -> u8;

    /// Which of the two searches below may be called.
    fn searches(&self) -> Searches;

    /// Number (0 a plan, 255 no plan, or the refusal), place, count, length.
    fn search(&self, sheet: &[u8], store: &mut [Record], plan: &mut [u8], answer: &mut [u64; 4]);

    /// The same in a store of its own, which is not shown.
    fn search_here(&self, sheet: &[u8], plan: &mut [u8], answer: &mut [u64; 4]);
}

/// This program's own side.
pub struct Ours;

impl Side for Ours {
    fn read(&self, sheet: &[u8], answer: &mut [u64; 6]) {
        *answer = match read(sheet) {
            Ok(read) => [0, 0, read.states, read.commands, read.initial, read.goal],
            Err(refusal) => [u64::from(refusal.number), refusal.place, 0, 0, 0, 0],
        };
    }

    fn write(&self, head: &[u64; 4], sets: &[u64], output: &mut [u8], answer: &mut [u64; 3]) {
        let [states, commands, initial, goal] = *head;
        *answer = match write(states, commands, initial, goal, sets, output) {
            Ok(bytes) => [0, 0, bytes as u64],
            Err(refusal) => [u64::from(refusal.number), refusal.place, 0],
        };
    }

    fn following(&self, sheet: &[u8], command: u64, state: u64, answer: &mut [u64; 2]) {
        let part = following(sheet, command, state);
        let offset = part.as_ptr() as usize - sheet.as_ptr() as usize;
        *answer = if part.is_empty() {
            [0, 0]
        } else {
            [offset as u64, part.len() as u64]
        };
    }

    fn judge(&self, sheet: &[u8], plan: &[u8], answer: &mut [u64; 4]) {
        let judgement = judge(sheet, plan);
        let number = match judgement.verdict {
            Verdict::Good => 0,
            Verdict::Refused(refusal) => u64::from(refusal.number),
        };
        let states = u64::from(judgement.states);
        *answer = [number, judgement.place(), judgement.set, states];
    }

    fn better(&self, sheet: &[u8], first: &[u8], second: &[u8]) -> u8 {
        match choose(sheet, first, second) {
            Choice::First => 1,
            Choice::Second => 2,
            Choice::Neither => 0,
        }
    }

    fn searches(&self) -> Searches {
        Searches {
            lent: true,
            own: true,
        }
    }

    fn search(&self, sheet: &[u8], store: &mut [Record], plan: &mut [u8], answer: &mut [u64; 4]) {
        let found = search(sheet, store, plan);
        let number = match (found.outcome, found.refusal()) {
            (Outcome::NoPlan, _) => NO_PLAN,
            (_, None) => 0,
            (_, Some(refusal)) => u64::from(refusal.number),
        };
        *answer = [
            number,
            found.place(),
            found.count as u64,
            found.length as u64,
        ];
    }

    fn search_here(&self, sheet: &[u8], plan: &mut [u8], answer: &mut [u64; 4]) {
        let blank = Record {
            set: 0,
            parent: 0,
            command: 0,
        };
        self.search(sheet, &mut [blank; OWN_PLACES], plan, answer);
    }
}
