//! Helpers for the tests: lent buffers with known content, and short ways to call things.
#![allow(dead_code)]

use second::random::Random;
use second::search::{Answer, Outcome, Record};
use second::sheet::{Refusal, Sheet};

/// What lent stores are filled with.
pub const BLANK: Record = Record {
    set: 0x5a5a_5a5a_5a5a_5a5a,
    parent: 0x5a5a_5a5a,
    command: 0x5a,
};
/// What lent byte buffers are filled with.
pub const FILL: u8 = 0xa5;

/// A search to be called.
pub type Search = fn(&[u8], &mut [Record], &mut [u8]) -> Answer;

/// The bytes of a sheet that can be written.
pub fn bytes_of(sheet: &Sheet) -> Vec<u8> {
    sheet.to_bytes().expect("the sheet can be written")
}

/// A refusal as the reader gives it.
pub fn refused(number: u8, place: u64) -> Result<Sheet, Refusal> {
    Err(Refusal { number, place })
}

/// Everything that a search leaves behind.
#[derive(Debug, PartialEq, Eq)]
pub struct After {
    pub answer: Answer,
    pub store: Vec<Record>,
    pub plan: Vec<u8>,
}

/// Searches in blank buffers of these sizes and shows all of them afterwards.
pub fn run(search: Search, sheet: &[u8], places: usize, plan_bytes: usize) -> After {
    let mut store = vec![BLANK; places];
    let mut plan = vec![FILL; plan_bytes];
    let answer = search(sheet, &mut store, &mut plan);
    After {
        answer,
        store,
        plan,
    }
}

/// Searches with the search under test.
pub fn searched(sheet: &[u8], places: usize, plan_bytes: usize) -> After {
    run(second::search::search, sheet, places, plan_bytes)
}

/// An answer from its parts.
pub fn answer(outcome: Outcome, count: usize, length: usize) -> Answer {
    Answer {
        outcome,
        count,
        length,
    }
}

impl After {
    /// The sets in the places that count.
    pub fn sets(&self) -> Vec<u64> {
        let kept = &self.store[..self.answer.count];
        kept.iter().map(|record| record.set).collect()
    }

    /// The plan, which is empty if there is none.
    pub fn plan_found(&self) -> &[u8] {
        match self.answer.outcome {
            Outcome::Plan => &self.plan[..self.answer.length],
            _ => &[],
        }
    }

    /// Checks that all that must stay as lent did so.
    pub fn assert_rest_untouched(&self) {
        let written = self.plan_found().len();
        assert!(self.store[self.answer.count..].iter().all(|r| *r == BLANK));
        assert!(self.plan[written..].iter().all(|b| *b == FILL));
    }
}

/// A random sheet within these bounds.
pub fn random_sheet(random: &mut Random, most_states: u64, most_commands: u64) -> Sheet {
    let shape = random.shape(most_states, most_commands);
    random.sheet(&shape)
}
