//! The judge: walks a plan through the sets of possible states and says whether it is good.

use crate::sheet::{self, Refusal, Sheet};

/// Whether a plan is good, and if not, why.
#[derive(Clone, Copy, Debug, PartialEq, Eq)]
pub enum Verdict {
    Good,
    Refused(Refusal),
}

/// The judge's answer: the verdict, the set where the walk ended, and how many states it holds.
#[derive(Clone, Copy, Debug, PartialEq, Eq)]
pub struct Judgement {
    pub verdict: Verdict,
    pub set: u64,
    pub states: u32,
}

impl Judgement {
    /// A good plan that ends in this set.
    pub fn good(set: u64) -> Judgement {
        Judgement {
            verdict: Verdict::Good,
            set,
            states: set.count_ones(),
        }
    }

    /// A refusal with the set that goes with it.
    pub fn refused(refusal: Refusal, set: u64) -> Judgement {
        Judgement {
            verdict: Verdict::Refused(refusal),
            set,
            states: set.count_ones(),
        }
    }

    /// Whether the plan is good.
    pub fn is_good(&self) -> bool {
        self.verdict == Verdict::Good
    }

    /// The place of the refusal, and 0 for a good plan.
    pub fn place(&self) -> u64 {
        match self.verdict {
            Verdict::Good => 0,
            Verdict::Refused(refusal) => refusal.place,
        }
    }
}

/// Judges a plan against the bytes of a sheet.
pub fn judge(sheet: &[u8], plan: &[u8]) -> Judgement {
    match sheet::read(sheet) {
        Ok(sheet) => judge_read(&sheet, plan),
        Err(refusal) => Judgement::refused(refusal, 0),
    }
}

/// Judges a plan against a sheet that was accepted.
fn judge_read(sheet: &Sheet, plan: &[u8]) -> Judgement {
    for (index, command) in plan.iter().enumerate() {
        if u64::from(*command) >= sheet.commands {
            return Judgement::refused(Refusal::new(10, index as u64), 0);
        }
    }
    let mut set = sheet.initial;
    for (index, command) in plan.iter().enumerate() {
        match sheet.image(u64::from(*command), set) {
            Some(image) => set = image,
            None => return Judgement::refused(Refusal::new(11, index as u64), set),
        }
    }
    if sheet.inside_goal(set) {
        Judgement::good(set)
    } else {
        Judgement::refused(Refusal::new(12, plan.len() as u64), set)
    }
}
