//! The better of two plans.

use crate::judge::judge;

/// Which of two plans is the better one.
#[derive(Clone, Copy, Debug, PartialEq, Eq)]
pub enum Choice {
    First,
    Second,
    /// Neither is good, or the sheet is refused.
    Neither,
}

/// Chooses the shorter good plan, the first if both are good and equally long, and the one good
/// plan if only one is.
pub fn choose(sheet: &[u8], first: &[u8], second: &[u8]) -> Choice {
    let first_good = judge(sheet, first).is_good();
    let second_good = judge(sheet, second).is_good();
    match (first_good, second_good) {
        (true, true) if second.len() < first.len() => Choice::Second,
        (true, _) => Choice::First,
        (false, true) => Choice::Second,
        (false, false) => Choice::Neither,
    }
}

/// Hands back the better plan, and the first plan's empty start if it is neither.
pub fn better<'a>(sheet: &[u8], first: &'a [u8], second: &'a [u8]) -> &'a [u8] {
    match choose(sheet, first, second) {
        Choice::First => first,
        Choice::Second => second,
        Choice::Neither => &first[..0],
    }
}
