//! What was met in a run: cases by kind, and calls by their answers.

use super::call::{Seen, Work};
use super::maker::{Kind, KINDS};
use super::side::NO_PLAN;
use std::fmt;

/// The refusals there are.
const REFUSALS: usize = 14;
/// Answers without a refusal: of the reader, the writer, the judge, the search, the better of two
/// plans, and the view.
const OTHERS: [&str; 10] = [
    "accepted", "written", "good", "plan", "no plan", "first", "second", "neither", "viewed",
    "missing",
];
/// Runs of at least this many cases must meet everything.
pub const ENOUGH: u64 = 20_000;

/// The counts.
#[derive(Clone, Debug, Default, PartialEq, Eq)]
pub struct Tally {
    pub cases: u64,
    pub calls: u64,
    kinds: [u64; KINDS.len()],
    refusals: [u64; REFUSALS],
    others: [u64; OTHERS.len()],
}

impl Tally {
    /// Counts a case.
    pub fn case(&mut self, kind: Kind) {
        self.cases += 1;
        let index = KINDS.iter().position(|(known, _)| *known == kind);
        self.kinds[index.expect("every kind has a name")] += 1;
    }

    /// Counts a call and its answer.
    pub fn call(&mut self, work: &Work, seen: &Seen) {
        self.calls += 1;
        let answer = seen.answer.part();
        let name = match (work, answer[0]) {
            (Work::View { .. }, _) if answer[1] == 0 => "missing",
            (Work::View { .. }, _) => "viewed",
            (Work::Better { .. }, 0) => "neither",
            (Work::Better { .. }, 1) => "first",
            (Work::Better { .. }, _) => "second",
            (Work::Read { .. }, 0) => "accepted",
            (Work::Write { .. }, 0) => "written",
            (Work::Judge { .. }, 0) => "good",
            (Work::Search { .. } | Work::Here { .. }, 0) => "plan",
            (_, NO_PLAN) => "no plan",
            (_, refusal) => {
                self.refusals[refusal as usize - 1] += 1;
                return;
            }
        };
        let index = OTHERS.iter().position(|other| *other == name);
        self.others[index.expect("every answer has a name")] += 1;
    }

    /// Adds the counts of another part of the run.
    pub fn add(&mut self, other: &Tally) {
        self.cases += other.cases;
        self.calls += other.calls;
        add_each(&mut self.kinds, &other.kinds);
        add_each(&mut self.refusals, &other.refusals);
        add_each(&mut self.others, &other.others);
    }

    /// Every count with its name: the kinds, the refusals, and the other answers.
    fn named(&self) -> [Vec<(String, u64)>; 3] {
        let kinds = KINDS.iter().map(|(_, name)| name.to_string());
        let refusals = (1..=REFUSALS).map(|number| number.to_string());
        let others = OTHERS.iter().map(|name| name.to_string());
        [
            kinds.zip(self.kinds).collect(),
            refusals.zip(self.refusals).collect(),
            others.zip(self.others).collect(),
        ]
    }

    /// Everything that was met less often than this, by name.
    pub fn met_less_than(&self, least: u64) -> Vec<String> {
        let [kinds, refusals, others] = self.named();
        let named = [("kind", kinds), ("refusal", refusals), ("answer", others)];
        let mut rare = Vec::new();
        for (what, counts) in named {
            for (name, count) in counts {
                if count < least {
                    rare.push(format!("{what} {name}"));
                }
            }
        }
        rare
    }
}

/// Adds number by number.
fn add_each(to: &mut [u64], from: &[u64]) {
    for (to, from) in to.iter_mut().zip(from) {
        *to += from;
    }
}

/// Counts with their names, parted by commas.
fn listed(counts: &[(String, u64)]) -> String {
    let words: Vec<String> = counts
        .iter()
        .map(|(name, count)| format!("{name}: {count}"))
        .collect();
    words.join(", ")
}

impl fmt::Display for Tally {
    fn fmt(&self, out: &mut fmt::Formatter) -> fmt::Result {
        let [kinds, refusals, others] = self.named().map(|counts| listed(&counts));
        let Tally { cases, calls, .. } = self;
        write!(out, "cases {cases} ({kinds}); calls {calls}; ")?;
        write!(out, "refusals ({refusals}); other answers ({others})")
    }
}
