//! A run of the comparison: its options, its threads and what it prints.

use super::call::{differs, perform, Call};
use super::maker::{made, Kind};
use super::report::text;
use super::shrink::shrink;
use super::side::Side;
use super::tally::{Tally, ENOUGH};
use std::io::{self, Write};
use std::ops::Range;
use std::sync::atomic::{AtomicU64, Ordering};
use std::thread;
use std::time::Instant;

/// Cases that a thread takes at a time.
const SHARE: u64 = 50;

/// What is to be run.
#[derive(Clone, Debug, PartialEq, Eq)]
pub struct Options {
    pub seed: u64,
    pub cases: Range<u64>,
    pub threads: usize,
}

/// Reads `--seed N --cases M [--threads T]` or `--seed N --case I`, in any order.
pub fn options(words: &[&str]) -> Option<Options> {
    let (mut seed, mut cases, mut threads) = (None, None, 1);
    for pair in words.chunks(2) {
        let number: u64 = pair.get(1)?.parse().ok()?;
        match pair[0] {
            "--seed" => seed = Some(number),
            "--cases" => cases = Some(0..number),
            "--case" => cases = Some(number..number.checked_add(1)?),
            "--threads" => threads = usize::try_from(number).ok()?.clamp(1, 64),
            _ => return None,
        }
    }
    Some(Options {
        seed: seed?,
        cases: cases?,
        threads,
    })
}

/// A case on which the sides differ, and the first call of it that does.
#[derive(Clone, Debug, PartialEq, Eq)]
pub struct Mismatch {
    pub index: u64,
    pub kind: Kind,
    pub call: Call,
}

/// What the threads share: the next case to be taken, and the first that differs so far.
struct Shared<'a> {
    options: &'a Options,
    sides: [&'a dyn Side; 2],
    next: AtomicU64,
    first: AtomicU64,
}

/// Runs all cases, or those up to the first that differs, and counts them.
pub fn run(options: &Options, sides: [&dyn Side; 2]) -> (Tally, Option<Mismatch>) {
    let shared = Shared {
        options,
        sides,
        next: AtomicU64::new(options.cases.start),
        first: AtomicU64::new(u64::MAX),
    };
    let mut tally = Tally::default();
    let mut first: Option<Mismatch> = None;
    thread::scope(|scope| {
        let start = |_| scope.spawn(|| work(&shared));
        let threads: Vec<_> = (0..options.threads).map(start).collect();
        for thread in threads {
            let (part, met) = thread.join().expect("no thread panics");
            tally.add(&part);
            let before = first.as_ref().map_or(u64::MAX, |first| first.index);
            first = met.filter(|met| met.index < before).or(first.take());
        }
    });
    (tally, first)
}

/// What one thread does: takes cases in order until none is left below the first that differs.
fn work(shared: &Shared) -> (Tally, Option<Mismatch>) {
    let mut tally = Tally::default();
    let end = shared.options.cases.end;
    loop {
        let start = shared.next.fetch_add(SHARE, Ordering::Relaxed);
        if start >= end {
            return (tally, None);
        }
        for index in start..end.min(start.saturating_add(SHARE)) {
            if index >= shared.first.load(Ordering::Relaxed) {
                return (tally, None);
            }
            if let Some(met) = one(shared, index, &mut tally) {
                shared.first.fetch_min(index, Ordering::Relaxed);
                return (tally, Some(met));
            }
        }
    }
}

/// Runs one case.
fn one(shared: &Shared, index: u64, tally: &mut Tally) -> Option<Mismatch> {
    let [ours, other] = shared.sides;
    let made = made(shared.options.seed, index, other.searches());
    tally.case(made.kind);
    for call in made.calls {
        let seen = perform(ours, &call);
        tally.call(&call.work, &seen);
        if seen != perform(other, &call) {
            let kind = made.kind;
            return Some(Mismatch { index, kind, call });
        }
    }
    None
}

/// Runs, prints what came of it, and says whether all is well.
pub fn compare(options: &Options, sides: [&dyn Side; 2], out: &mut dyn Write) -> io::Result<bool> {
    let start = Instant::now();
    let (tally, mismatch) = run(options, sides);
    if let Some(mismatch) = &mismatch {
        print(options, sides, mismatch, out)?;
    }
    let seconds = start.elapsed().as_secs_f64();
    let count = u64::from(mismatch.is_some());
    writeln!(out, "{tally}; mismatches {count}; seconds {seconds:.1}")?;
    let unmet = tally.met_less_than(1);
    let complete = unmet.is_empty() || tally.cases < ENOUGH;
    if !complete {
        writeln!(out, "never met: {}", unmet.join(", "))?;
    }
    Ok(mismatch.is_none() && complete)
}

/// Prints a mismatch, and the smallest one that is found from there.
fn print(
    options: &Options,
    sides: [&dyn Side; 2],
    mismatch: &Mismatch,
    out: &mut dyn Write,
) -> io::Result<()> {
    let [ours, other] = sides;
    let Mismatch { index, kind, call } = mismatch;
    let seed = options.seed;
    writeln!(out, "mismatch: --seed {seed} --case {index}, kind {kind:?}")?;
    write!(out, "{}", text(ours, other, call))?;
    let smallest = shrink(call, &|call| differs(ours, other, call));
    writeln!(out, "smallest found:")?;
    write!(out, "{}", text(ours, other, &smallest))
}
