//! The line that the printing program writes for a sheet.

use crate::search::{search, Answer, Outcome, Record};

/// The most bytes of input that are read.
pub const MOST_INPUT: usize = 16_408;
/// Places of the program's store.
pub const PLACES: usize = 4_096;
/// Bytes of the program's plan buffer.
pub const PLAN_BYTES: usize = 4_096;

/// Searches the sheet in buffers of the program's size and gives the line with its line feed.
/// Input past the bytes that the program reads does not count.
pub fn line(input: &[u8]) -> String {
    let sheet = &input[..input.len().min(MOST_INPUT)];
    let blank = Record {
        set: 0,
        parent: 0,
        command: 0,
    };
    let mut store = [blank; PLACES];
    let mut plan = [0; PLAN_BYTES];
    let answer = search(sheet, &mut store, &mut plan);
    words(&answer, &plan)
}

/// The line for an answer; the plan is read from the start of the plan buffer.
pub fn words(answer: &Answer, plan: &[u8]) -> String {
    let Answer { count, length, .. } = answer;
    match answer.outcome {
        Outcome::Plan => {
            let mut line = format!("PLAN {count} {length}");
            for command in &plan[..*length] {
                line.push_str(&format!(" {command}"));
            }
            line.push('\n');
            line
        }
        Outcome::NoPlan => format!("NONE {count} 0\n"),
        Outcome::NoRoom => format!("ROOM {count} 0\n"),
        Outcome::Long => format!("LONG {count} {length}\n"),
        Outcome::Refused(refusal) => format!("BAD {} {}\n", refusal.number, refusal.place),
    }
}
