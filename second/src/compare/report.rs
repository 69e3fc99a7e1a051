//! A call and its two answers as text.

use super::call::{perform, Call, Seen, Work};
use super::lent::{Lent, Noise};
use super::side::Side;
use crate::sheet::Sheet;
use std::fmt::{Debug, Write};

/// Bytes in hexadecimal.
pub fn hex(bytes: &[u8]) -> String {
    let mut text = String::new();
    for byte in bytes {
        text.push_str(&format!("{byte:02x}"));
    }
    if text.is_empty() {
        text.push('-');
    }
    text
}

/// Sets in hexadecimal.
fn hex_sets(sets: &[u64]) -> String {
    let words: Vec<String> = sets.iter().map(|set| format!("{set:x}")).collect();
    words.join(" ")
}

/// The input of a call, one part on each line.
fn input(work: &Work) -> String {
    let (name, parts) = match work {
        Work::Read { sheet } => ("read", vec![part("sheet", sheet)]),
        Work::View {
            sheet,
            command,
            state,
        } => {
            let numbers = format!("command {command:#x}, state {state:#x}");
            ("view", vec![part("sheet", sheet), numbers])
        }
        Work::Write { numbers, room } => ("write", numbers_and_room(numbers, *room)),
        Work::Judge { sheet, plan } => ("judge", vec![part("sheet", sheet), part("plan", plan)]),
        Work::Better {
            sheet,
            first,
            second,
        } => {
            let plans = [part("first", first), part("second", second)];
            (
                "better",
                [vec![part("sheet", sheet)], plans.to_vec()].concat(),
            )
        }
        Work::Search {
            sheet,
            places,
            plan_bytes,
        } => {
            let sizes = format!("places {places}, plan buffer {plan_bytes}");
            ("search", vec![part("sheet", sheet), sizes])
        }
        Work::Here { sheet, plan_bytes } => {
            let size = format!("no lent store, plan buffer {plan_bytes}");
            ("search", vec![part("sheet", sheet), size])
        }
    };
    format!("{name}\n  {}\n", parts.join("\n  "))
}

/// Bytes with their name.
fn part(name: &str, bytes: &[u8]) -> String {
    format!("{name} {}", hex(bytes))
}

/// The input of the writer.
fn numbers_and_room(numbers: &Sheet, room: usize) -> Vec<String> {
    let Sheet {
        states,
        commands,
        initial,
        goal,
        following,
    } = numbers;
    vec![
        format!("states {states:#x}, commands {commands:#x}, initial {initial:#x}, goal {goal:#x}"),
        format!("sets {}", hex_sets(following)),
        format!("room {room}"),
    ]
}

/// The call, both answers, and the first difference in each buffer.
pub fn text(ours: &dyn Side, other: &dyn Side, call: &Call) -> String {
    let (one, two) = (perform(ours, call), perform(other, call));
    let mut text = input(&call.work);
    let _ = writeln!(text, "  second's answer {:x?}", one.answer.part());
    let _ = writeln!(text, "  proved answer   {:x?}", two.answer.part());
    text.push_str(&difference("answer", &one.answer, &two.answer));
    for (index, (one, two)) in one.bytes.iter().zip(&two.bytes).enumerate() {
        text.push_str(&difference(name(&call.work, index), one, two));
    }
    text.push_str(&others(&one, &two));
    text
}

/// What the buffer of bytes with this index is.
fn name(work: &Work, index: usize) -> &'static str {
    match (work, index) {
        (Work::Write { .. }, _) => "output",
        (_, 0) => "sheet",
        (Work::Better { .. }, 1) => "first plan",
        (Work::Better { .. }, _) => "second plan",
        (Work::Judge { .. }, _) => "plan",
        _ => "plan buffer",
    }
}

/// The differences of sets and stores.
fn others(one: &Seen, two: &Seen) -> String {
    let mut text = String::new();
    if let (Some(one), Some(two)) = (&one.sets, &two.sets) {
        text.push_str(&difference("sets", one, two));
    }
    if let (Some(one), Some(two)) = (&one.store, &two.store) {
        text.push_str(&difference("store", one, two));
    }
    text
}

/// A line about the first difference of two buffers, if there is one.
fn difference<T: Noise + Debug>(name: &str, one: &Lent<T>, two: &Lent<T>) -> String {
    match one.difference(two) {
        Some((index, one, two)) => {
            format!("  {name} differs at {index}: second {one:x?}, proved {two:x?}\n")
        }
        None => String::new(),
    }
}
