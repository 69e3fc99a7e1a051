//! The printed line, and the program as it is run.

mod common;

use common::{answer, bytes_of};
use second::examples::{self, bench, tray};
use second::printing::{line, words, MOST_INPUT};
use second::search::Outcome;
use second::sheet::{Refusal, Sheet, LARGEST};
use std::fs;
use std::io::Write;
use std::path::PathBuf;
use std::process::{Command, Output, Stdio};

#[test]
fn one_line_for_each_outcome() {
    let plan = [7, 0, 31, 9];
    let line = |outcome, count, length| words(&answer(outcome, count, length), &plan);
    assert_eq!(line(Outcome::Plan, 12, 3), "PLAN 12 3 7 0 31\n");
    assert_eq!(line(Outcome::Plan, 1, 0), "PLAN 1 0\n");
    assert_eq!(line(Outcome::NoPlan, 3, 0), "NONE 3 0\n");
    assert_eq!(line(Outcome::NoRoom, 4_096, 0), "ROOM 4096 0\n");
    assert_eq!(line(Outcome::Long, 17, 5), "LONG 17 5\n");
    let refusal = Refusal::new(8, 31);
    assert_eq!(line(Outcome::Refused(refusal), 0, 0), "BAD 8 31\n");
}

#[test]
fn lines_for_sheets() {
    assert_eq!(line(&bytes_of(&bench::s())), "PLAN 2 1 1\n");
    assert_eq!(line(&bytes_of(&bench::s_with_goal(3))), "PLAN 1 0\n");
    assert_eq!(line(&bytes_of(&bench::s_with_goal(0))), "NONE 3 0\n");
    let no_goal = bytes_of(&tray::tray(u64::MAX, 0));
    assert_eq!(line(&no_goal), "NONE 1296 0\n");
}

/// A sheet with 2^13 - 1 sets and no plan.
fn wide() -> Sheet {
    Sheet::from_rule((13, 13), (1 << 13) - 1, 0, |command, state| {
        let to = if state == command { state + 1 } else { state };
        1 << (to % 13)
    })
}

#[test]
fn more_sets_than_the_program_has_places() {
    assert_eq!(line(&bytes_of(&wide())), "ROOM 4096 0\n");
}

#[test]
fn input_is_cut_after_the_bytes_that_are_read() {
    let largest = bytes_of(&Sheet::from_rule((64, 32), 1, 1, |_, _| 1));
    assert_eq!(largest.len(), LARGEST);
    assert_eq!(line(&largest), "PLAN 1 0\n");
    for more in [1, 2, 1_000] {
        let mut longer = largest.clone();
        longer.resize(LARGEST + more, 0);
        assert_eq!(line(&longer), "BAD 3 1\n");
    }
    let mut fits_when_cut = largest;
    fits_when_cut[4] += 1;
    fits_when_cut.resize(MOST_INPUT + 1_000, 0);
    assert_eq!(line(&fits_when_cut), "BAD 5 1\n");
}

/// An empty directory for one test.
fn directory(name: &str) -> PathBuf {
    let path = PathBuf::from(env!("CARGO_TARGET_TMPDIR")).join(name);
    let _ = fs::remove_dir_all(&path);
    fs::create_dir_all(&path).expect("the directory can be made");
    path
}

/// Runs the program with these arguments and this standard input.
fn program(arguments: &[&str], input: &[u8]) -> Output {
    let mut child = Command::new(env!("CARGO_BIN_EXE_second"))
        .args(arguments)
        .stdin(Stdio::piped())
        .stdout(Stdio::piped())
        .stderr(Stdio::piped())
        .spawn()
        .expect("the program starts");
    let mut pipe = child.stdin.take().expect("its input is a pipe");
    let _ = pipe.write_all(input);
    drop(pipe);
    child.wait_with_output().expect("the program ends")
}

#[test]
fn examples_are_written_and_shown() {
    let directory = directory("examples");
    let path = directory.to_str().expect("the path is text");
    assert!(program(&["examples", path], &[]).status.success());
    for example in examples::all() {
        let sheet = directory.join(format!("{}.sheet", example.name));
        let text = directory.join(format!("{}.txt", example.name));
        assert_eq!(fs::read(&sheet).unwrap(), example.bytes);
        assert_eq!(fs::read_to_string(text).unwrap(), example.about + "\n");
        let shown = program(&["show", sheet.to_str().unwrap()], &[]);
        assert!(shown.status.success() && shown.stderr.is_empty());
        assert_eq!(shown.stdout, line(&example.bytes).as_bytes());
    }
    let files = fs::read_dir(&directory).unwrap().count();
    assert_eq!(files, 2 * examples::all().len());
}

#[test]
fn standard_input_is_shown_too() {
    let shown = program(&["show", "-"], &bytes_of(&bench::s()));
    assert_eq!(shown.stdout, b"PLAN 2 1 1\n");
    let shown = program(&["show", "-"], &[0; 40_000]);
    assert_eq!(shown.stdout, b"BAD 2 0\n");
}

#[test]
fn wrong_calls_are_told_apart() {
    assert_eq!(program(&[], &[]).status.code(), Some(2));
    assert_eq!(program(&["show"], &[]).status.code(), Some(2));
    let directory = directory("nothing");
    let missing = directory.join("missing.sheet");
    let shown = program(&["show", missing.to_str().unwrap()], &[]);
    assert_eq!(shown.status.code(), Some(1));
    assert!(shown.stdout.is_empty());
}
