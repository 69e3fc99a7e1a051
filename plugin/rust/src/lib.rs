//! Plans for film scanners whose state is not known for sure.
//!
//! A *sheet* describes one scanner: its states, its commands, what each command may lead to, the states it may be in
//! now, and the states wanted. A *plan* is a row of commands, one byte each, and it is good when it leads to a wanted
//! state from every state that the scanner may be in, whatever the commands do. This crate reads and writes sheets,
//! judges a plan, picks the better of two, and searches for the shortest one.
//!
//! The work is done by a library that is proved to answer as is said here; this crate only gives its answers Rust's
//! types. Every function takes any input: what is wrong with it is told by a [`Refusal`]. Nothing is allocated.
//!
//! ```
//! // Two states and two commands: command 0 swaps the states, command 1 leads to state 0 from both.
//! let head = potuchlan::Head { states: 2, commands: 2, initial: 3, goal: 1 };
//! let mut bytes = [0; 55];
//! let length = potuchlan::write(head, &[2, 1, 1, 1], &mut bytes).unwrap();
//! let sheet = &bytes[..length];
//!
//! let mut plan = [0; 16];
//! let mut store = [potuchlan::Node::default(); 16];
//! let searched = potuchlan::search(sheet, &mut store, &mut plan);
//! assert_eq!(searched.verdict, Ok(potuchlan::Found::Plan(&[1])));
//! assert_eq!(potuchlan::judge(sheet, &[1]).verdict, Ok(()));
//! ```
#![warn(missing_docs)]

use std::error::Error;
use std::fmt;

#[cfg(not(all(target_arch = "x86_64", target_os = "linux")))]
compile_error!("the library is for x86-64 Linux");

/// A set of states: bit `s` stands for state `s`.
pub type Set = u64;

mod boundary {
    //! The archive's functions. A slice passes as a pointer and a number of elements, and an array as a pointer.
    extern "C" {
        pub fn potuchlan_read(sheet: *const u8, sheet_length: usize, answer: *mut [u64; 6]);
        pub fn potuchlan_write(
            states: usize,
            commands: usize,
            initial: u64,
            goal: u64,
            sets: *const u64,
            set_count: usize,
            out: *mut u8,
            out_length: usize,
            answer: *mut [u64; 3],
        );
        pub fn potuchlan_following(
            sheet: *const u8,
            sheet_length: usize,
            command: usize,
            state: usize,
            answer: *mut [u64; 2],
        );
        pub fn potuchlan_judge(
            sheet: *const u8,
            sheet_length: usize,
            plan: *const u8,
            plan_length: usize,
            answer: *mut [u64; 4],
        );
        pub fn potuchlan_better(
            sheet: *const u8,
            sheet_length: usize,
            first: *const u8,
            first_length: usize,
            second: *const u8,
            second_length: usize,
        ) -> u8;
        pub fn potuchlan_search(
            sheet: *const u8,
            sheet_length: usize,
            store: *mut super::Node,
            places: usize,
            plan: *mut u8,
            plan_length: usize,
            answer: *mut [u64; 4],
        );
        pub fn potuchlan_search_here(
            sheet: *const u8,
            sheet_length: usize,
            plan: *mut u8,
            plan_length: usize,
            answer: *mut [u64; 4],
        );
    }
}

/// Why something is refused. The checks run in this order, and a sheet's own reasons come before any other.
#[derive(Clone, Copy, Debug, PartialEq, Eq, Hash)]
#[repr(u8)]
pub enum Reason {
    /// The sheet has under 5 bytes. The place is its length.
    ShortInput = 1,
    /// The version is not 1. The place is 0.
    Version = 2,
    /// The stated length differs from the bytes after it, or is under 18. The place is 1.
    Length = 3,
    /// States outside 1 to 64 (the place is 5), or else commands outside 1 to 32 (the place is 6).
    Counts = 4,
    /// The stated length, or in writing the number of sets, does not fit the counts. The place is 1.
    Uneven = 5,
    /// The initial set is empty or names a missing state. The place is 7.
    Initial = 6,
    /// The goal names a missing state. The place is 15.
    Goal = 7,
    /// A following set names a missing state. The place is the byte offset of the first such.
    Following = 8,
    /// The output is too short for the sheet. The place is the number of bytes needed.
    ShortOutput = 9,
    /// The plan holds a byte that is no command. The place is the index of the first.
    NoCommand = 10,
    /// A command of the plan cannot be taken in some state that is possible there. The place is its index.
    NotSendable = 11,
    /// The plan does not surely end in the goal. The place is its length.
    NotInside = 12,
    /// The store is full and the search is not done. The place is 0.
    NoRoom = 13,
    /// The plan buffer is shorter than the plan. The place is the length of the plan.
    ShortPlan = 14,
}

impl Reason {
    /// The number of the reason.
    pub fn number(self) -> u8 {
        self as u8
    }

    /// The reason with that number, from 1 to 14.
    pub fn from_number(number: u8) -> Option<Reason> {
        use Reason::*;
        const ALL: [Reason; 14] = [
            ShortInput,
            Version,
            Length,
            Counts,
            Uneven,
            Initial,
            Goal,
            Following,
            ShortOutput,
            NoCommand,
            NotSendable,
            NotInside,
            NoRoom,
            ShortPlan,
        ];
        ALL.get(usize::from(number).checked_sub(1)?).copied()
    }
}

impl fmt::Display for Reason {
    fn fmt(&self, f: &mut fmt::Formatter<'_>) -> fmt::Result {
        f.write_str(match self {
            Reason::ShortInput => "the sheet has under 5 bytes",
            Reason::Version => "the version is not 1",
            Reason::Length => "the stated length is wrong",
            Reason::Counts => "the count of states or of commands is out of range",
            Reason::Uneven => "the length does not fit the counts",
            Reason::Initial => "the initial set is empty or names a missing state",
            Reason::Goal => "the goal names a missing state",
            Reason::Following => "a following set names a missing state",
            Reason::ShortOutput => "the output is too short for the sheet",
            Reason::NoCommand => "the plan holds a byte that is no command",
            Reason::NotSendable => "a command of the plan is not sendable",
            Reason::NotInside => "the plan does not surely end in the goal",
            Reason::NoRoom => "the store has no room",
            Reason::ShortPlan => "the plan buffer is shorter than the plan",
        })
    }
}

/// A refusal: why, and where.
#[derive(Clone, Copy, Debug, PartialEq, Eq, Hash)]
pub struct Refusal {
    /// Why.
    pub reason: Reason,
    /// Where, as the [`Reason`] says.
    pub place: usize,
}

impl fmt::Display for Refusal {
    fn fmt(&self, f: &mut fmt::Formatter<'_>) -> fmt::Result {
        write!(
            f,
            "refusal {} at {}: {}",
            self.reason.number(),
            self.place,
            self.reason
        )
    }
}

impl Error for Refusal {}

/// What a sheet says before its following sets.
#[derive(Clone, Copy, Debug, PartialEq, Eq, Hash)]
pub struct Head {
    /// How many states there are, 1 to 64.
    pub states: usize,
    /// How many commands there are, 1 to 32.
    pub commands: usize,
    /// The states that the scanner may be in now.
    pub initial: Set,
    /// The states wanted.
    pub goal: Set,
}

// The number and the place of an answer: nothing for 0, else the refusal.
fn outcome(number: u64, place: u64) -> Result<(), Refusal> {
    if number == 0 {
        return Ok(());
    }
    let reason = u8::try_from(number).ok().and_then(Reason::from_number);
    Err(Refusal {
        reason: reason.expect("the library gives the numbers 1 to 14"),
        place: place as usize,
    })
}

/// Reads a sheet.
pub fn read(sheet: &[u8]) -> Result<Head, Refusal> {
    let mut a = [0; 6];
    // SAFETY: the pointers and lengths are those of live slices, and the array is borrowed by nothing else.
    unsafe { boundary::potuchlan_read(sheet.as_ptr(), sheet.len(), &mut a) };
    outcome(a[0], a[1]).map(|()| Head {
        states: a[2] as usize,
        commands: a[3] as usize,
        initial: a[4],
        goal: a[5],
    })
}

/// Writes a sheet into the start of `out`, and says how many bytes it has. The following sets are all states of command
/// 0, then of command 1, and so on. The rest of `out` stays as it was, and after a refusal all of it does.
pub fn write(head: Head, sets: &[Set], out: &mut [u8]) -> Result<usize, Refusal> {
    let mut a = [0; 3];
    // SAFETY: as in `read`; `out` is borrowed mutably, so it overlaps no other.
    unsafe {
        boundary::potuchlan_write(
            head.states,
            head.commands,
            head.initial,
            head.goal,
            sets.as_ptr(),
            sets.len(),
            out.as_mut_ptr(),
            out.len(),
            &mut a,
        )
    };
    outcome(a[0], a[1]).map(|()| a[2] as usize)
}

/// The bytes of the following set of a command and a state, as a part of the sheet: 8 bytes, the first counting most.
/// There are none where the command or the state is missing, or the sheet is refused.
pub fn following(sheet: &[u8], command: usize, state: usize) -> &[u8] {
    let mut a = [0; 2];
    // SAFETY: as in `read`.
    unsafe { boundary::potuchlan_following(sheet.as_ptr(), sheet.len(), command, state, &mut a) };
    &sheet[a[0] as usize..][..a[1] as usize]
}

/// What the judge says of a plan.
#[derive(Clone, Copy, Debug, PartialEq, Eq, Hash)]
pub struct Judged {
    /// Nothing for a good plan, or what is wrong with the plan or with the sheet.
    pub verdict: Result<(), Refusal>,
    /// The last set for a good plan and for [`Reason::NotInside`], the set before the command for
    /// [`Reason::NotSendable`], and else the empty set.
    pub set: Set,
    /// How many states are still possible: the number of states of that set.
    pub left: u32,
}

/// Judges a plan against a sheet.
pub fn judge(sheet: &[u8], plan: &[u8]) -> Judged {
    let mut a = [0; 4];
    // SAFETY: as in `read`.
    unsafe {
        boundary::potuchlan_judge(
            sheet.as_ptr(),
            sheet.len(),
            plan.as_ptr(),
            plan.len(),
            &mut a,
        )
    };
    Judged {
        verdict: outcome(a[0], a[1]),
        set: a[2],
        left: a[3] as u32,
    }
}

/// Which of two plans is the better, with its bytes.
#[derive(Clone, Copy, Debug, PartialEq, Eq, Hash)]
pub enum Better<'a> {
    /// The first: it is good, and the second is not good or not shorter.
    First(&'a [u8]),
    /// The second: it is good, and the first is not good or longer.
    Second(&'a [u8]),
    /// Neither is good, or the sheet is refused. The bytes are the first plan's empty start.
    Neither(&'a [u8]),
}

impl<'a> Better<'a> {
    /// The bytes of the better plan, and none where neither is good.
    pub fn plan(self) -> &'a [u8] {
        match self {
            Better::First(plan) | Better::Second(plan) | Better::Neither(plan) => plan,
        }
    }
}

/// Of two plans the shorter good one; the first if both are good and equally long. [`judge`] tells why a plan is not
/// good.
pub fn better<'a>(sheet: &[u8], first: &'a [u8], second: &'a [u8]) -> Better<'a> {
    // SAFETY: as in `read`.
    let which = unsafe {
        boundary::potuchlan_better(
            sheet.as_ptr(),
            sheet.len(),
            first.as_ptr(),
            first.len(),
            second.as_ptr(),
            second.len(),
        )
    };
    match which {
        1 => Better::First(first),
        2 => Better::Second(second),
        _ => Better::Neither(&first[..0]),
    }
}

/// One place of a search's store.
#[derive(Clone, Copy, Debug, Default, PartialEq, Eq, Hash)]
#[repr(C)]
pub struct Node {
    /// A set of states.
    pub set: Set,
    /// The place of the set that it came from; 0 at place 0.
    pub parent: u32,
    /// The command that led to it; 255 at place 0.
    pub command: u8,
}

/// What a search finds.
#[derive(Clone, Copy, Debug, PartialEq, Eq, Hash)]
pub enum Found<'a> {
    /// The shortest plan, in the start of the plan buffer.
    Plan(&'a [u8]),
    /// There is no plan.
    NoPlan,
}

/// What a search answers.
#[derive(Clone, Copy, Debug, PartialEq, Eq, Hash)]
pub struct Searched<'a> {
    /// What it finds, or a refusal: [`Reason::NoRoom`], [`Reason::ShortPlan`], or the sheet's.
    pub verdict: Result<Found<'a>, Refusal>,
    /// How many sets it has listed.
    pub count: usize,
    /// The length of the plan, also where the plan buffer is too short for it; 0 where there is none.
    pub length: usize,
}

fn searched(a: [u64; 4], plan: &mut [u8]) -> Searched<'_> {
    let length = a[3] as usize;
    let verdict = if a[0] == 255 {
        Ok(Found::NoPlan)
    } else {
        outcome(a[0], a[1]).map(|()| Found::Plan(&plan[..length]))
    };
    Searched {
        verdict,
        count: a[2] as usize,
        length,
    }
}

/// Searches for the shortest plan, over a store that is lent: at most its first 65,536 places are used.
///
/// The first `count` places then hold the sets that sendable sequences of commands give from the initial set, each
/// once, ordered by its first sequence. Later places stay as they were, and so does all of the plan buffer that no plan
/// was written to. A refused sheet changes nothing.
pub fn search<'a>(sheet: &[u8], store: &mut [Node], plan: &'a mut [u8]) -> Searched<'a> {
    let mut a = [0; 4];
    // SAFETY: as in `write`; `Node` has the layout of the library's record.
    unsafe {
        boundary::potuchlan_search(
            sheet.as_ptr(),
            sheet.len(),
            store.as_mut_ptr(),
            store.len(),
            plan.as_mut_ptr(),
            plan.len(),
            &mut a,
        )
    };
    searched(a, plan)
}

/// The same over a store of 4,096 places of its own, which takes some 65 KiB of stack.
pub fn search_here<'a>(sheet: &[u8], plan: &'a mut [u8]) -> Searched<'a> {
    let mut a = [0; 4];
    // SAFETY: as in `write`.
    unsafe {
        boundary::potuchlan_search_here(
            sheet.as_ptr(),
            sheet.len(),
            plan.as_mut_ptr(),
            plan.len(),
            &mut a,
        )
    };
    searched(a, plan)
}
