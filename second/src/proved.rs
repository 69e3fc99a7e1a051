//! The proved archive, linked: its exported functions, and safe calls of them.

use crate::compare::side::{Searches, Side};
use crate::search::Record;
use std::mem::{align_of, offset_of, size_of};

extern "C" {
    fn potuchlan_read(sheet: *const u8, n: usize, answer: *mut u64);
    fn potuchlan_write(
        states: usize,
        commands: usize,
        initial: u64,
        goal: u64,
        sets: *const u64,
        count: usize,
        out: *mut u8,
        room: usize,
        answer: *mut u64,
    );
    fn potuchlan_following(
        sheet: *const u8,
        n: usize,
        command: usize,
        state: usize,
        answer: *mut u64,
    );
    fn potuchlan_judge(sheet: *const u8, n: usize, plan: *const u8, m: usize, answer: *mut u64);
    fn potuchlan_better(
        sheet: *const u8,
        n: usize,
        first: *const u8,
        a: usize,
        second: *const u8,
        b: usize,
    ) -> u8;
    #[cfg(proved_lent)]
    fn potuchlan_search(
        sheet: *const u8,
        n: usize,
        store: *mut Record,
        places: usize,
        plan: *mut u8,
        m: usize,
        answer: *mut u64,
    );
    #[cfg(proved_own)]
    fn potuchlan_search_here(sheet: *const u8, n: usize, plan: *mut u8, m: usize, answer: *mut u64);
}

// The archive's record has this layout, and its counts are 64-bit numbers.
const _: () = assert!(size_of::<Record>() == 16 && align_of::<Record>() == 8);
const _: () = assert!(offset_of!(Record, set) == 0 && offset_of!(Record, parent) == 8);
const _: () = assert!(offset_of!(Record, command) == 12);
const _: () = assert!(size_of::<usize>() == 8);

/// The archive's side.
pub struct Proved;

// In each call every pointer comes from a slice or an array, is not null, is aligned, and is valid
// for the length that goes with it; what is written to is lent to this call alone.
impl Side for Proved {
    fn read(&self, sheet: &[u8], answer: &mut [u64; 6]) {
        unsafe { potuchlan_read(sheet.as_ptr(), sheet.len(), answer.as_mut_ptr()) }
    }

    fn write(&self, head: &[u64; 4], sets: &[u64], output: &mut [u8], answer: &mut [u64; 3]) {
        let [states, commands, initial, goal] = *head;
        unsafe {
            potuchlan_write(
                states as usize,
                commands as usize,
                initial,
                goal,
                sets.as_ptr(),
                sets.len(),
                output.as_mut_ptr(),
                output.len(),
                answer.as_mut_ptr(),
            )
        }
    }

    fn following(&self, sheet: &[u8], command: u64, state: u64, answer: &mut [u64; 2]) {
        let (command, state) = (command as usize, state as usize);
        let answer = answer.as_mut_ptr();
        unsafe { potuchlan_following(sheet.as_ptr(), sheet.len(), command, state, answer) }
    }

    fn judge(&self, sheet: &[u8], plan: &[u8], answer: &mut [u64; 4]) {
        let (n, m) = (sheet.len(), plan.len());
        unsafe { potuchlan_judge(sheet.as_ptr(), n, plan.as_ptr(), m, answer.as_mut_ptr()) }
    }

    fn better(&self, sheet: &[u8], first: &[u8], second: &[u8]) -> u8 {
        let (n, a, b) = (sheet.len(), first.len(), second.len());
        unsafe { potuchlan_better(sheet.as_ptr(), n, first.as_ptr(), a, second.as_ptr(), b) }
    }

    fn searches(&self) -> Searches {
        Searches {
            lent: cfg!(proved_lent),
            own: cfg!(proved_own),
        }
    }

    #[cfg(proved_lent)]
    fn search(&self, sheet: &[u8], store: &mut [Record], plan: &mut [u8], answer: &mut [u64; 4]) {
        unsafe {
            potuchlan_search(
                sheet.as_ptr(),
                sheet.len(),
                store.as_mut_ptr(),
                store.len(),
                plan.as_mut_ptr(),
                plan.len(),
                answer.as_mut_ptr(),
            )
        }
    }

    #[cfg(not(proved_lent))]
    fn search(&self, _: &[u8], _: &mut [Record], _: &mut [u8], _: &mut [u64; 4]) {
        unreachable!("this archive has no search in a lent store");
    }

    #[cfg(proved_own)]
    fn search_here(&self, sheet: &[u8], plan: &mut [u8], answer: &mut [u64; 4]) {
        let (n, m, answer) = (sheet.len(), plan.len(), answer.as_mut_ptr());
        unsafe { potuchlan_search_here(sheet.as_ptr(), n, plan.as_mut_ptr(), m, answer) }
    }

    #[cfg(not(proved_own))]
    fn search_here(&self, _: &[u8], _: &mut [u8], _: &mut [u64; 4]) {
        unreachable!("this archive has no search in a store of its own");
    }
}
