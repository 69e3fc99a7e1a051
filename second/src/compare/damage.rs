//! Bytes that are no sheet, or a different one from what they were.

use super::sheets::{pick, sheet, small};
use crate::random::Random;
use crate::sheet::{Sheet, HEAD};

/// Counts that are too small, too large, or just right.
const COUNTS: [u64; 9] = [0, 1, 32, 33, 64, 65, 128, 254, 255];

/// Bytes for any call: a sheet, a damaged one, or something else altogether.
pub fn bytes(random: &mut Random, damaged_percent: u64) -> Vec<u8> {
    let whole = bytes_of(&sheet(random));
    if random.percent(damaged_percent) {
        damaged(random, whole)
    } else {
        whole
    }
}

/// The bytes of a small sheet, all of whose single-byte changes can be tried.
pub fn small_bytes(random: &mut Random) -> Vec<u8> {
    bytes_of(&small(random))
}

/// The bytes of a sheet that can be written.
pub fn bytes_of(sheet: &Sheet) -> Vec<u8> {
    sheet.to_bytes().expect("the sheet can be written")
}

/// The bytes of a sheet for a search, now and then damaged.
pub fn searchable(random: &mut Random, numbers: &Sheet) -> Vec<u8> {
    let bytes = bytes_of(numbers);
    if random.percent(4) {
        damaged(random, bytes)
    } else {
        bytes
    }
}

/// Damages bytes in one way or in several.
pub fn damaged(random: &mut Random, bytes: Vec<u8>) -> Vec<u8> {
    let mut bytes = bytes;
    let times = pick(random, &[1, 1, 1, 1, 2, 3]);
    for _ in 0..times {
        damage(random, &mut bytes);
    }
    bytes
}

/// Damages bytes in one way.
fn damage(random: &mut Random, bytes: &mut Vec<u8>) {
    match random.below(14) {
        0 => change(random, bytes, 0),
        1 => change(random, bytes, 5),
        2 => cut(random, bytes),
        3 => bytes.truncate(random.below(6) as usize),
        4 => lengthen(random, bytes),
        5 => restate(random, bytes),
        6 => put(random, bytes, 0),
        7 => count(random, bytes, 5),
        8 => count(random, bytes, 6),
        9 => set(random, bytes, 7),
        10 => set(random, bytes, 15),
        11 | 12 => {
            let index = random.below((bytes.len() / 8 + 1) as u64) as usize;
            set(random, bytes, HEAD + 8 * index);
        }
        _ => *bytes = anything(random),
    }
}

/// Changes one byte at or after this offset, often in the head.
fn change(random: &mut Random, bytes: &mut [u8], from: usize) {
    if from < bytes.len() {
        let span = (bytes.len() - from) as u64;
        let reach = pick(random, &[18.min(span), span]);
        let index = random_index(random, reach);
        put(random, bytes, from + index);
    }
}

/// An index under this number.
fn random_index(random: &mut Random, below: u64) -> usize {
    random.below(below) as usize
}

/// Puts another byte at this offset, if it is there.
fn put(random: &mut Random, bytes: &mut [u8], offset: usize) {
    if let Some(byte) = bytes.get_mut(offset) {
        *byte ^= match random.below(3) {
            0 => 1 << random.below(8),
            1 => 0x80,
            _ => random.between(1, 255) as u8,
        };
    }
}

/// Cuts off the end, now and then with the length stated anew.
fn cut(random: &mut Random, bytes: &mut Vec<u8>) {
    let length = random_index(random, bytes.len() as u64 + 1);
    let little = bytes.len() - random_index(random, 10).min(bytes.len());
    bytes.truncate(if random.percent(50) { length } else { little });
    if random.percent(50) {
        state_length(bytes);
    }
}

/// Adds random bytes at the end, now and then with the length stated anew, and seldom so many that
/// they are more than the largest sheet.
fn lengthen(random: &mut Random, bytes: &mut Vec<u8>) {
    let more = match random.below(100) {
        0 => random.between(16_000, 70_000),
        1..=39 => 8 * random.between(1, 8),
        _ => random.between(1, 20),
    };
    bytes.extend(random.bytes(more as usize));
    if random.percent(50) {
        state_length(bytes);
    }
}

/// States the true length of what follows the length field.
fn state_length(bytes: &mut [u8]) {
    if bytes.len() >= 5 {
        let after = (bytes.len() - 5) as u32;
        bytes[1..5].copy_from_slice(&after.to_be_bytes());
    }
}

/// States a wrong length, often nearly the right one.
fn restate(random: &mut Random, bytes: &mut [u8]) {
    if bytes.len() >= 5 {
        let stated = u32::from_be_bytes([bytes[1], bytes[2], bytes[3], bytes[4]]);
        let by = pick(random, &[1, 5, 8, 23, 256, 1 << 16, 1 << 24]) as u32;
        let wrong = match random.below(4) {
            0 => stated.wrapping_add(by),
            1 => stated.wrapping_sub(by),
            2 => random.number() as u32,
            _ => pick(random, &[0, 17, 18, u64::from(u32::MAX)]) as u32,
        };
        bytes[1..5].copy_from_slice(&wrong.to_be_bytes());
    }
}

/// Puts another count at this offset, now and then with a length that goes with it.
fn count(random: &mut Random, bytes: &mut Vec<u8>, offset: usize) {
    if bytes.len() < HEAD {
        return;
    }
    bytes[offset] = match random.below(3) {
        0 => bytes[offset].wrapping_add(1),
        1 => bytes[offset].wrapping_sub(1),
        _ => pick(random, &COUNTS) as u8,
    };
    if random.percent(50) {
        let sets = usize::from(bytes[5]) * usize::from(bytes[6]);
        bytes.resize(HEAD + 8 * sets.min(2_100), 0);
        state_length(bytes);
    }
}

/// Puts another set at this offset, if there is one.
fn set(random: &mut Random, bytes: &mut [u8], offset: usize) {
    if offset + 8 > bytes.len() {
        return;
    }
    let states = u32::from(bytes[5]);
    let other: u64 = match random.below(4) {
        0 => 0,
        1 => random.number(),
        2 => 1u64.checked_shl(states).unwrap_or(1 << 63),
        _ => 1 << random.below(64),
    };
    bytes[offset..offset + 8].copy_from_slice(&other.to_be_bytes());
}

/// Random bytes, now and then with a frame and counts that fit.
fn anything(random: &mut Random) -> Vec<u8> {
    let most = pick(random, &[8, 30, 80, 300]);
    let length = random_index(random, most);
    let mut bytes = random.bytes(length);
    if length > 7 && random.percent(60) {
        bytes[0] = 1;
        state_length(&mut bytes);
        bytes[5] = random.between(0, 66) as u8;
        bytes[6] = random.between(0, 34) as u8;
    }
    bytes
}
