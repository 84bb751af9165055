//! Requests for entries: few of them, with few message numbers, filed below, at and above the room, with dead bytes about as many as a
//! number can say.

use super::Numbers;
use crate::operations::{INSERT, LOOKUP};
use crate::pieces::words;

/// The length of a body: of a record, or about as long as a number can say.
fn body(numbers: &mut Numbers) -> u64 {
    match numbers.below(4) {
        0 => u64::MAX - numbers.below(30),
        1 => numbers.number(),
        _ => numbers.below(300),
    }
}

/// A lent index: few entries, of which some have the same number; now and then many.
fn index(numbers: &mut Numbers, known: &[u64]) -> Vec<[u64; 3]> {
    let room = match numbers.below(100) {
        0 => 1024,
        1..=9 => numbers.below(40),
        _ => numbers.below(7),
    };
    let own = numbers.one_in(2);
    let mut entries = Vec::new();
    for turn in 0..room {
        let number = if own { known[0].wrapping_add(turn) } else { numbers.pick(known) };
        entries.push([number, numbers.number(), body(numbers)]);
    }
    entries
}

/// How many entries are in use, of so many.
fn count(numbers: &mut Numbers, room: u64) -> u64 {
    match numbers.below(6) {
        0 | 1 => room,
        2 => room + 1,
        3 => room.saturating_sub(1),
        4 => numbers.pick(&[0, 1 << 32, 1 << 63, u64::MAX]),
        _ => numbers.below(room + 1),
    }
}

/// Message numbers of which the entries have some.
fn known(numbers: &mut Numbers) -> [u64; 4] {
    let first = numbers.number();
    [first, first.wrapping_add(1), first ^ 1 << 32, first ^ 1 << 63]
}

/// A number to look for: of one of the entries, or another.
fn sought(numbers: &mut Numbers, entries: &[[u64; 3]], known: &[u64]) -> u64 {
    match entries.is_empty() || numbers.one_in(3) {
        true => numbers.pick(known),
        false => numbers.pick(entries)[0],
    }
}

fn front(operation: u8, entries: &[[u64; 3]]) -> Vec<u8> {
    [&[operation], &(entries.len() as u32).to_le_bytes()[..], &words(entries.as_flattened())].concat()
}

pub fn insert(numbers: &mut Numbers) -> Vec<u8> {
    let known = known(numbers);
    let entries = index(numbers, &known);
    let count = count(numbers, entries.len() as u64);
    let number = sought(numbers, &entries, &known);
    let filed = entries.iter().find(|entry| entry[0] == number);
    let dead = match (numbers.below(4), filed) {
        // The old record's length just fits, or doesn't.
        (0 | 1, Some(entry)) => u64::MAX.wrapping_sub(12).wrapping_sub(entry[2]).wrapping_add(numbers.below(3)).wrapping_sub(1),
        (2, _) => u64::MAX - numbers.below(40),
        _ => numbers.number(),
    };
    let entry = [number, numbers.number(), body(numbers)];
    [front(INSERT, &entries), words(&[count, dead]), words(&entry)].concat()
}

pub fn lookup(numbers: &mut Numbers) -> Vec<u8> {
    let known = known(numbers);
    let entries = index(numbers, &known);
    let (count, number) = (count(numbers, entries.len() as u64), sought(numbers, &entries, &known));
    [front(LOOKUP, &entries), words(&[count, number])].concat()
}
