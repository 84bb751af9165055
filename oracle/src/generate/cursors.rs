//! Requests for fields: each width, at cursors around the end of the bytes and far past it.

use super::Numbers;
use crate::operations::{PUT, TAKE};
use crate::pieces::run;

const WIDTHS: [u8; 5] = [0, 1, 2, 4, 8];

/// A cursor for a field of so many bytes: it fits, ends with the bytes, or doesn't fit by a little or by much.
fn cursor(numbers: &mut Numbers, length: u64, field: u64) -> u64 {
    let last = length.saturating_sub(field);
    match numbers.below(8) {
        0 => last,
        1 => last + 1,
        2 => length,
        3 => length + 1,
        4 => numbers.pick(&[1 << 32, 1 << 63, u64::MAX - 8, u64::MAX]),
        // The field's end passes 2^64.
        5 => 0u64.wrapping_sub(field).wrapping_add(numbers.below(length + 1)),
        _ => numbers.below(last + 1),
    }
}

/// The length of a run, of bytes of which so many are.
fn count(numbers: &mut Numbers, length: u64) -> u64 {
    match numbers.below(8) {
        0 => 0,
        1 => length,
        2 => length + 1,
        3 => numbers.number(),
        _ => numbers.below(length + 1),
    }
}

fn some_bytes(numbers: &mut Numbers) -> Vec<u8> {
    let most = numbers.pick(&[1, 10, 30, 30, 300]);
    let length = numbers.below(most);
    numbers.bytes(length)
}

pub fn take(numbers: &mut Numbers) -> Vec<u8> {
    let (width, bytes) = (numbers.pick(&WIDTHS), some_bytes(numbers));
    let length = bytes.len() as u64;
    let count = count(numbers, length);
    let cursor = cursor(numbers, length, if width == 0 { count } else { u64::from(width) });
    [&[TAKE, width], &cursor.to_le_bytes()[..], &count.to_le_bytes(), &run(&bytes)].concat()
}

pub fn put(numbers: &mut Numbers) -> Vec<u8> {
    let (width, buffer) = (numbers.pick(&WIDTHS), some_bytes(numbers));
    let length = buffer.len() as u64;
    let what = match width {
        0 => count(numbers, length).min(length + 1),
        _ => numbers.below(4),
    };
    let what = numbers.bytes(what);
    let cursor = cursor(numbers, length, if width == 0 { what.len() as u64 } else { u64::from(width) });
    let value = numbers.number();
    [&[PUT, width], &cursor.to_le_bytes()[..], &value.to_le_bytes(), &run(&what), &run(&buffer)].concat()
}
