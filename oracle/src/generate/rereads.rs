//! Requests for re-reads: short journals, some with a prefix, of which one record is pointed at, and what can be wrong with that record, with
//! the entry that points at it and with the message number.

use super::records::{behind, flip, sealed, set_length, spoil_record};
use super::{fronts, records, scans, Numbers};
use crate::file::format::{record_body_len, DATA_START, RECORD_HEADER_LEN};
use crate::operations::REREAD;
use crate::pieces::run;
use crate::reread::LONGEST_BODY;

/// What stands before the record: nothing, few bytes, a prefix, and perhaps other records.
fn front(numbers: &mut Numbers) -> Vec<u8> {
    let mut bytes = match numbers.below(16) {
        0 => fronts::prefix(numbers, 1, DATA_START),
        1..=6 => Vec::new(),
        _ => {
            let length = numbers.below(40);
            numbers.bytes(length)
        }
    };
    for _ in 0..numbers.pick(&[0, 0, 0, 1, 2]) {
        bytes.extend(sealed(numbers));
    }
    bytes
}

/// A frame: mostly short, and now and then so long that hardly more fits into a request.
fn frame(numbers: &mut Numbers) -> Vec<u8> {
    match numbers.below(300) {
        0 => {
            let length = numbers.pick(&[255, 256, 4096, 65_536, 200_000]) + numbers.below(20);
            numbers.bytes(length)
        }
        1..=30 => Vec::new(),
        31..=60 => records::frame(numbers),
        _ => scans::frame(numbers),
    }
}

/// Perhaps something wrong with a sealed record: its body, its length, or some bits.
fn damage(numbers: &mut Numbers, record: &mut Vec<u8>) {
    let length = (record.len() - RECORD_HEADER_LEN) as u64;
    match numbers.below(20) {
        0..=2 => spoil_record(numbers, record),
        3 => {
            record.truncate(RECORD_HEADER_LEN);
            set_length(numbers, record, 0);
        }
        // Its complement agrees.
        4 => {
            let other = length + numbers.pick(&[1, 12, 1 << 8, 1 << 16, 1 << 24, u64::from(u32::MAX)]);
            set_length(numbers, record, other);
        }
        5 => record[..8].rotate_left(4),
        _ => {}
    }
    for _ in 0..numbers.pick(&[0, 0, 0, 0, 0, 0, 1, 2]) {
        match numbers.below(6) {
            0 => flip(numbers, &mut record[..4]),
            1 => flip(numbers, &mut record[4..8]),
            2 => flip(numbers, &mut record[8..12]),
            _ => flip(numbers, &mut record[8..]),
        }
    }
}

/// Another offset than the record's: beside it, at the journal's end, one whose low bits are the record's, or one with which the sum of
/// the record's end passes 2^64 by as much as the journal is long, or less.
fn other_offset(numbers: &mut Numbers, offset: u64, body: u64, end: u64) -> u64 {
    let (record, past) = (body.wrapping_add(12), numbers.below(end + 1));
    let last = end.wrapping_sub(record);
    match numbers.below(6) {
        0 => offset.wrapping_add(numbers.pick(&[1, 12, u64::MAX])),
        1 => numbers.pick(&[last, last.wrapping_add(1), end.saturating_sub(12), end.saturating_sub(11), end, end + 1]),
        2 => offset + numbers.pick(&[1 << 32, 1 << 63]),
        3 => 0u64.wrapping_sub(record).wrapping_add(past),
        4 => past,
        _ => numbers.number(),
    }
}

/// Another body length than the record's, in the same ways; or the one that the record says, or none.
fn other_body(numbers: &mut Numbers, offset: u64, body: u64, said: u64, end: u64) -> u64 {
    let front = offset.wrapping_add(12);
    let rest = end.wrapping_sub(front);
    match numbers.below(8) {
        0 => body.wrapping_add(numbers.pick(&[1, 12, u64::MAX])),
        1 => numbers.pick(&[rest, rest.wrapping_add(1), rest.wrapping_sub(1)]),
        2 => body + numbers.pick(&[1 << 32, 1 << 63]),
        3 => 0u64.wrapping_sub(front).wrapping_add(numbers.below(end + 1)),
        4 => numbers.pick(&[LONGEST_BODY, LONGEST_BODY + 1, u64::from(u32::MAX), 1 << 32]),
        5 => said,
        6 => 0,
        _ => numbers.number(),
    }
}

/// Perhaps another message number: of which one bit differs, the next, the one before, or any.
fn other_number(numbers: &mut Numbers, number: u64) -> u64 {
    match numbers.below(12) {
        0 => number ^ 1 << numbers.below(64),
        1 => number.wrapping_add(numbers.pick(&[1, u64::MAX])),
        2 => numbers.number(),
        _ => number,
    }
}

/// The next request.
pub fn request(numbers: &mut Numbers) -> Vec<u8> {
    let mut journal = front(numbers);
    let (number, generation, frame) = (numbers.number(), numbers.number(), frame(numbers));
    let mut record = scans::record(numbers, number, generation, &frame);
    damage(numbers, &mut record);
    let (mut offset, mut body) = (journal.len() as u64, (record.len() - RECORD_HEADER_LEN) as u64);
    journal.extend_from_slice(&record);
    match numbers.below(16) {
        0 => journal.truncate(journal.len() - 1 - numbers.below(record.len() as u64) as usize),
        1 => journal.truncate(journal.len() - 1),
        _ => journal.extend(behind(numbers)),
    }

    let end = journal.len() as u64;
    // Where both are wrong, the body length is made for the wrong offset.
    let wrong = numbers.below(16);
    if matches!(wrong, 0 | 1) {
        offset = other_offset(numbers, offset, body, end);
    }
    if matches!(wrong, 1..=3) {
        body = other_body(numbers, offset, body, u64::from(record_body_len(&record)), end);
    }
    let asked = other_number(numbers, number);
    // The entry's own, which isn't looked at.
    let own = match numbers.below(3) {
        0 => number,
        1 => asked,
        _ => numbers.number(),
    };
    let mut request = vec![REREAD];
    request.extend([own, offset, body, asked].iter().flat_map(|number| number.to_le_bytes()));
    request.extend(run(&journal));
    request
}

#[cfg(test)]
mod tests {
    use super::{request, Numbers};
    use crate::frames::{LONGEST, NOT_ASKED};
    use crate::operations;

    #[test]
    fn every_outcome_is_met() {
        let mut numbers = Numbers::new(5);
        let mut met = [0; 256];
        for _ in 0..6000 {
            let request = request(&mut numbers);
            assert!(request.len() <= LONGEST);
            let answer = operations::answer(&request).expect("the original answers");
            met[usize::from(answer[0])] += 1;
        }
        for number in [0, 23, 24, 25, 26, 27, NOT_ASKED] {
            assert!(met[usize::from(number)] >= 100, "{number}: {}", met[usize::from(number)]);
        }
    }
}
