//! Losses of power in written journals of up to 100 records. Places and new lengths are at the edges of the record that is torn, often in
//! the first bytes of one of the last records; and Tail excuses as many records as just suffice, one fewer, few, or very many.

use super::scans::{self, ends, generation, generations, lent, message_numbers, window_records};
use super::{fronts, Numbers};
use crate::file::format::{seal_frame_record, RECORD_HEADER_LEN};
use crate::losses::{can_match, force, Loss, Written};
use crate::scan::HIGHEST_BODY_LIMIT;
use std::collections::HashSet;
use std::rc::Rc;

/// The last generation that has a next.
const LAST_GENERATION: u64 = u64::MAX - 1;

/// The longest frame, before zeros are put behind it.
const LONGEST_FRAME: usize = 5000;

/// A frame: as in scans, with zeros behind it, or of zeros alone.
fn frame(numbers: &mut Numbers) -> Vec<u8> {
    let mut frame = scans::frame(numbers);
    frame.truncate(LONGEST_FRAME);
    match numbers.below(6) {
        0 => frame.fill(0),
        1 | 2 => frame.resize(frame.len() + numbers.below(30) as usize, 0),
        _ => {}
    }
    frame
}

/// A sealed record. Now and then its frame is longer, so that the first byte of its length is 0.
fn record(numbers: &mut Numbers, number: u64, generation: u64) -> Vec<u8> {
    let frame = frame(numbers);
    let mut record = scans::record(numbers, number, generation, &frame);
    if numbers.one_in(30) {
        let length = (record.len() - RECORD_HEADER_LEN).next_multiple_of(256);
        record.resize(RECORD_HEADER_LEN + length, numbers.pick(&[0, b'8']));
        record[..4].copy_from_slice(&(length as u32).to_le_bytes());
        seal_frame_record(&mut record, generation);
    }
    record
}

/// Sound records with these message numbers.
fn records(numbers: &mut Numbers, slot: u64, known: &[u64]) -> Vec<Vec<u8>> {
    let generations = generations(numbers, slot, known.len() as u64);
    let one = |(number, generation): (&u64, u64)| record(numbers, *number, generation.min(LAST_GENERATION));
    known.iter().zip(generations).map(one).collect()
}

/// Which of so many records is torn: half the time one of the last.
fn torn(numbers: &mut Numbers, count: usize) -> usize {
    match numbers.below(2) {
        0 => count - 1 - numbers.below(count.min(4) as u64) as usize,
        _ => numbers.below(count as u64) as usize,
    }
}

/// How many bytes of a record last, given its length: often fewer than 8.
fn lasted(numbers: &mut Numbers, length: usize) -> usize {
    match numbers.below(8) {
        0..=2 => numbers.below(8) as usize,
        3 => 8 + numbers.below(5) as usize,
        4 => length - numbers.below(6) as usize,
        _ => numbers.below(length as u64 + 1) as usize,
    }
}

/// A new length, given the place, the end of what was written, and the torn record's place and end.
fn length(numbers: &mut Numbers, place: usize, end: usize, torn: [usize; 2]) -> usize {
    let length = match numbers.below(10) {
        0 => place,
        1..=4 => end,
        5 => torn[0] + numbers.pick(&[11, 12, 13]),
        6 => torn[1] - 1 + numbers.pick(&[0, 1, 2, 12, 13]),
        _ => place + numbers.below((end - place) as u64 + 1) as usize,
    };
    length.clamp(place, end)
}

/// A body limit, given the longest body.
fn body_limit(numbers: &mut Numbers, longest: u64) -> u64 {
    match numbers.below(10) {
        0..=4 => longest,
        5 => longest + 1,
        6 | 7 => longest + numbers.below(100),
        8 => longest + numbers.below(HIGHEST_BODY_LIMIT - longest),
        _ => HIGHEST_BODY_LIMIT,
    }
}

/// How many records Tail excuses, given how many bytes remain: as many as just suffice, one fewer, few, or very many.
fn excused(numbers: &mut Numbers, rest: usize, limit: u64) -> u64 {
    let enough = (rest as u64).div_ceil(12 + limit);
    match numbers.below(6) {
        0 | 1 => enough,
        2 | 3 => enough.saturating_sub(1),
        _ => window_records(numbers, limit),
    }
}

/// The next loss. Now and then the torn record is made to match.
pub(crate) fn next(numbers: &mut Numbers) -> Loss {
    let most = if numbers.one_in(8) { 100 } else { 12 };
    let count = 1 + numbers.below(most);
    let slot = generation(numbers).min(LAST_GENERATION);
    let known = message_numbers(numbers, count);
    let mut records = records(numbers, slot, &known);
    let torn = torn(numbers, records.len());
    let lasted = lasted(numbers, records[torn].len());
    if numbers.one_in(8) && can_match(&records[torn], lasted) {
        force(&mut records[torn], lasted);
    }
    let ends = ends(&records);
    let durable_end = numbers.pick(&ends[..=torn]);
    let written = Written::new(fronts::sound_prefix(numbers, slot, durable_end), durable_end, &records);
    let place = ends[torn] as usize + lasted;
    let length = length(numbers, place, written.bytes.len(), [torn, torn + 1].map(|at| ends[at] as usize));
    let limit = body_limit(numbers, written.longest_body());
    let room = known.iter().collect::<HashSet<_>>().len() as u64 + numbers.pick(&[0, 0, 1, 5]);
    let lent = lent(numbers, room, &known);
    let mut loss = Loss { written: Rc::new(written), place, length, excused: 0, limit, lent };
    loss.excused = excused(numbers, loss.rest(), limit);
    loss
}
