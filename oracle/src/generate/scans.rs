//! Requests for scans: journals built by the rules, and what can be wrong with each part of them, under limits, windows, durable ends and
//! rooms at the edges that the parts set.

use super::records::{flip, good_code, set_length, spoil_record};
use super::{fronts, Numbers};
use crate::entries::Entry;
use crate::file::format::{encode_frame_record_into, seal_frame_record, DATA_START, RECORD_HEADER_LEN};
use crate::message::MsgType;
use crate::pieces;
use crate::scan::HIGHEST_BODY_LIMIT;
use std::collections::HashSet;

/// Lengths at which a journal ends early, at the edges of its front.
const EARLY: [u64; 8] = [0, 43, 44, 45, 4096, 8192, 8243, DATA_START - 1];

/// A tail is stretched to the window by fewer bytes than these.
const LONGEST_STRETCH: u64 = 3000;

/// A slot's generation, now and then one of the last.
pub(super) fn generation(numbers: &mut Numbers) -> u64 {
    match numbers.below(10) {
        0 => u64::MAX - numbers.below(5),
        1 => numbers.number(),
        _ => 1 + numbers.below(300),
    }
}

/// A way to number messages.
pub(super) fn message_numbers(numbers: &mut Numbers, count: u64) -> Vec<u64> {
    let way = numbers.below(7);
    let (first, step) = (numbers.pick(&[0, 1, 1, 255, (1 << 63) - 1, 1 << 63, u64::MAX, u64::MAX - 3]), numbers.pick(&[1, 1, 2, 256]));
    let mut made = Vec::new();
    for turn in 0..count {
        let number = match way {
            0 => first.wrapping_add(turn * step),
            1 => first.wrapping_sub(turn * step),
            2 => 1 + numbers.below(4),
            3 => numbers.pick(&[0, 1, u64::MAX - 1, u64::MAX]),
            4 => numbers.number(),
            // Ascending, and some of them again.
            _ if numbers.one_in(3) && !made.is_empty() => numbers.pick(&made),
            _ => first.wrapping_add(turn * step),
        };
        made.push(number);
    }
    made
}

/// A way to number the generations of kind 5, around the slot's.
pub(super) fn generations(numbers: &mut Numbers, slot: u64, count: u64) -> Vec<u64> {
    let way = numbers.below(7);
    let one = |turn| match way {
        0 | 1 => slot.saturating_add(1 + turn),
        2 => slot.saturating_add(count - turn),
        3 => slot.saturating_sub(numbers.below(4)),
        4 => slot.saturating_sub(2).saturating_add(numbers.below(5)),
        5 => slot.saturating_add(1),
        _ => numbers.number(),
    };
    (0..count).map(one).collect()
}

/// A frame: mostly short. Some hold a sound record, which is none of the journal's.
pub(super) fn frame(numbers: &mut Numbers) -> Vec<u8> {
    let length = match numbers.below(400) {
        0 => numbers.pick(&[255, 256, 4096, 65_520, 65_536]) + numbers.below(20),
        1..=200 => numbers.below(40),
        _ => numbers.below(8),
    };
    let mut frame = numbers.bytes(length);
    if numbers.one_in(10) {
        frame.extend(record(numbers, 1, 2, b"8=F"));
    }
    frame
}

/// A sealed record of either kind.
pub(super) fn record(numbers: &mut Numbers, number: u64, generation: u64, frame: &[u8]) -> Vec<u8> {
    let code = String::from_utf8(good_code(numbers)).expect("a good code is text");
    let code = MsgType::new(&code).expect("a good code is taken");
    let sender = numbers.number();
    let sender = numbers.one_in(2).then_some(sender);
    let mut record = Vec::new();
    encode_frame_record_into(&mut record, number, sender, &code, frame, u32::MAX).expect("no frame is so long");
    seal_frame_record(&mut record, generation);
    record
}

/// A body limit, given the longest body.
fn body_limit(numbers: &mut Numbers, longest: u64) -> u64 {
    match numbers.below(24) {
        0 => numbers.pick(&[0, 1, 11, 12]),
        1 => longest - 1,
        2 => numbers.pick(&[HIGHEST_BODY_LIMIT + 1, 1 << 32, (1 << 32) + longest, u64::MAX - 11, u64::MAX]),
        3..=5 => HIGHEST_BODY_LIMIT,
        6..=9 => 100,
        10..=15 => longest,
        16..=18 => longest + 1,
        _ => longest + numbers.below(40),
    }
}

/// How many records Tail excuses: few, or so many that the window is as long as a number can say, or longer.
pub(super) fn window_records(numbers: &mut Numbers, limit: u64) -> u64 {
    let most = u64::MAX / limit.saturating_add(12);
    match numbers.below(12) {
        0..=2 => 0,
        3..=5 => 1,
        6..=8 => 2,
        9 => 3,
        10 => numbers.below(20),
        _ => numbers.pick(&[most, most.saturating_add(1), 1 << 63, u64::MAX]),
    }
}

/// Puts something behind a tail's damage: nothing, a good record, anything, zeros, or zeros but for the last byte. Half of what has no
/// length of its own ends at the window, or one byte before or after it.
fn stretch(numbers: &mut Numbers, tail: &mut Vec<u8>, window: Option<u64>, good: &[u8]) {
    let way = numbers.below(10);
    if matches!(way, 1 | 2) {
        tail.extend_from_slice(good);
    }
    if matches!(way, 0 | 1) {
        return;
    }
    let left = window.and_then(|window| window.checked_sub(tail.len() as u64));
    let more = match left {
        Some(left) if left < LONGEST_STRETCH && numbers.one_in(2) => (left + numbers.pick(&[0, 1, 2])).saturating_sub(1),
        _ if numbers.one_in(12) => numbers.pick(&[4083, 4084, 4095, 4096, 4097, 8192]),
        _ => numbers.below(60),
    };
    match way {
        2..=4 => tail.extend(numbers.bytes(more)),
        _ => tail.resize(tail.len() + more as usize, 0),
    }
    if matches!(way, 8 | 9) {
        *tail.last_mut().expect("a damaged record has bytes") |= 1 << numbers.below(8);
    }
}

/// What stands behind the sound records, made of one more record.
fn tail(numbers: &mut Numbers, mut record: Vec<u8>, limit: u64, window: Option<u64>) -> Vec<u8> {
    let good = record.clone();
    match numbers.below(20) {
        0..=2 => return Vec::new(),
        // Torn.
        3 => record.truncate(1 + numbers.below(11) as usize),
        4 => record.truncate(1 + numbers.below(good.len() as u64 - 1) as usize),
        5 => return vec![0; 1 + numbers.below(11) as usize],
        // Zeros, or zeros but for the CRC-32.
        6..=8 => {
            record = vec![0; RECORD_HEADER_LEN];
            if numbers.one_in(4) {
                flip(numbers, &mut record[8..]);
            }
        }
        9 | 10 => flip(numbers, &mut record[..8]),
        11 => record = numbers.bytes(RECORD_HEADER_LEN as u64),
        12 => set_length(numbers, &mut record, 0),
        13 => {
            let length = numbers.pick(&[limit.saturating_add(1), limit.saturating_add(1000), u32::MAX as u64]);
            set_length(numbers, &mut record, length.min(u32::MAX as u64));
            record.truncate(numbers.pick(&[12, 13, good.len()]));
        }
        14..=16 => flip(numbers, &mut record[8..]),
        17 | 18 => spoil_record(numbers, &mut record),
        // Longer than its bytes.
        _ => {
            let longer = record.len() as u64 - 12 + numbers.pick(&[1, 2, 12]);
            set_length(numbers, &mut record, longer);
        }
    }
    // A torn record ends the journal.
    if record.len() >= RECORD_HEADER_LEN && !good.starts_with(&record) {
        stretch(numbers, &mut record, window, &good);
    }
    record
}

/// A durable end, given where the records end (from 12,288 on) and where the journal does.
fn durable_end(numbers: &mut Numbers, ends: &[u64], end: u64) -> u64 {
    let (some, last) = (numbers.pick(ends), ends[ends.len() - 1]);
    match numbers.below(20) {
        0 => 0,
        1 | 2 => DATA_START,
        3..=7 => some,
        8 => some + 1,
        9 => some - 1,
        10..=13 => last,
        14 => last + 1,
        15 => DATA_START + numbers.below(end - DATA_START + 1),
        16 => end,
        17 => numbers.pick(&[end + 1, end - 1]),
        18 => end + numbers.below(100),
        _ => numbers.pick(&[1 << 32, 1 << 63, u64::MAX]),
    }
}

/// Room for so many entries, given how many the records take.
fn room(numbers: &mut Numbers, needed: u64) -> u64 {
    match numbers.below(24) {
        0 => 0,
        1 | 2 => numbers.below(needed + 1),
        3 => needed.saturating_sub(1),
        4..=12 => needed,
        13..=16 => needed + 1,
        _ => needed + numbers.below(8),
    }
}

/// A lent index: zeros, anything, or entries under the numbers of the journal's own messages.
pub(super) fn lent(numbers: &mut Numbers, room: u64, known: &[u64]) -> Vec<Entry> {
    let way = numbers.below(3);
    let entry = |_| match way {
        0 => [0; 3],
        1 => [numbers.next(), numbers.next(), numbers.next()],
        _ => [numbers.pick(known), DATA_START, numbers.below(100)],
    };
    (0..room).map(entry).collect()
}

/// Zeros in a range of a journal's records: to the end, or some of them.
fn zero(numbers: &mut Numbers, records: &mut [u8]) {
    let start = numbers.below(records.len() as u64) as usize;
    let rest = (records.len() - start) as u64;
    let count = match numbers.below(3) {
        0 => rest,
        1 => 1 + numbers.below(rest),
        _ => rest.min(numbers.pick(&[1, 4, 12])),
    };
    records[start..start + count as usize].fill(0);
}

/// Perhaps further damage to a journal: a bit of its records, zeros in them, or its end lost, also inside the front.
fn damage(numbers: &mut Numbers, journal: &mut Vec<u8>) {
    let records = journal.len() as u64 - DATA_START;
    match numbers.below(40) {
        10..=12 if records > 0 => zero(numbers, &mut journal[DATA_START as usize..]),
        0..=3 if records > 0 => flip(numbers, &mut journal[DATA_START as usize..]),
        4..=7 => journal.truncate((DATA_START + numbers.below(records + 1)) as usize),
        8 => journal.truncate(numbers.pick(&EARLY) as usize),
        9 => {
            let most = numbers.pick(&[44, DATA_START]);
            journal.truncate(numbers.below(most) as usize);
        }
        _ => {}
    }
}

/// A journal, and what it is scanned with.
pub(super) struct Made {
    /// The records that Tail excuses.
    pub(super) window_records: u64,
    pub(super) limit: u64,
    pub(super) journal: Vec<u8>,
    /// The message numbers of its records, and of the one that the tail is made of.
    pub(super) known: Vec<u64>,
    /// How many of them differ, without the tail's.
    pub(super) needed: u64,
}

/// The records of a journal, and one more: the tail is made of it.
fn records(numbers: &mut Numbers, slot: u64, known: &[u64]) -> (Vec<Vec<u8>>, Vec<u8>) {
    let generations = generations(numbers, slot, known.len() as u64);
    let made = known.iter().zip(generations).map(|(number, generation)| {
        let frame = frame(numbers);
        record(numbers, *number, generation, &frame)
    });
    let mut records: Vec<Vec<u8>> = made.collect();
    let more = records.pop().unwrap_or_default();
    (records, more)
}

/// Where records end, one after the other, from 12,288 on.
pub(crate) fn ends(records: &[Vec<u8>]) -> Vec<u64> {
    let mut ends = vec![DATA_START];
    for record in records {
        ends.push(ends[ends.len() - 1] + record.len() as u64);
    }
    ends
}

/// The next journal.
pub(super) fn made(numbers: &mut Numbers) -> Made {
    // Now and then many, so that a search has more than a few entries to halve.
    let most = if numbers.one_in(16) { 120 } else { 13 };
    let count = numbers.below(most);
    let slot = generation(numbers);
    let known = message_numbers(numbers, count + 1);
    let (records, more) = records(numbers, slot, &known);
    let longest = records.iter().map(Vec::len).chain([more.len()]).max().unwrap_or(0) - RECORD_HEADER_LEN;

    let limit = body_limit(numbers, longest as u64);
    let window_records = window_records(numbers, limit);
    let window = window_records.checked_mul(limit.saturating_add(12));
    let tail = tail(numbers, more, limit, window);
    let ends = ends(&records);
    let end = ends[ends.len() - 1] + tail.len() as u64;
    let durable_end = durable_end(numbers, &ends, end);
    let mut journal = [fronts::prefix(numbers, slot, durable_end), records.concat(), tail].concat();
    damage(numbers, &mut journal);
    let needed: HashSet<&u64> = known[..records.len()].iter().collect();
    let needed = needed.len() as u64;
    Made { window_records, limit, journal, known, needed }
}

/// The next request: each rule in turn.
pub fn request(numbers: &mut Numbers, turn: usize) -> Vec<u8> {
    let Made { window_records, limit, journal, known, needed } = made(numbers);
    let room = room(numbers, needed);
    pieces::scan(1 + (turn % 3) as u8, window_records, limit, &lent(numbers, room, &known), &journal)
}
