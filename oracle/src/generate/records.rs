//! Requests for records: written, sealed, their bodies, and what stands at a place; and what can be wrong with a record.

use super::Numbers;
use crate::file::format::{encode_frame_record_into, seal_frame_record, RECORD_HEADER_LEN};
use crate::message::MsgType;
use crate::operations::{BODY, HIGHEST_FRAME_LIMIT, RECORD, SEAL, SEEN};
use crate::pieces::{code_length_at, run};
use crate::scan::HIGHEST_BODY_LIMIT;

/// What a good type code doesn't hold: bytes past either edge, UTF-8 of two bytes, and no UTF-8.
const BAD_IN_CODE: [&[u8]; 7] = [&[0x20], &[0x7F], &[0], &[0x80], &[0xC3, 0xA9], &[0xC3], &[0xFF]];

/// A byte of a good type code, often at an edge.
fn code_byte(numbers: &mut Numbers) -> u8 {
    match numbers.below(3) {
        0 => numbers.pick(&[0x21, 0x7E]),
        _ => 0x21 + numbers.below(0x5E) as u8,
    }
}

pub(super) fn good_code(numbers: &mut Numbers) -> Vec<u8> {
    let length = match numbers.below(3) {
        0 => numbers.pick(&[1, 8]),
        _ => 1 + numbers.below(8),
    };
    (0..length).map(|_| code_byte(numbers)).collect()
}

/// Something bad inside a code.
fn spoil_code(numbers: &mut Numbers, code: &mut [u8]) {
    let bad = numbers.pick(&BAD_IN_CODE);
    if let Some(last) = code.len().checked_sub(bad.len()) {
        let at = numbers.below(last as u64 + 1) as usize;
        code[at..at + bad.len()].copy_from_slice(bad);
    }
}

/// A type code's eight bytes and its length, most often good. Behind the code stands anything.
fn code(numbers: &mut Numbers) -> Vec<u8> {
    let mut code = good_code(numbers);
    let mut length = code.len() as u8;
    match numbers.below(10) {
        0 => spoil_code(numbers, &mut code),
        1 => {
            // All eight bytes are good: only the length isn't.
            code.resize_with(8, || code_byte(numbers));
            length = numbers.pick(&[0, 9, 10, 128, 255]);
        }
        _ => {}
    }
    code.resize_with(8, || numbers.next() as u8);
    code.push(length);
    code
}

/// A frame: of any bytes, or of such as a code may hold.
pub(super) fn frame(numbers: &mut Numbers) -> Vec<u8> {
    let most = numbers.pick(&[1, 8, 40, 300]);
    let length = numbers.below(most);
    match numbers.below(2) {
        0 => numbers.bytes(length),
        _ => (0..length).map(|_| code_byte(numbers)).collect(),
    }
}

pub(super) fn record(numbers: &mut Numbers) -> Vec<u8> {
    let kind = numbers.pick(&[1, 5]);
    let (sender, number) = (numbers.number(), numbers.number());
    let code = code(numbers);
    let frame = frame(numbers);
    let length = frame.len() as u64;
    let limit = match numbers.below(8) {
        0 => length.saturating_sub(1),
        1 => numbers.pick(&[HIGHEST_FRAME_LIMIT + 1, 1 << 32, u64::MAX]),
        _ => numbers.pick(&[length, length + 1, HIGHEST_FRAME_LIMIT]),
    };
    let whole = if kind == 5 { 38 } else { 22 } + u64::from(code[8]) + length;
    let room = match numbers.below(5) {
        0 => numbers.pick(&[0, 11, 12, whole - 1]),
        _ => whole + numbers.pick(&[0, 0, 1, 40]),
    };
    let mut request = vec![RECORD, kind];
    request.extend_from_slice(&sender.to_le_bytes());
    request.extend_from_slice(&number.to_le_bytes());
    request.extend(code);
    request.extend_from_slice(&limit.to_le_bytes());
    request.extend(run(&frame));
    request.extend(run(&numbers.bytes(room)));
    request
}

/// A record as the original writes it.
fn written(numbers: &mut Numbers) -> Vec<u8> {
    let code = String::from_utf8(good_code(numbers)).expect("a good code is text");
    let code = MsgType::new(&code).expect("a good code is taken");
    let (number, sender) = (numbers.number(), numbers.number());
    let sender = numbers.one_in(2).then_some(sender);
    let mut record = Vec::new();
    encode_frame_record_into(&mut record, number, sender, &code, &frame(numbers), 300).expect("the frame is below 300 bytes");
    record
}

/// A record as the original writes and seals it.
pub(super) fn sealed(numbers: &mut Numbers) -> Vec<u8> {
    let mut record = written(numbers);
    seal_frame_record(&mut record, numbers.number());
    record
}

pub(super) fn seal(numbers: &mut Numbers) -> Vec<u8> {
    let mut record = written(numbers);
    match numbers.below(10) {
        0 | 1 => record.truncate(numbers.below(41) as usize),
        2 => record.truncate(numbers.pick(&[0, 11, 12, 13, 21, 28, 29, 30])),
        3 => record[RECORD_HEADER_LEN] = numbers.pick(&[0, 1, 4, 5, 6, 255]),
        4 => record[..4].copy_from_slice(&numbers.number().to_le_bytes()[..4]),
        5 => {
            let length = numbers.below(60);
            record = numbers.bytes(length);
        }
        _ => {}
    }
    [vec![SEAL], numbers.number().to_le_bytes().to_vec(), run(&record)].concat()
}

/// A good body with something changed that it is read by; some still read.
fn spoil_body(numbers: &mut Numbers, body: &mut Vec<u8>) {
    let at = code_length_at(body);
    let end = at + 1 + usize::from(body[at]);
    match numbers.below(6) {
        0 => body[0] = numbers.pick(&[0, 1, 2, 4, 5, 6, 255]),
        1 => body[at] = numbers.pick(&[0, 1, 8, 9, 10, 255]),
        // The frame's first byte is the code's last, or the other way round.
        2 => body[at] = body[at].wrapping_add(numbers.pick(&[1, 255])),
        3 => spoil_code(numbers, &mut body[at + 1..end]),
        // Inside the fields, or at their end.
        4 => body.truncate(numbers.below(end as u64 + 1) as usize),
        _ => {
            let length = numbers.below(40);
            *body = numbers.bytes(length);
        }
    }
}

pub(super) fn body(numbers: &mut Numbers) -> Vec<u8> {
    let mut body = sealed(numbers).split_off(RECORD_HEADER_LEN);
    if numbers.one_in(2) {
        spoil_body(numbers, &mut body);
    }
    [vec![BODY], run(&body)].concat()
}

pub(super) fn flip(numbers: &mut Numbers, bytes: &mut [u8]) {
    let at = numbers.below(bytes.len() as u64) as usize;
    bytes[at] ^= 1 << numbers.below(8);
}

/// A record with another length in it, sealed again.
pub(super) fn set_length(numbers: &mut Numbers, record: &mut [u8], length: u64) {
    record[..4].copy_from_slice(&(length as u32).to_le_bytes());
    seal_frame_record(record, numbers.number());
}

/// A sealed record whose body is spoilt, sealed again.
pub(super) fn spoil_record(numbers: &mut Numbers, record: &mut Vec<u8>) {
    let mut body = record.split_off(RECORD_HEADER_LEN);
    spoil_body(numbers, &mut body);
    record.extend_from_slice(&body);
    set_length(numbers, record, body.len() as u64);
}

/// Perhaps some damage to a sealed record.
fn damage_record(numbers: &mut Numbers, record: &mut Vec<u8>, limit: u64) {
    match numbers.below(20) {
        0 => flip(numbers, record),
        1 => flip(numbers, &mut record[..RECORD_HEADER_LEN]),
        2 => flip(numbers, &mut record[8..]),
        3 => set_length(numbers, record, 0),
        4 => set_length(numbers, record, limit + 1),
        5 => {
            let longer = record.len() as u64 - 12 + numbers.pick(&[1, 2, 12, 1000]);
            set_length(numbers, record, longer);
        }
        6 => {
            let shorter = numbers.below(record.len() as u64 - 12);
            set_length(numbers, record, shorter);
        }
        7..=9 => spoil_record(numbers, record),
        10 => *record = vec![0; numbers.below(40) as usize],
        _ => {}
    }
}

/// What stands behind a record: nothing, zeros, anything, or another record.
pub(super) fn behind(numbers: &mut Numbers) -> Vec<u8> {
    let length = numbers.below(30);
    match numbers.below(4) {
        0 => Vec::new(),
        1 => vec![0; length as usize],
        2 => numbers.bytes(length),
        _ => sealed(numbers),
    }
}

pub(super) fn seen(numbers: &mut Numbers) -> Vec<u8> {
    let mut record = sealed(numbers);
    let length = record.len() as u64 - 12;
    let limit = match numbers.below(12) {
        0 => numbers.pick(&[0, length - 1]),
        1 => 100,
        _ => numbers.pick(&[length, length + 1, HIGHEST_BODY_LIMIT]),
    };
    damage_record(numbers, &mut record, limit);
    let mut place = numbers.pick(&[0, 0, 1, 12, 30]);
    let mut bytes = numbers.bytes(place);
    bytes.extend_from_slice(&record);
    match numbers.below(16) {
        0 => bytes.truncate(bytes.len() - numbers.below(record.len() as u64 + 1) as usize),
        1 => bytes.truncate(bytes.len() - record.len().min(numbers.pick(&[1, 2]))),
        2 => bytes.truncate(place as usize + numbers.below(13) as usize),
        _ => bytes.extend(behind(numbers)),
    }
    if numbers.one_in(16) {
        let end = bytes.len() as u64;
        place = numbers.pick(&[end.saturating_sub(12), end.saturating_sub(1), end, end + 1, 1 << 32, u64::MAX]);
    }
    [vec![SEEN], limit.to_le_bytes().to_vec(), place.to_le_bytes().to_vec(), run(&bytes)].concat()
}
