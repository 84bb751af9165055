//! Journals and requests put together by hand, for the exhaustive run, the edges and the list of checks.

use crate::file::crc32::crc32;
use crate::file::format::{encode_prefix, encode_slot, Header, Slot, SlotImages, DATA_START};
use crate::operations::{BODY, CHECK, HEADER, NEWEST, REREAD, SCAN, SEEN, SLOT};
use std::time::UNIX_EPOCH;

pub(crate) const TAIL: u8 = 1;
pub(crate) const ANYWHERE: u8 = 2;
pub(crate) const SALVAGE: u8 = 3;

/// A frame of four bytes.
pub(crate) const FRAME: &[u8] = b"8=F\x01";

pub(crate) fn words(numbers: &[u64]) -> Vec<u8> {
    numbers.iter().flat_map(|number| number.to_le_bytes()).collect()
}

pub(crate) fn run(bytes: &[u8]) -> Vec<u8> {
    [&(bytes.len() as u32).to_le_bytes(), bytes].concat()
}

/// The CRC-32 at the end of the bytes, made right again.
pub(crate) fn reseal(bytes: &mut [u8]) {
    let end = bytes.len() - 4;
    let crc = crc32(&bytes[..end]);
    bytes[end..].copy_from_slice(&crc.to_le_bytes());
}

/// A slot of sender 7, target 9, watermark 0 and no reset owed.
pub(crate) fn slot(generation: u64, durable_end: u64) -> Slot {
    Slot { generation, next_sender: 7, next_target: 9, durable_end, app_watermark: 0, reset_owed: false }
}

/// A prefix whose header has sender 3 and target 4.
pub(crate) fn prefix(images: &SlotImages) -> Vec<u8> {
    encode_prefix(&Header { creation_time: UNIX_EPOCH, next_sender: 3, next_target: 4 }, images)
}

/// A prefix with slots of generations 1 and 2 and one durable end.
pub(crate) fn front(durable_end: u64) -> Vec<u8> {
    prefix(&[1, 2].map(|generation| encode_slot(&slot(generation, durable_end))))
}

/// A journal with that prefix.
pub(crate) fn journal(durable_end: u64, records: &[&[u8]]) -> Vec<u8> {
    [front(durable_end), records.concat()].concat()
}

fn code_and_frame(code: &[u8], frame: &[u8]) -> Vec<u8> {
    [&[code.len() as u8], code, frame].concat()
}

pub(crate) fn body_1(number: u64, code: &[u8], frame: &[u8]) -> Vec<u8> {
    [&[1], &words(&[number])[..], &code_and_frame(code, frame)].concat()
}

pub(crate) fn body_5(number: u64, generation: u64, sender: u64, code: &[u8], frame: &[u8]) -> Vec<u8> {
    [&[5], &words(&[number, generation, sender])[..], &code_and_frame(code, frame)].concat()
}

/// Where in a body the code's length stands; the code is behind it.
pub(crate) fn code_length_at(body: &[u8]) -> usize {
    if body[0] == 5 { 25 } else { 9 }
}

/// A record's header: a length and its complement, and a CRC-32.
pub(crate) fn record_header(length: u32, crc: u32) -> Vec<u8> {
    [length, !length, crc].iter().flat_map(|number| number.to_le_bytes()).collect()
}

/// A body's record, sealed.
pub(crate) fn record(body: &[u8]) -> Vec<u8> {
    [record_header(body.len() as u32, crc32(body)), body.to_vec()].concat()
}

/// A record of kind 1 under a number: 27 bytes.
pub(crate) fn kind_1(number: u64) -> Vec<u8> {
    record(&body_1(number, b"D", FRAME))
}

/// A record of kind 5 under a number, with generation and next sender: 43 bytes.
pub(crate) fn kind_5(number: u64, generation: u64, sender: u64) -> Vec<u8> {
    record(&body_5(number, generation, sender, b"D", FRAME))
}

/// A journal of records with these message numbers, as short as can be.
pub(crate) fn numbered(numbers: impl Iterator<Item = u64>) -> Vec<u8> {
    let records: Vec<u8> = numbers.flat_map(|number| record(&body_1(number, b"D", b""))).collect();
    journal(DATA_START, &[&records])
}

/// Bytes with one changed.
pub(crate) fn changed(bytes: &[u8], at: usize, by: u8) -> Vec<u8> {
    let mut bytes = bytes.to_vec();
    bytes[at] ^= by;
    bytes
}

/// A journal with a number of a slot changed and the slot sealed again: the field is the generation, 0, to the flags, 5.
pub(crate) fn with_slot_field(journal: &[u8], slot: usize, field: usize, number: u64) -> Vec<u8> {
    let mut journal = journal.to_vec();
    let image = &mut journal[4096 * (slot + 1)..][..52];
    image[8 * field..8 * field + 8].copy_from_slice(&number.to_le_bytes());
    reseal(image);
    journal
}

/// A journal with bytes of its header changed and the header sealed again.
pub(crate) fn with_header(journal: &[u8], at: usize, bytes: &[u8]) -> Vec<u8> {
    let mut journal = journal.to_vec();
    journal[at..at + bytes.len()].copy_from_slice(bytes);
    reseal(&mut journal[..44]);
    journal
}

pub(crate) fn scan(rule: u8, records: u64, limit: u64, lent: &[[u64; 3]], journal: &[u8]) -> Vec<u8> {
    let index = [&(lent.len() as u32).to_le_bytes(), &words(lent.as_flattened())[..]].concat();
    [&[SCAN, rule], &words(&[records, limit])[..], &index, &run(journal)].concat()
}

pub(crate) fn seen(limit: u64, place: u64, bytes: &[u8]) -> Vec<u8> {
    [&[SEEN], &words(&[limit, place])[..], &run(bytes)].concat()
}

pub(crate) fn body(bytes: &[u8]) -> Vec<u8> {
    [vec![BODY], run(bytes)].concat()
}

/// An entry of message number 1, and the message number that is asked for.
pub(crate) fn reread(offset: u64, body: u64, number: u64, journal: &[u8]) -> Vec<u8> {
    [&[REREAD], &words(&[1, offset, body, number])[..], &run(journal)].concat()
}

pub(crate) fn header(bytes: &[u8]) -> Vec<u8> {
    [vec![HEADER], run(bytes)].concat()
}

pub(crate) fn slot_image(bytes: &[u8]) -> Vec<u8> {
    [vec![SLOT], run(bytes)].concat()
}

pub(crate) fn newest(zero: &[u8], one: &[u8]) -> Vec<u8> {
    [vec![NEWEST], run(zero), run(one)].concat()
}

/// The input of the check program. Only kind 1 has the records.
pub(crate) fn check_input(kind: u8, records: u64, limit: u64, journal: &[u8]) -> Vec<u8> {
    let numbers = if kind == TAIL { words(&[records, limit]) } else { words(&[limit]) };
    [&[kind], &numbers[..], journal].concat()
}

pub(crate) fn check(input: &[u8]) -> Vec<u8> {
    [vec![CHECK], run(input)].concat()
}

/// Where the records start.
pub(crate) const START: usize = DATA_START as usize;
