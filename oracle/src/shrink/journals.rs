//! Smaller journals: records left out or shortened, and fields of records, slots and header made 0, each with its CRC-32 made right.

use super::pieces::{self, START, TAIL};
use crate::file::crc32::crc32;
use crate::layout::Parts;
use crate::operations::CHECK;
use std::ops::Range;

/// The length of a record's header, how many numbers a slot has, and which of them is the durable end.
const RECORD_HEADER: usize = 12;
const SLOT_FIELDS: usize = 6;
const DURABLE_END: usize = 3;

/// Where in a request's last part the journal starts.
fn journal_at(parts: &Parts) -> usize {
    match (parts.operation, parts.parts.last().and_then(|part| part.bytes().first())) {
        (CHECK, Some(&TAIL)) => 17,
        (CHECK, _) => 9,
        _ => 0,
    }
}

/// The whole records from a place on, sound or not, as far as their lengths and complements say; then what is left.
fn records(journal: &[u8], mut at: usize) -> Vec<Range<usize>> {
    let mut found = Vec::new();
    while let Some((head, rest)) = journal.get(at..).and_then(|rest| rest.split_first_chunk::<RECORD_HEADER>()) {
        let length = u32::from_le_bytes([head[0], head[1], head[2], head[3]]);
        if head[4..8] != (!length).to_le_bytes() || rest.len() < length as usize {
            break;
        }
        found.push(at..at + RECORD_HEADER + length as usize);
        at += RECORD_HEADER + length as usize;
    }
    if at < journal.len() {
        found.push(at..journal.len());
    }
    found
}

/// Whether the CRC-32 of a record is right.
fn is_sealed(record: &[u8]) -> bool {
    record.len() > RECORD_HEADER && record[8..12] == crc32(&record[RECORD_HEADER..]).to_le_bytes()
}

/// Bodies that are shorter than a body, or have more zeros, and may still read.
fn smaller_bodies(body: &[u8]) -> Vec<Vec<u8>> {
    let code_at = pieces::code_length_at(body);
    let mut bodies = Vec::new();
    // The frame: none, half of it, one byte less.
    let code = body.get(code_at).map_or(0, |length| usize::from(*length));
    let frame_at = code_at + 1 + code;
    if let Some(frame) = body.len().checked_sub(frame_at + 1) {
        bodies.extend([0, frame / 2, frame].map(|kept| body[..frame_at + kept].to_vec()));
    }
    // A code of one letter.
    if code > 1 && frame_at <= body.len() {
        bodies.push([&body[..code_at], &[1], &body[code_at + 1..code_at + 2], &body[frame_at..]].concat());
    }
    // The number, the generation and the sender.
    for at in [1, 9, 17].into_iter().filter(|at| at + 8 <= code_at && code_at < body.len()) {
        for number in [0u64, 1] {
            let mut other = body.to_vec();
            other[at..at + 8].copy_from_slice(&number.to_le_bytes());
            bodies.push(other);
        }
    }
    bodies
}

/// The journal with a range of it replaced.
fn replaced(journal: &[u8], range: &Range<usize>, with: &[u8]) -> Vec<u8> {
    [&journal[..range.start], with, &journal[range.end..]].concat()
}

/// Journals with fewer or smaller records.
fn fewer_records(journal: &[u8], from: usize) -> Vec<Vec<u8>> {
    let ranges = records(journal, from);
    let mut smaller = Vec::new();
    for (n, range) in ranges.iter().enumerate() {
        smaller.push(replaced(journal, &(range.start..journal.len()), &[]));
        smaller.push(replaced(journal, &(ranges[0].start..range.start), &[]));
        smaller.push(replaced(journal, &ranges[n], &[]));
    }
    for range in ranges.iter().filter(|range| is_sealed(&journal[(*range).clone()])) {
        let body = &journal[range.start + RECORD_HEADER..range.end];
        smaller.extend(smaller_bodies(body).iter().map(|body| replaced(journal, range, &pieces::record(body))));
    }
    smaller
}

/// Whether the bytes end in their CRC-32.
fn ends_sealed(bytes: &[u8]) -> bool {
    let (front, crc) = bytes.split_at(bytes.len() - 4);
    crc32(front).to_le_bytes() == crc
}

/// Journals with zeros in the prefix: in the filler, and in fields of the slots and of the header.
fn smaller_fronts(journal: &[u8]) -> Vec<Vec<u8>> {
    let mut smaller = Vec::new();
    if journal.len() < START {
        return smaller;
    }
    let mut bare = journal.to_vec();
    for filler in [44..4096, 4148..8192, 8244..START] {
        bare[filler].fill(0);
    }
    smaller.push(bare);
    for slot in 0..2 {
        let mut without = journal.to_vec();
        without[4096 * (slot + 1)..][..52].fill(0);
        smaller.push(without);
        if !ends_sealed(&journal[4096 * (slot + 1)..][..52]) {
            continue;
        }
        for field in 0..SLOT_FIELDS {
            let durable_end = if field == DURABLE_END { START as u64 } else { 2 };
            smaller.extend([0, 1, durable_end].map(|number| pieces::with_slot_field(journal, slot, field, number)));
        }
    }
    if ends_sealed(&journal[..44]) {
        let fields = [10..12, 12..20, 20..24, 24..32, 32..40];
        smaller.extend(fields.map(|field| pieces::with_header(journal, field.start, &vec![0; field.len()])));
    }
    smaller
}

/// Requests whose last part holds a smaller journal.
pub(super) fn smaller_journals(parts: &Parts) -> Vec<Parts> {
    let last = parts.parts.len() - 1;
    let bytes = parts.parts[last].bytes();
    let Some((front, journal)) = bytes.split_at_checked(journal_at(parts)) else {
        return Vec::new();
    };
    let smaller = smaller_fronts(journal).into_iter().chain(fewer_records(journal, START));
    smaller.map(|journal| parts.with(last, [front, &journal].concat())).collect()
}

/// Re-reads of the same record in a smaller journal: without what stands before it, without what stands behind it, with a smaller body.
pub(super) fn smaller_rereads(parts: &Parts) -> Vec<Parts> {
    let number = |at: usize| parts.parts[at].bytes().iter().rev().fold(0, |number, byte| number << 8 | u64::from(*byte));
    let (offset, length, journal) = (number(1) as usize, number(2) as usize, parts.parts[4].bytes());
    let mut smaller = Vec::new();
    if let Some(rest) = journal.get(offset..) {
        smaller.push(parts.with(4, rest.to_vec()).with(1, vec![0; 8]));
    }
    let end = offset.checked_add(RECORD_HEADER).and_then(|start| start.checked_add(length));
    let Some(record) = end.and_then(|end| journal.get(offset..end)) else {
        return smaller;
    };
    smaller.push(parts.with(4, journal[..offset + record.len()].to_vec()));
    if is_sealed(record) {
        for body in smaller_bodies(&record[RECORD_HEADER..]) {
            let journal = replaced(journal, &(offset..offset + record.len()), &pieces::record(&body));
            smaller.push(parts.with(4, journal).with(2, (body.len() as u64).to_le_bytes().to_vec()));
        }
    }
    smaller
}
