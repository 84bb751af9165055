//! The exhaustive run: every truncation and every change of one byte of a small journal, of its records, header and slots, as it is and
//! with the CRC-32 and the complement made right again; and every input of the check program of up to two bytes. Requests are made one by
//! one, as they are asked for.

use crate::file::crc32::crc32;
use crate::pieces::{self, ANYWHERE, SALVAGE, START, TAIL};
use std::ops::Range;

type Requests = Box<dyn Iterator<Item = Vec<u8>>>;

/// The limit is the longest body of the small journal.
const LIMIT: u64 = 31;

/// What is lent to the scans: room for one entry more than there are.
const LENT: [[u64; 3]; 3] = [[9, 8, 7]; 3];

/// The parts of a prefix that are looked at: the header and both slots.
const LOOKED_AT: [Range<usize>; 3] = [0..44, 4096..4148, 8192..8244];

fn record_1() -> Vec<u8> {
    pieces::kind_1(7)
}

fn record_5() -> Vec<u8> {
    pieces::kind_5(8, 3, 9)
}

/// A prefix and two records; the durable end is the first one's, or the prefix's.
fn journal(durable_end: u64) -> Vec<u8> {
    pieces::journal(durable_end, &[&record_1(), &record_5()])
}

fn first_end() -> u64 {
    (START + record_1().len()) as u64
}

/// Bytes with one of these places changed to each of its 255 other values.
fn changes(bytes: Vec<u8>, places: Vec<usize>) -> impl Iterator<Item = Vec<u8>> {
    let all = 0..places.len() * 255;
    all.map(move |n| pieces::changed(&bytes, places[n / 255], (n % 255 + 1) as u8))
}

/// Each change of all bytes.
fn all_changes(bytes: &[u8]) -> impl Iterator<Item = Vec<u8>> {
    changes(bytes.to_vec(), (0..bytes.len()).collect())
}

/// Bytes cut to each of these lengths.
fn cuts(bytes: Vec<u8>, lengths: Range<usize>) -> impl Iterator<Item = Vec<u8>> {
    lengths.map(move |length| bytes[..length].to_vec())
}

/// Each truncation, the whole, and each change.
fn cuts_and_changes(bytes: &[u8]) -> impl Iterator<Item = Vec<u8>> {
    cuts(bytes.to_vec(), 0..bytes.len() + 1).chain(all_changes(bytes))
}

fn scanned(rule: u8, records: u64, journals: impl Iterator<Item = Vec<u8>> + 'static) -> Requests {
    Box::new(journals.map(move |journal| pieces::scan(rule, records, LIMIT, &LENT, &journal)))
}

/// Every truncation: all under Tail, and those about the header and the records under each rule.
fn truncations() -> Requests {
    let whole = journal(first_end());
    let all = 0..whole.len() + 1;
    let mut requests = scanned(TAIL, 1, cuts(whole.clone(), all.clone()));
    for (rule, records) in [(TAIL, 0), (TAIL, 2), (ANYWHERE, 0), (SALVAGE, 0)] {
        let front = scanned(rule, records, cuts(whole.clone(), 0..60));
        let rest = scanned(rule, records, cuts(whole.clone(), START - 20..all.end));
        requests = Box::new(requests.chain(front).chain(rest));
    }
    requests
}

/// Every change of what is looked at in the prefix, under each rule, and one change of each other byte of it.
fn prefix_changes() -> Requests {
    let whole = journal(first_end());
    let looked_at: Vec<usize> = LOOKED_AT.into_iter().flatten().collect();
    let filler: Vec<usize> = (0..START).filter(|at| !LOOKED_AT.iter().any(|part| part.contains(at))).collect();
    let other = whole.clone();
    let mut requests = scanned(TAIL, 1, filler.into_iter().map(move |at| pieces::changed(&other, at, 0xFF)));
    for (rule, records) in [(TAIL, 1), (ANYWHERE, 0), (SALVAGE, 0)] {
        requests = Box::new(requests.chain(scanned(rule, records, changes(whole.clone(), looked_at.clone()))));
    }
    requests
}

/// Every change of the records, with the first of them below the durable end, and with none.
fn record_changes() -> Requests {
    let mut requests: Requests = Box::new(std::iter::empty());
    let below = [(TAIL, 1), (TAIL, 2), (ANYWHERE, 0), (SALVAGE, 0)].map(|rule| (first_end(), rule));
    let past = [(TAIL, 0), (TAIL, 1), (TAIL, 2)].map(|rule| (START as u64, rule));
    for (durable_end, (rule, records)) in below.into_iter().chain(past) {
        let whole = journal(durable_end);
        let places = (START..whole.len()).collect();
        requests = Box::new(requests.chain(scanned(rule, records, changes(whole, places))));
    }
    requests
}

/// What a changed byte of a record makes wrong, made right: the complement of the length, or the body's CRC-32.
fn seal_record(record: &mut [u8]) {
    let (head, body) = record.split_at_mut(12);
    let length = u32::from_le_bytes([head[0], head[1], head[2], head[3]]);
    head.copy_from_slice(&pieces::record_header(length, crc32(body)));
}

/// Each change of a record's length and body, sealed again.
fn sealed_changes(record: &[u8]) -> impl Iterator<Item = Vec<u8>> {
    let places = (0..4).chain(12..record.len()).collect();
    changes(record.to_vec(), places).map(|mut record| {
        seal_record(&mut record);
        record
    })
}

/// Each change of what a CRC-32 at the end covers, sealed again.
fn resealed_changes(bytes: &[u8]) -> impl Iterator<Item = Vec<u8>> {
    changes(bytes.to_vec(), (0..bytes.len() - 4).collect()).map(|mut bytes| {
        pieces::reseal(&mut bytes);
        bytes
    })
}

/// The small journal with some of its bytes replaced.
fn with_part(at: usize, parts: impl Iterator<Item = Vec<u8>> + 'static) -> impl Iterator<Item = Vec<u8>> + 'static {
    let whole = journal(first_end());
    parts.map(move |part| [&whole[..at], &part, &whole[at + part.len()..]].concat())
}

/// Every change of header, slots and records that is sealed again: under Tail, and of the records under each rule.
fn sealed_scans() -> Requests {
    let whole = journal(first_end());
    let fronts = LOOKED_AT.into_iter().flat_map(move |part| with_part(part.start, resealed_changes(&whole[part])));
    let mut requests = scanned(TAIL, 1, fronts);
    for (rule, records) in [(TAIL, 0), (TAIL, 1), (ANYWHERE, 0), (SALVAGE, 0)] {
        let first = with_part(START, sealed_changes(&record_1()));
        let second = with_part(START + record_1().len(), sealed_changes(&record_5()));
        requests = Box::new(requests.chain(scanned(rule, records, first.chain(second))));
    }
    requests
}

/// All requests for scans.
fn scans() -> impl Iterator<Item = Vec<u8>> {
    truncations().chain(prefix_changes()).chain(record_changes()).chain(sealed_scans())
}

/// Each record pointed at, cut and changed.
fn rereads() -> impl Iterator<Item = Vec<u8>> {
    let one = |record: Vec<u8>, number| {
        let length = record.len() as u64 - 12;
        let records = cuts_and_changes(&record).chain(sealed_changes(&record));
        records.map(move |record| pieces::reread(0, length, number, &record))
    };
    one(record_1(), 7).chain(one(record_5(), 8))
}

/// Those that the library answers: scans and re-reads.
pub fn library() -> impl Iterator<Item = Vec<u8>> {
    scans().chain(rereads())
}

/// Each record and each body, cut and changed.
fn records() -> impl Iterator<Item = Vec<u8>> {
    let one = |record: Vec<u8>| {
        let bodies = cuts_and_changes(&record[12..]).map(|bytes| pieces::body(&bytes));
        let records = cuts_and_changes(&record).chain(sealed_changes(&record));
        records.map(|bytes| pieces::seen(LIMIT, 0, &bytes)).chain(bodies)
    };
    one(record_1()).chain(one(record_5()))
}

/// The header and the slots, cut and changed.
fn fronts() -> impl Iterator<Item = Vec<u8>> {
    let whole = journal(first_end());
    let [header, zero, one] = LOOKED_AT.map(|part| whole[part].to_vec());
    let each = |bytes: &[u8]| cuts_and_changes(bytes).chain(resealed_changes(bytes));
    let slots = each(&zero).map(|image| pieces::slot_image(&image));
    let (other_zero, other_one, twin) = (zero.clone(), one.clone(), one.clone());
    let first = each(&zero).map(move |image| pieces::newest(&image, &other_one));
    let second = each(&one).map(move |image| pieces::newest(&other_zero, &image));
    // Beside its twin, a slot that is sealed again differs in one field.
    let twins = resealed_changes(&one).map(move |image| pieces::newest(&image, &twin));
    each(&header).map(|bytes| pieces::header(&bytes)).chain(slots).chain(first).chain(second).chain(twins)
}

/// Each check's input of no, one and two bytes; and those of each kind that end early, at the prefix's end and in the records.
fn checks() -> impl Iterator<Item = Vec<u8>> {
    let short = (0..1 + 256 + 65_536u32).map(|n| match n {
        0 => Vec::new(),
        1..=256 => vec![(n - 1) as u8],
        _ => ((n - 257) as u16).to_be_bytes().to_vec(),
    });
    let cut = [TAIL, ANYWHERE, SALVAGE].into_iter().flat_map(|kind| {
        let input = pieces::check_input(kind, 1, LIMIT, &journal(first_end()));
        let rest = START - 20..input.len() + 1;
        cuts(input.clone(), 0..61).chain(cuts(input, rest))
    });
    short.chain(cut).map(|input| pieces::check(&input))
}

/// All requests.
pub fn requests() -> impl Iterator<Item = Vec<u8>> {
    library().chain(records()).chain(fronts()).chain(checks())
}

#[cfg(test)]
mod tests {
    use super::{changes, cuts, library, requests};
    use std::collections::HashSet;

    #[test]
    fn every_change_is_another() {
        let made: HashSet<Vec<u8>> = changes(vec![1, 2, 3], vec![0, 2]).collect();
        assert_eq!(made.len(), 2 * 255);
        assert!(made.iter().all(|bytes| bytes[1] == 2 && *bytes != [1, 2, 3]));
        assert_eq!(cuts(vec![1, 2], 0..3).collect::<Vec<_>>(), [vec![], vec![1], vec![1, 2]]);
    }

    #[test]
    fn there_are_so_many() {
        let sealed = 54 * 255;
        let scans = 12_359 + 4 * 151 + 12_140 + 3 * 148 * 255 + 7 * 70 * 255 + 136 * 255 + 4 * sealed;
        let records = 72 + 70 * 255 + sealed;
        let (bodies, fronts) = (48 + 46 * 255, 45 + 84 * 255 + 3 * (53 + 100 * 255) + 48 * 255);
        let checks = 65_793 + 3 * 61 + 108 + 2 * 100;
        assert_eq!(library().count(), scans + records);
        assert_eq!(requests().count(), scans + records + records + bodies + fronts + checks);
    }
}
