//! Requests for the check program: the scans' journals behind each kind, inputs that are too short or of no kind, journals about as long as
//! the program reads, and such as have about as many message numbers as its index has room for.

use super::scans::{self, Made};
use super::records::set_length;
use super::{fronts, Numbers};
use crate::check::{LONGEST_JOURNAL, ROOM};
use crate::file::format::{DATA_START, RECORD_HEADER_LEN};
use crate::operations::CHECK;
use crate::pieces::run;
use crate::scan::HIGHEST_BODY_LIMIT;

/// Bytes that are no kind: beside the kinds, and the digits of them.
const NO_KINDS: [u8; 6] = [0, 4, b'1', b'2', b'3', 255];

/// The input of a kind.
fn input(kind: u8, records: u64, limit: u64, journal: &[u8]) -> Vec<u8> {
    let mut input = vec![kind];
    if kind == 1 {
        input.extend_from_slice(&records.to_le_bytes());
    }
    input.extend_from_slice(&limit.to_le_bytes());
    input.extend_from_slice(journal);
    input
}

/// An input that ends inside the numbers or soon behind them.
fn short(numbers: &mut Numbers) -> Vec<u8> {
    let kind = match numbers.below(4) {
        0 => numbers.next() as u8,
        1 => numbers.pick(&NO_KINDS),
        _ => 1 + numbers.below(3) as u8,
    };
    let length = numbers.below(19);
    let mut input = [vec![kind], numbers.bytes(length)].concat();
    if numbers.one_in(18) {
        input.clear();
    }
    input
}

/// A journal that ends about where the program reads no further: in a record that fills it, in zeros or in anything.
fn long(numbers: &mut Numbers, kind: u8) -> Vec<u8> {
    let length = LONGEST_JOURNAL + numbers.below(3) as usize - 1;
    let limit = numbers.pick(&[100, 60_000, HIGHEST_BODY_LIMIT, HIGHEST_BODY_LIMIT + 1]);
    let end = numbers.pick(&[0, DATA_START, DATA_START + 1, 65_535, 65_536, 65_537]);
    let mut journal = fronts::prefix(numbers, 1, end);
    let left = length - DATA_START as usize;
    match numbers.below(3) {
        0 => journal.resize(length, 0),
        1 => journal.extend(numbers.bytes(left as u64)),
        _ => {
            let mut record = scans::record(numbers, 1, 2, &vec![b'8'; left]);
            record.truncate(left);
            set_length(numbers, &mut record, (left - RECORD_HEADER_LEN) as u64);
            journal.extend(record);
        }
    }
    let records = numbers.pick(&[0, 1, 2, 1 << 63]);
    input(kind, records, limit, &journal)
}

/// Records of so many message numbers that they fit just so, or don't; some again.
fn many(numbers: &mut Numbers, kind: u8) -> Vec<u8> {
    let count = ROOM as u64 + numbers.below(3) - 1;
    let (first, step) = (numbers.pick(&[1, 1 << 63, u64::MAX - 5]), numbers.pick(&[1, 1, 3, u64::MAX]));
    let mut known: Vec<u64> = (0..count).map(|turn| first.wrapping_add(step.wrapping_mul(turn))).collect();
    for _ in 0..numbers.below(4) {
        let (at, again) = (numbers.below(count) as usize, numbers.pick(&known));
        known.insert(numbers.pick(&[at, known.len()]), again);
    }
    let mut journal = fronts::prefix(numbers, 1, DATA_START);
    for (turn, number) in known.iter().enumerate() {
        journal.extend(scans::record(numbers, *number, 2 + turn as u64, &[]));
    }
    input(kind, 1, 100, &journal)
}

/// The input of the next request: each kind in turn.
pub(crate) fn next_input(numbers: &mut Numbers, turn: usize) -> Vec<u8> {
    let kind = 1 + (turn % 3) as u8;
    match numbers.below(120) {
        0 => long(numbers, kind),
        1 => many(numbers, kind),
        2..=9 => short(numbers),
        way => {
            let Made { window_records, limit, mut journal, .. } = scans::made(numbers);
            // Most are well below what the program reads.
            if journal.len() > LONGEST_JOURNAL && way < 100 {
                journal.truncate(DATA_START as usize + RECORD_HEADER_LEN);
            }
            let kind = if way < 14 { numbers.pick(&NO_KINDS) } else { kind };
            input(kind, window_records, limit, &journal)
        }
    }
}

/// The next request.
pub fn request(numbers: &mut Numbers, turn: usize) -> Vec<u8> {
    [vec![CHECK], run(&next_input(numbers, turn))].concat()
}

#[cfg(test)]
mod tests {
    use super::{next_input, Numbers};
    use crate::check;
    use std::collections::BTreeMap;

    #[test]
    fn every_outcome_is_met() {
        let mut numbers = Numbers::new(5);
        let mut met: BTreeMap<String, u32> = BTreeMap::new();
        for turn in 0..6000 {
            let input = next_input(&mut numbers, turn);
            let text = check::text(&input).expect("the input has a text").text;
            let (words, cut) = (text.split(' ').take(2).collect::<Vec<_>>(), text.lines().next().unwrap_or_default());
            let cut = cut.split_once("cut=").map(|(_, cut)| cut.split(':').next().unwrap_or_default());
            *met.entry(cut.map_or(words.join(" "), str::to_string)).or_default() += 1;
        }
        let refused = (1..=17).chain([28, 29]).map(|number| format!("refused {number}"));
        for what in refused.chain(["none", "incomplete", "damaged"].map(str::to_string)) {
            assert!(met.get(&what).is_some_and(|met| *met >= 4), "{what}: {met:?}");
        }
    }
}
