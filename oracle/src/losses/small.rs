//! Every loss of small journals: each place and each new length, with each durable end, and some N and limits. And some in a head whose first
//! byte is 0.

use super::{Loss, Written};
use crate::generate::ends;
use crate::pieces::{self, body_1, body_5, record, START};
use std::rc::Rc;

/// N, and by how much the limit is above the longest body.
const ASKED: [(u64, u64); 6] = [(0, 0), (1, 0), (1, 1), (2, 0), (3, 1), (u64::MAX, 1)];

/// What is lent to the scans: room for one entry more than there are numbers.
const LENT: [[u64; 3]; 3] = [[9, 8, 7]; 3];

/// The records of each journal.
fn journals() -> [Vec<Vec<u8>>; 3] {
    [
        // Both kinds.
        vec![record(&body_1(7, b"D", b"8")), record(&body_5(8, 3, 9, b"D", b"8="))],
        // Frames that end in zeros, and one of zeros alone. The last record replaces the first.
        vec![record(&body_1(7, b"D", b"8\0")), record(&body_1(8, b"D", b"\0")), record(&body_1(7, b"D", b"=\0"))],
        // Few zeros, and no frames.
        vec![record(&body_5(u64::MAX, u64::MAX - 1, u64::MAX, b"~", b"")), record(&body_1(u64::MAX - 1, b"!", b""))],
    ]
}

/// Each journal with each durable end: 12,288, and where a record ends.
fn written() -> impl Iterator<Item = Written> {
    let with_end = |records: Vec<Vec<u8>>| ends(&records).into_iter().map(move |end| Written::new(pieces::front(end), end, &records));
    journals().into_iter().flat_map(with_end)
}

/// Each place with each new length.
fn places(written: &Written) -> impl Iterator<Item = (usize, usize)> {
    let end = written.bytes.len();
    (START.max(written.durable_end as usize)..end + 1).flat_map(move |place| (place..end + 1).map(move |length| (place, length)))
}

/// A journal's losses at these places with these new lengths.
fn of(written: Written, places: impl Iterator<Item = (usize, usize)>) -> impl Iterator<Item = Loss> {
    let (longest, written) = (written.longest_body(), Rc::new(written));
    places.flat_map(move |(place, length)| {
        ASKED.map(|(excused, above)| Loss { written: written.clone(), place, length, excused, limit: longest + above, lent: LENT.to_vec() })
    })
}

/// The losses in the head of a record with a body of 256 bytes, whose first byte is 0, at new lengths about its edges.
fn in_a_head() -> impl Iterator<Item = Loss> {
    let written = Written::new(pieces::front(START as u64), START as u64, &[record(&body_1(7, b"D", &[b'8'; 245]))]);
    let end = written.bytes.len();
    let lengths = [START + 11, START + 12, START + 13, end - 1, end];
    let from = move |place| lengths.into_iter().filter(move |length| place <= *length).map(move |length| (place, length));
    of(written, (START..START + 13).flat_map(from))
}

/// Each loss of each journal.
pub(super) fn losses() -> impl Iterator<Item = Loss> {
    let all = |written: Written| {
        let places = places(&written);
        of(written, places)
    };
    written().flat_map(all).chain(in_a_head())
}

#[cfg(test)]
mod tests {
    use super::losses;

    #[test]
    fn there_are_so_many() {
        // By how many bytes stand behind the durable end, in each journal.
        let behind = [65, 41, 0, 74, 49, 25, 0, 62, 23, 0];
        let places = behind.map(|bytes| (bytes + 1) * (bytes + 2) / 2);
        // In the head, five new lengths at twelve places, and four behind it.
        assert_eq!(losses().count(), 6 * (places.iter().sum::<usize>() + 5 * 12 + 4));
    }
}
