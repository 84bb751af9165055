//! Chance matches, made by force: of a record whose end is lost the CRC-32 is right all the same, since four bytes of what is lost were
//! chosen so.

use super::{code_end, Loss, Written};
use crate::file::crc32::crc32;
use crate::file::format::RECORD_HEADER_LEN;
use crate::generate::ends;
use crate::pieces::{self, body_1, body_5, kind_1, kind_5, record, record_header};
use std::rc::Rc;

/// How many bytes are chosen: the last of the frame.
const CHOSEN: usize = 4;

/// A number in which no byte is 0.
const NUMBER: u64 = 0x0807_0605_0403_0201;

/// A code, and a frame with four bytes to choose.
const CODE: &[u8] = b"ABC";
const FRAME: &[u8] = b"8=FIX.4.4...";

/// How many bytes of a record last where only a part of its CRC-32 does; and how long a body of zeros is whose CRC-32 has zeros where the
/// rest was.
const IN_THE_CRC: [(usize, usize); 2] = [(11, 236), (10, 31_250)];

/// How many zeros there are behind the record that matches: none, under 12, and 12 and more.
const BEHIND: [usize; 5] = [0, 1, 11, 12, 43];

/// How many records Tail excuses: it doesn't matter.
const EXCUSED: [u64; 3] = [0, 1, u64::MAX];

/// What is lent to the scans: room for the numbers.
const LENT: [[u64; 3]; 2] = [[9, 8, 7]; 2];

/// The CRC-32 register that four bytes of zeros take to this one.
fn before_zeros(register: u32) -> u32 {
    (0..32).fold(register, |x, _| if x >> 31 == 1 { (x ^ 0xEDB8_8320) << 1 | 1 } else { x << 1 })
}

/// Chooses the last four bytes of a body so that it has this CRC-32.
fn choose(body: &mut [u8], crc: u32) {
    let (front, chosen) = body.split_at_mut(body.len() - CHOSEN);
    // Four bytes do to a register what four zeros do to the exclusive or of the two.
    let bytes = !crc32(front) ^ before_zeros(!crc);
    chosen.copy_from_slice(&bytes.to_le_bytes());
}

/// Whether a record can be made to match where so many of its bytes last: its head does, and all that is chosen is lost, and one byte more.
pub(crate) fn can_match(record: &[u8], lasted: usize) -> bool {
    code_end(record) + CHOSEN <= record.len() && (RECORD_HEADER_LEN..record.len() - CHOSEN).contains(&lasted)
}

/// Makes a record match where so many of its bytes last.
pub(crate) fn force(record: &mut [u8], lasted: usize) {
    let (head, body) = record.split_at_mut(RECORD_HEADER_LEN);
    let mut left = body.to_vec();
    left[lasted - RECORD_HEADER_LEN..].fill(0);
    choose(body, crc32(&left));
    head.copy_from_slice(&record_header(body.len() as u32, crc32(body)));
}

/// The bodies of both kinds.
fn bodies() -> [Vec<u8>; 2] {
    [body_1(NUMBER, CODE, FRAME), body_5(NUMBER, NUMBER, NUMBER, CODE, FRAME)]
}

/// Records that match where so many of their bytes last: at each place of the body where that can be.
fn in_the_body() -> impl Iterator<Item = (Vec<u8>, usize)> {
    let places = |record: Vec<u8>| (0..record.len()).map(move |lasted| (record.clone(), lasted));
    let all = bodies().map(|body| record(&body)).into_iter().flat_map(places);
    all.filter(|(record, lasted)| can_match(record, *lasted)).map(|(mut record, lasted)| {
        force(&mut record, lasted);
        (record, lasted)
    })
}

/// The same where the body is lost and the end of the CRC-32 too.
fn in_the_crc() -> impl Iterator<Item = (Vec<u8>, usize)> {
    let made = |(lasted, length): (usize, usize)| {
        // No byte of the CRC-32 that is lost was 0.
        let crc = crc32(&vec![0; length]) | u32::MAX << (8 * (lasted - 8));
        bodies().map(|mut body| {
            body.resize(length, b'8');
            choose(&mut body, crc);
            (record(&body), lasted)
        })
    };
    IN_THE_CRC.into_iter().flat_map(made)
}

/// The losses of a journal in which such a record stands between two others, the first of which has its number.
fn of((record, lasted): (Vec<u8>, usize)) -> impl Iterator<Item = Loss> {
    let records = [kind_1(NUMBER), record, kind_5(8, 3, 9)];
    let ends = ends(&records);
    let written = Rc::new(Written::new(pieces::front(ends[1]), ends[1], &records));
    let (place, end) = (ends[1] as usize + lasted, ends[2] as usize);
    let limit = written.longest_body();
    BEHIND.into_iter().flat_map(move |behind| {
        let length = end + behind;
        EXCUSED.map(|excused| Loss { written: written.clone(), place, length, excused, limit, lent: LENT.to_vec() })
    })
}

/// The losses at which a record matches by force.
pub(super) fn losses() -> impl Iterator<Item = Loss> {
    in_the_body().chain(in_the_crc()).flat_map(of)
}

#[cfg(test)]
mod tests {
    use super::{choose, crc32, in_the_body, in_the_crc, losses};
    use crate::losses::table::{last_place, line, Line};
    use std::collections::BTreeMap;

    #[test]
    fn a_crc_is_chosen() {
        for crc in [0, 1, 0x8000_0000, 0x1234_5678, u32::MAX] {
            let mut body = b"body....".to_vec();
            choose(&mut body, crc);
            assert_eq!((crc32(&body), &body[..4]), (crc, &b"body"[..]));
        }
    }

    #[test]
    fn each_place_is_lost() {
        let places = |kind: u8| in_the_body().filter(|(record, _)| record[12] == kind).map(|(_, lasted)| lasted).collect::<Vec<_>>();
        // Kind, number, code and its length, and eight places of the frame; in kind 5 generation and sender too.
        assert_eq!(places(1), (12..33).collect::<Vec<_>>());
        assert_eq!(places(5), (12..49).collect::<Vec<_>>());
        assert_eq!(in_the_crc().map(|(record, lasted)| (record[12], lasted)).collect::<Vec<_>>(), [(1, 11), (5, 11), (1, 10), (5, 10)]);
    }

    #[test]
    fn each_is_a_chance_match() {
        let mut met = BTreeMap::new();
        for loss in losses() {
            assert_eq!(last_place(&loss), loss.place, "the first byte that is lost was 0");
            let (line, says) = line(&loss, loss.place);
            *met.entry((line, says.cut)).or_insert(0) += 1;
        }
        // 15 each: of 46 places the code is lost, and of 16 only the frame's end.
        let kept = [(0, 48), (1, 96), (2, 96)].map(|(cut, count)| ((Line::MatchKept, cut), count));
        assert_eq!(met, BTreeMap::from_iter(kept.into_iter().chain([((Line::Match14, 0), 690)])));
    }
}
