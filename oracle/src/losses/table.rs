//! What Tail answers to a loss: a table, read from the written journal and the loss's numbers alone. The bytes left are never scanned.

use super::{asked, Loss, Record};
use crate::file::crc32::crc32;
use crate::file::format::RECORD_HEADER_LEN as HEAD;
use crate::frames::Answer;
use crate::pieces::START;
use crate::scan::{CUT_AT, RESULT_LEN};

/// The kinds of cut, as an answer has them.
const NONE: u8 = 0;
const INCOMPLETE: u8 = 1;
const DAMAGED: u8 = 2;

/// How many bytes a record's length and complement have.
const LENGTHS: usize = 8;

/// A line of the table.
#[derive(Clone, Copy, PartialEq, Eq, PartialOrd, Ord, Debug)]
pub enum Line {
    Whole,
    Under12,
    HeadLost,
    HeadInPartZeros,
    HeadInPartFew,
    HeadInPart11,
    RecordTorn,
    CrcWrong,
    Match14,
    MatchKept,
}

impl Line {
    /// All lines, in the table's order.
    pub const ALL: [Self; 10] = [
        Self::Whole,
        Self::Under12,
        Self::HeadLost,
        Self::HeadInPartZeros,
        Self::HeadInPartFew,
        Self::HeadInPart11,
        Self::RecordTorn,
        Self::CrcWrong,
        Self::Match14,
        Self::MatchKept,
    ];

    /// What the line is about, in a few words.
    pub fn name(self) -> &'static str {
        match self {
            Self::Whole => "whole",
            Self::Under12 => "under 12",
            Self::HeadLost => "head lost",
            Self::HeadInPartZeros => "head in part, zeros",
            Self::HeadInPartFew => "head in part, few bytes",
            Self::HeadInPart11 => "head in part: 11",
            Self::RecordTorn => "record torn",
            Self::CrcWrong => "crc wrong",
            Self::Match14 => "match: 14",
            Self::MatchKept => "match kept",
        }
    }
}

/// What a line says: the end of the records kept, and either what is cut behind it, or the refusal with that place.
#[derive(Clone, Copy, PartialEq, Debug)]
pub(super) struct Says {
    pub(super) end: usize,
    pub(super) refusal: u8,
    pub(super) cut: u8,
    pub(super) dropped: usize,
}

/// The records up to an end are kept, and so many bytes behind it are cut.
fn opens(end: usize, cut: u8, dropped: usize) -> Says {
    Says { end, refusal: 0, cut, dropped }
}

/// A refusal at the end of the records kept.
fn refused(end: usize, refusal: u8) -> Says {
    Says { end, refusal, cut: NONE, dropped: 0 }
}

/// The last place: that of the loss, moved on over what was zero anyway, but not past the new length.
pub(super) fn last_place(loss: &Loss) -> usize {
    let lost = &loss.written.bytes[loss.place..loss.length];
    loss.place + lost.iter().take_while(|byte| **byte == 0).count()
}

/// The end of the records that end at a place or before.
pub(super) fn kept_end(loss: &Loss, place: usize) -> usize {
    let ends = loss.written.records.iter().map(|record| record.end);
    ends.filter(|end| *end <= place).max().unwrap_or(START)
}

/// Whether so many bytes are no more than Tail excuses.
fn are_excused(loss: &Loss, rest: usize) -> bool {
    rest as u128 <= u128::from(loss.excused) * (HEAD as u128 + u128::from(loss.limit))
}

/// Whether the CRC-32 of a record's body is the one in its head, where its bytes from a place on are zeros.
fn matches(bytes: &[u8], record: &Record, last: usize) -> bool {
    let mut left = bytes[record.place..last].to_vec();
    left.resize(record.end - record.place, 0);
    left[LENGTHS..HEAD] == crc32(&left[HEAD..]).to_le_bytes()
}

/// What is cut behind a record that matches by chance: only zeros are there.
fn behind(end: usize, length: usize) -> Says {
    match length - end {
        0 => opens(end, NONE, 0),
        rest @ 1..HEAD => opens(end, INCOMPLETE, rest),
        rest => opens(end, DAMAGED, rest),
    }
}

/// The first line that holds and what it says, where the bytes lasted up to a last place.
pub(super) fn line(loss: &Loss, last: usize) -> (Line, Says) {
    let (bytes, end) = (&loss.written.bytes, kept_end(loss, last));
    let (rest, lasted) = (loss.length - end, last - end);
    let in_head = lasted < LENGTHS;
    let zeros = bytes[end..last].iter().all(|byte| *byte == 0);
    let torn = loss.written.records.iter().find(|record| record.place == end && last > end);
    let (torn_end, code_end) = torn.map_or((end, end), |torn| (torn.end, torn.code_end));
    let by_chance = || torn.is_some_and(|torn| matches(bytes, torn, last));
    let lines = [
        (rest == 0, Line::Whole, opens(end, NONE, 0)),
        (rest < HEAD, Line::Under12, opens(end, INCOMPLETE, rest)),
        (lasted == 0, Line::HeadLost, opens(end, DAMAGED, rest)),
        (in_head && zeros, Line::HeadInPartZeros, opens(end, DAMAGED, rest)),
        (in_head && are_excused(loss, rest), Line::HeadInPartFew, opens(end, DAMAGED, rest)),
        (in_head, Line::HeadInPart11, refused(end, 11)),
        (loss.length < torn_end, Line::RecordTorn, opens(end, INCOMPLETE, rest)),
        (!by_chance(), Line::CrcWrong, opens(end, DAMAGED, rest)),
        (last < code_end, Line::Match14, refused(end, 14)),
    ];
    let first = lines.into_iter().find(|(holds, ..)| *holds);
    first.map_or_else(|| (Line::MatchKept, behind(torn_end, loss.length)), |(_, line, says)| (line, says))
}

/// The original's answer for the written journal up to a record's end. It must open, with nothing cut.
pub(super) fn clean(loss: &Loss, end: usize) -> Result<Vec<u8>, String> {
    let answer = asked(&loss.scan(&loss.written.bytes[..end]))?;
    match (answer.first(), answer.get(CUT_AT)) {
        (Some(0), Some(&NONE)) => Ok(answer),
        _ => Err(format!("the original doesn't open the written journal up to {end} with nothing cut, at a loss of {loss}")),
    }
}

/// The whole answer that a line says: that of the records kept, with its own cut; or its refusal, and the index of the records kept.
pub(super) fn answer(loss: &Loss, says: Says) -> Result<Vec<u8>, String> {
    let mut clean = clean(loss, says.end)?;
    if says.refusal != 0 {
        let refused = Answer::new(says.refusal, says.end as u64).array(&[0; RESULT_LEN]).done();
        let index = &clean[refused.len()..];
        return Ok([&refused, index].concat());
    }
    clean[CUT_AT] = says.cut;
    clean[CUT_AT + 1..CUT_AT + 9].copy_from_slice(&(says.dropped as u64).to_le_bytes());
    Ok(clean)
}

#[cfg(test)]
mod tests {
    use super::{answer, behind, kept_end, last_place, line, opens, refused, Line, Says, DAMAGED, INCOMPLETE, NONE};
    use crate::losses::{asked, forced, held, small, Loss, Written};
    use crate::pieces::{body_1, front, record, START};
    use std::rc::Rc;

    fn right(loss: &Loss) -> (Line, Says) {
        line(loss, last_place(loss))
    }

    /// Whether another table differs from the original at some loss.
    fn differs(other: impl Fn(&Loss) -> Says) -> bool {
        let wrong = |loss: Loss| answer(&loss, other(&loss)).expect("the table answers") != asked(&loss.request()).expect("it is asked");
        small::losses().chain(forced::losses()).any(wrong)
    }

    #[test]
    fn a_wrong_table_differs() {
        let by_place = |loss: &Loss| match line(loss, loss.place) {
            (Line::MatchKept, _) => opens(kept_end(loss, loss.place), DAMAGED, loss.length - kept_end(loss, loss.place)),
            (_, says) => says,
        };
        assert!(differs(by_place), "the zeros that were written are forgotten, and a match");
        assert!(differs(|loss| line(loss, loss.length).1), "the records go by the new length");
        assert!(differs(|loss| right(&Loss { excused: loss.excused.saturating_add(1), ..loss.clone() }).1), "N + 1");
        assert!(differs(|loss| right(&Loss { limit: loss.limit + 1, ..loss.clone() }).1), "the limit + 1");
        assert!(differs(|loss| Says { cut: right(loss).1.cut.min(INCOMPLETE), ..right(loss).1 }), "the cut is always incomplete");
    }

    #[test]
    fn a_wrong_match_differs() {
        let kept = |loss: &Loss| match right(loss) {
            (Line::Match14, _) => behind(loss.written.records[1].end, loss.length),
            (_, says) => says,
        };
        let never_kept = |loss: &Loss| match right(loss) {
            (Line::MatchKept, _) => refused(loss.written.records[1].place, 14),
            (_, says) => says,
        };
        assert!(differs(kept), "a match is always kept");
        assert!(differs(never_kept), "a match is always 14");
    }

    #[test]
    fn a_record_whose_zeros_were_written_matches_by_the_place() {
        let mut both = small::losses().chain(forced::losses()).map(|loss| (line(&loss, loss.place), right(&loss)));
        assert!(both.all(|(by_place, right)| by_place.1 == right.1));
        let kept = small::losses().filter(|loss| line(loss, loss.place).0 == Line::MatchKept);
        assert!(kept.count() > 0 && small::losses().all(|loss| right(&loss).0 != Line::MatchKept));
    }

    #[test]
    fn zeros_that_were_written_count_as_far_as_the_length_goes() {
        let records = [record(&body_1(7, b"D", b"ab\0\0\0\0"))];
        let written = Rc::new(Written::new(front(START as u64), START as u64, &records));
        let loss = |length| {
            let (place, length) = (START + 25, START + length);
            Loss { written: written.clone(), place, length, excused: 0, limit: 17, lent: vec![[0; 3]] }
        };
        assert_eq!(right(&loss(28)), (Line::RecordTorn, opens(START, INCOMPLETE, 28)));
        assert_eq!(right(&loss(29)), (Line::Whole, opens(START + 29, NONE, 0)));
        assert_eq!([28, 29].map(|length| held(&loss(length))), [Ok(Line::RecordTorn), Ok(Line::Whole)]);
    }
}
