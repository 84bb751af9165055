//! The port's refusal number for each error of the original. An error that isn't listed stops the oracle.

use crate::error::StoreError;

/// How an error's text starts, how it ends, and the number that it stands for. `#` is any number.
const CORRUPTED: [(&str, &str, u8); 28] = [
    ("journal is ", "-byte header", 1),
    ("journal header fails its checksum", "", 2),
    ("file does not start with the journal magic", "", 3),
    ("journal format version ", "", 4),
    ("journal creation time has ", " nanoseconds in a second", 5),
    ("journal creation time ", "s is out of range", 6),
    ("journal is ", " slots take", 7),
    ("both counter slots fail their checksum", "", 8),
    ("both counter slots carry generation ", "", 9),
    ("the journal ends inside a record at offset #, inside the first # bytes the counter slots record as durable", "", 10),
    ("a damaged record header at offset #, inside the first # bytes the counter slots record as durable", "", 10),
    ("a record failing its checksum at offset #, inside the first # bytes the counter slots record as durable", "", 10),
    ("the journal ends at offset #, inside the first # bytes the counter slots record as durable", "", 10),
    ("record at offset # has a damaged record header, and the # bytes from there", "", 11),
    ("record at offset # fails its checksum, and the # bytes from there", "", 12),
    ("record at offset # declares a #-byte body; this store reads bodies of # to # bytes", "", 13),
    ("record at offset #: unknown record kind #", "", 14),
    ("record at offset #: record of kind # is shorter than its fields", "", 14),
    ("record at offset #: record for MsgSeqNum # carries an invalid MsgType", "", 14),
    (EXHAUSTED.0, "", EXHAUSTED.1),
    ("record for MsgSeqNum # at offset # is no longer whole in the journal", "", 23),
    ("record for MsgSeqNum # at offset # no longer matches the index", "", 24),
    ("record for MsgSeqNum # at offset # fails its checksum", "", 25),
    ("record for MsgSeqNum # at offset # empty record body", "", 26),
    ("record for MsgSeqNum # at offset # unknown record kind #", "", 26),
    ("record for MsgSeqNum # at offset # record of kind # is shorter than its fields", "", 26),
    ("record for MsgSeqNum # at offset # record for MsgSeqNum # carries an invalid MsgType", "", 26),
    ("record for MsgSeqNum # at offset # is not that message's frame", "", 27),
];

/// The scan's text whole; that of fresh slots goes on.
const EXHAUSTED: (&str, u8) = ("the journal's generation sequence is exhausted", 15);

const TOO_LONG: (&str, u8) = ("frame of # bytes is above the store's #-byte limit", 19);

/// A text with `#` for each number in it.
fn without_numbers(text: &str) -> String {
    let mut shape = String::new();
    for letter in text.chars() {
        match letter {
            '0'..='9' if shape.ends_with('#') => {}
            '0'..='9' => shape.push('#'),
            other => shape.push(other),
        }
    }
    shape
}

/// The number of an error.
pub fn number(error: &StoreError) -> Result<u8, String> {
    let known = match error {
        StoreError::Corrupted { reason } => {
            let shape = without_numbers(reason);
            let like = |(start, end, _): &&(&str, &str, u8)| shape.starts_with(start) && shape.ends_with(end);
            CORRUPTED.iter().find(like).map(|(_, _, number)| *number)
        }
        StoreError::Io(reason) => reason.starts_with(EXHAUSTED.0).then_some(EXHAUSTED.1),
        StoreError::StoreFailed { reason, .. } => (without_numbers(reason) == TOO_LONG.0).then_some(TOO_LONG.1),
    };
    known.ok_or_else(|| format!("the original answers an error that is not known: {error:?}"))
}

/// The number behind the first `at offset` in a text.
fn offset(text: &str) -> Option<u64> {
    let (_, rest) = text.split_once("at offset ")?;
    let digits = rest.split(|letter: char| !letter.is_ascii_digit()).next()?;
    digits.parse().ok()
}

/// The number and the place of an error of the scan. Only what is met among the records has a place, and its text names it.
pub fn number_and_place(error: &StoreError) -> Result<(u8, u64), String> {
    match (number(error)?, error) {
        (number @ 10..=14, StoreError::Corrupted { reason }) => {
            let place = offset(reason).ok_or_else(|| format!("the original's error names no place: {reason}"))?;
            Ok((number, place))
        }
        (number, _) => Ok((number, 0)),
    }
}

#[cfg(test)]
mod tests {
    use super::{number, number_and_place};
    use crate::error::StoreError;
    use crate::file::format::{encode_prefix, fresh_slots, read_frame, scan, seal_frame_record, DamageRule, Header, IndexEntry};
    use crate::reread::Journal;
    use std::time::UNIX_EPOCH;

    /// What a journal of these records is refused with, and where, under Tail of no records and body limit 100.
    fn refused(durable_end: u64, records: &[u8]) -> (u8, u64) {
        let header = Header { creation_time: UNIX_EPOCH, next_sender: 1, next_target: 1 };
        let (slots, _) = fresh_slots(1, 1, 1, durable_end, 0, false).expect("generation 1 stands");
        let journal = [&encode_prefix(&header, &slots), records].concat();
        let error = scan(&journal[..], journal.len() as u64, 100, DamageRule::Tail { records: 0 });
        number_and_place(&error.expect_err("the journal is refused")).expect("the error is known")
    }

    /// The record of a body, sealed.
    fn record(body: &[u8], generation: u64) -> Vec<u8> {
        let mut record = [&[body.len() as u8, 0, 0, 0, 0, 0, 0, 0, 0, 0, 0, 0], body].concat();
        seal_frame_record(&mut record, generation);
        record
    }

    #[test]
    fn refusals_of_the_scan() {
        let wrong_crc = [1, 0, 0, 0, 0xFE, 0xFF, 0xFF, 0xFF, 0, 0, 0, 0, 1, 1];
        let no_length = [0, 0, 0, 0, 0xFF, 0xFF, 0xFF, 0xFF, 0, 0, 0, 0];
        let sound = record(&[1, 9, 9, 9, 9, 9, 9, 9, 9, 1, b'D'], 0);
        // The durable end less 12,288, what stands behind the records, and the number.
        let cases: [(u64, &[u8], u8); 11] = [
            (1, &[], 10),
            (1, &[1; 11], 10),
            (1, &[0; 12], 10),
            (1, &wrong_crc, 10),
            (0, &[1; 12], 11),
            (0, &wrong_crc, 12),
            (0, &no_length, 13),
            (1, &no_length, 13),
            (0, &record(&[2; 40], 0), 14),
            (0, &record(&[5; 24], 0), 14),
            (0, &record(&[1, 0, 0, 0, 0, 0, 0, 0, 0, 0], 0), 14),
        ];
        for (past, rest, number) in cases {
            assert_eq!(refused(12_288 + past, rest), (number, 12_288));
            assert_eq!(refused(12_311 + past, &[&sound[..], rest].concat()), (number, 12_311));
        }
        let mut last = [0; 27];
        (last[0], last[25], last[26]) = (5, 1, b'D');
        assert_eq!(refused(12_288, &record(&last, u64::MAX)), (15, 0));
    }

    /// What message 9 is refused with, read again at 2 behind two other bytes.
    fn refused_again(record: &[u8], body_len: u32) -> u8 {
        let journal = [b"..", record].concat();
        let error = read_frame(&mut Journal(&journal), 9, IndexEntry { offset: 2, body_len });
        number(&error.expect_err("the message is refused")).expect("the error is known")
    }

    #[test]
    fn refusals_of_a_reread() {
        let sound = record(&[1, 9, 0, 0, 0, 0, 0, 0, 0, 1, b'D'], 0);
        let changed = |at: usize| {
            let mut record = sound.clone();
            record[at] ^= 1;
            record
        };
        let no_body = record(&[], 0);
        assert_eq!(no_body, [0, 0, 0, 0, 0xFF, 0xFF, 0xFF, 0xFF, 0, 0, 0, 0]);
        let cases: [(&[u8], u32, u8); 16] = [
            (&[], 0, 23),
            (&sound[..11], 0, 23),
            (&sound[..22], 11, 23),
            (&sound, 12, 23),
            (&sound, 10, 24),
            (&sound, 0, 24),
            (&changed(0), 11, 24),
            (&changed(7), 11, 24),
            (&changed(8), 11, 25),
            (&changed(22), 11, 25),
            (&[&no_body[..11], &[1]].concat(), 0, 25),
            (&no_body, 0, 26),
            (&record(&[2; 40], 0), 40, 26),
            (&record(&[5; 24], 0), 24, 26),
            (&record(&[1, 9, 0, 0, 0, 0, 0, 0, 0, 1, b' '], 0), 11, 26),
            (&record(&[1, 8, 0, 0, 0, 0, 0, 0, 0, 1, b'D'], 0), 11, 27),
        ];
        for (record, body_len, number) in cases {
            assert_eq!(refused_again(record, body_len), number, "{body_len}: {record:02x?}");
        }
    }

    #[test]
    fn an_unknown_text_has_no_number() {
        let reread = "record for MsgSeqNum 9 at offset 9 is too long to read";
        for reason in ["record at offset 9: the count of replaced bytes overflows", "record at offset 9 is too long", reread, ""] {
            assert!(number(&StoreError::Corrupted { reason: reason.to_string() }).is_err());
            assert!(number(&StoreError::StoreFailed { seq_num: 1, reason: reason.to_string() }).is_err());
        }
    }
}
