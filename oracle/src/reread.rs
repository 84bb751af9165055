//! The operation `reread`: the message that an entry points at, as the original reads it again.

use crate::file::format::{self, IndexEntry, ReadAt};
use crate::frames::{Answer, Fields, NOT_ASKED};
use crate::operations::with_code;
use crate::stored::StoredMessage;
use crate::{refusals, Bytes};
use std::io::{self, Read};

/// The longest body that the original is asked for: it makes room for a whole record before it reads any of it. No request holds a journal
/// as long as this.
pub(crate) const LONGEST_BODY: u64 = 1 << 20;

/// How many bytes an answer has at a refusal for a code, a place and a frame.
const RESULT_LEN: usize = 21;

/// A journal in memory, in place of the original's file. A read that passes the end ends early, wherever it starts.
pub(crate) struct Journal<'a>(pub(crate) &'a [u8]);

impl ReadAt for Journal<'_> {
    fn read_record_at(&mut self, record: &mut [u8], offset: u64) -> io::Result<()> {
        let rest = usize::try_from(offset).ok().and_then(|offset| self.0.get(offset..));
        rest.unwrap_or_default().read_exact(record)
    }
}

struct Request<'a> {
    /// The entry as the original takes it, which has no message number; none where the body is longer than is asked.
    entry: Option<IndexEntry>,
    number: u64,
    journal: &'a [u8],
}

impl<'a> Request<'a> {
    fn new(mut fields: Fields<'a>) -> Result<Self, String> {
        let (_, offset, body) = (fields.u64()?, fields.u64()?, fields.u64()?);
        let body_len = u32::try_from(body).ok().filter(|_| body <= LONGEST_BODY);
        let (number, journal) = (fields.u64()?, fields.run()?);
        fields.end()?;
        Ok(Self { entry: body_len.map(|body_len| IndexEntry { offset, body_len }), number, journal })
    }
}

fn refused(number: u8) -> Vec<u8> {
    Answer::new(number, 0).array(&[0; RESULT_LEN]).done()
}

/// A message read again. The original's entry can't hold a body length above 2^32-1, and none above `LONGEST_BODY` is put to it.
pub(crate) fn answer(fields: Fields) -> Result<Vec<u8>, String> {
    let Request { entry, number, journal } = Request::new(fields)?;
    let Some(entry) = entry else {
        return Ok(Answer::new(NOT_ASKED, 0).done());
    };
    let mut record = Vec::new();
    let (at, code) = match format::read_record_into(&mut Journal(journal), number, entry, &mut record) {
        Ok(found) => found,
        Err(error) => return Ok(refused(refusals::number(&error)?)),
    };
    // The frame is the record's tail. It must be the journal's own bytes, and the message that the original hands out.
    let (place, frame) = (entry.offset as usize + at, record.split_off(at));
    let message = StoredMessage::new(number, code.clone(), Bytes::from(frame.clone()));
    let handed_out = format::read_frame(&mut Journal(journal), number, entry);
    if journal.get(place..place + frame.len()) != Some(&frame) || handed_out.ok() != Some(message) {
        return Err("the original's record and the message that it hands out differ".to_string());
    }
    Ok(with_code(Answer::new(0, 0), &code).u64(place as u64).run(&frame).done())
}

/// What the port must answer where the original isn't asked: no journal of a request holds such a record whole.
pub(crate) fn restated(fields: Fields) -> Result<Vec<u8>, String> {
    match Request::new(fields)?.entry {
        None => Ok(refused(23)),
        Some(_) => Err("the original can be asked this re-read".to_string()),
    }
}

#[cfg(test)]
mod tests {
    use super::Journal;
    use crate::file::format::{read_frame, seal_frame_record, IndexEntry};
    use std::fs::{self, File};

    #[test]
    fn a_file_answers_the_same() {
        let mut journal = [&[12, 0, 0, 0, 0, 0, 0, 0, 0, 0, 0, 0], &b"\x01\x09\0\0\0\0\0\0\0\x01D8"[..]].concat();
        seal_frame_record(&mut journal, 0);
        let path = concat!(env!("OUT_DIR"), "/journal");
        fs::write(path, &journal).expect("the file is written");
        let mut file = File::open(path).expect("the file opens");
        for (offset, body_len) in [(0, 12), (0, 11), (0, 13), (1, 12), (24, 0), (25, 0), (1 << 32, 12)] {
            for number in [8, 9] {
                let entry = IndexEntry { offset, body_len };
                let (one, other) = (read_frame(&mut file, number, entry), read_frame(&mut Journal(&journal), number, entry));
                assert_eq!(format!("{one:?}"), format!("{other:?}"));
            }
        }
    }
}
