//! A child module of the original's `format.rs`, which `build.rs` declares behind its last line: a child sees what its parent keeps
//! private. It calls the original and changes nothing in it.

use super::{decode_body, newest_slot, scan_records, DamageRule, IndexEntry, MsgType, SlotImages, StoreError, TruncationCause};
use super::{Reader, Writer, DATA_START, SLOT_LEN, SLOT_OFFSETS};
use std::collections::HashSet;

/// What the original reads in a record's body.
pub(crate) struct Contents {
    pub(crate) number: u64,
    /// The generation and the next sender, of kind 5.
    pub(crate) counter: Option<(u64, u64)>,
    pub(crate) code: MsgType,
    /// Where in the body the frame starts.
    pub(crate) frame: usize,
}

/// What stands in a body, where it reads.
pub(crate) fn contents(body: &[u8]) -> Option<Contents> {
    let read = decode_body(body).ok()?;
    let frame = body.len() - read.frame.len();
    Some(Contents { number: read.seq, counter: read.counter, code: read.msg_type, frame })
}

/// What the original's scan does at the first record.
pub(crate) enum First {
    /// It takes the record, whose body this is.
    Body(Vec<u8>),
    Cut(TruncationCause),
    Refused(StoreError),
}

/// What the scan does at the front of the bytes, under the rule that excuses least. The scan is stopped behind the first body,
/// before the body is read.
pub(crate) fn first(bytes: &[u8], max_body: u64) -> Result<First, String> {
    let mut kept = None;
    let mut reader = bytes;
    let length = bytes.len() as u64;
    let found = scan_records(&mut reader, 0, length, max_body, DamageRule::Tail { records: 0 }, 0, |_, _, body| {
        kept = Some(body.to_vec());
        Err("the first body".to_string())
    });
    match (kept, found) {
        (Some(body), Err(_)) => Ok(First::Body(body)),
        (None, Ok((0, Some(cut)))) => Ok(First::Cut(cut.cause)),
        (None, Err(error)) => Ok(First::Refused(error)),
        (_, Ok(found)) => Err(format!("the original's scan does not stop at the first record: {found:?}")),
    }
}

/// The records that the original's scan takes.
pub(crate) struct Walk {
    /// The message number and the entry of each, in the journal's order.
    pub(crate) taken: Vec<(u64, IndexEntry)>,
    /// Where the first record stands whose number the room doesn't hold. The walk is stopped there, before the record is taken.
    pub(crate) full: Option<u64>,
}

impl Walk {
    /// Where the records end that are taken.
    pub(crate) fn end(&self) -> u64 {
        self.taken.last().map_or(DATA_START, |(_, entry)| entry.offset + entry.record_len())
    }
}

/// The slot's image at a place.
fn image(journal: &[u8], at: u64) -> [u8; SLOT_LEN] {
    journal.get(at as usize..).and_then(|rest| rest.first_chunk()).copied().unwrap_or([0xFF; SLOT_LEN])
}

/// Walks over the records of a journal whose front stands, for an index of so many entries.
pub(crate) fn walk(journal: &[u8], max_body: u64, rule: DamageRule, room: usize) -> Result<Walk, String> {
    let images: SlotImages = SLOT_OFFSETS.map(|at| image(journal, at));
    let (_, slot) = newest_slot(&images).map_err(|error| format!("the front does not stand: {error:?}"))?;
    let mut records = journal.get(DATA_START as usize..).ok_or("the front is not whole")?;
    let (mut taken, mut full) = (Vec::new(), None);
    let mut numbers = HashSet::new();
    let take = |offset, body_len, body: &[u8]| {
        let number = decode_body(body)?.seq;
        if numbers.len() == room && !numbers.contains(&number) {
            full = Some(offset);
            return Err("the index is full".to_string());
        }
        numbers.insert(number);
        taken.push((number, IndexEntry { offset, body_len }));
        Ok(())
    };
    // What the walk ends with is the scan's to say.
    let _ = scan_records(&mut records, DATA_START, journal.len() as u64, max_body, rule, slot.durable_end, take);
    Ok(Walk { taken, full })
}

/// Walks over the records with no index and no durable end: how many bodies read, and where the records end. For measuring.
pub(crate) fn count(journal: &[u8], max_body: u64, rule: DamageRule) -> Option<(u64, u64)> {
    let mut records = journal.get(DATA_START as usize..)?;
    let mut count = 0;
    let take = |_, _, body: &[u8]| decode_body(body).map(|_| count += 1);
    let (end, _) = scan_records(&mut records, DATA_START, journal.len() as u64, max_body, rule, 0, take).ok()?;
    Some((count, end))
}

/// What a reader takes.
pub(crate) enum Field<'a> {
    Number(u64),
    Run(&'a [u8]),
    Nothing,
}

/// A field at a cursor, and where the reader stands behind it: a number of so many bytes, or, where the width is 0, `count` bytes. None
/// where no reader stands at the cursor.
pub(crate) fn take(bytes: &[u8], cursor: u64, width: u8, count: u64) -> Option<(Field<'_>, u64)> {
    let mut reader = Reader::new(bytes);
    reader.take(usize::try_from(cursor).ok()?).ok()?;
    let field = match width {
        1 => reader.u8().map(|byte| Field::Number(u64::from(byte))),
        2 => reader.u16().map(|number| Field::Number(u64::from(number))),
        4 => reader.u32().map(|number| Field::Number(u64::from(number))),
        8 => reader.u64().map(Field::Number),
        _ => reader.take(usize::try_from(count).ok()?).map(Field::Run),
    };
    let next = bytes.len() - reader.rest().len();
    Some((field.unwrap_or(Field::Nothing), next as u64))
}

/// Bytes put at a cursor: where the writer stands then. None where no writer stands at the cursor.
pub(crate) fn put(buffer: &mut [u8], cursor: u64, what: &[u8]) -> Option<u64> {
    let before = buffer.get(..usize::try_from(cursor).ok()?)?.to_vec();
    let mut writer = Writer::new(buffer);
    writer.put(&before);
    writer.put(what);
    Some(writer.written().len() as u64)
}
