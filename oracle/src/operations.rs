//! One function an operation: takes the request apart, calls the original, and says all that it left.

use crate::file::crc32::crc32;
use crate::file::format::inner::{self, Contents, First};
use crate::file::format::{self, DamageRule, Header, Slot, SlotImages, TruncationCause, HEADER_LEN, RECORD_HEADER_LEN, SLOT_LEN};
use crate::frames::{Answer, Fields, NOT_ASKED};
use crate::message::MsgType;
use crate::{check, cursors, entries, refusals, reread, scan};
use std::time::{Duration, SystemTime, UNIX_EPOCH};

pub const CRC: u8 = 1;
pub const HEADER: u8 = 2;
pub const SLOT: u8 = 3;
pub const NEWEST: u8 = 4;
pub const SLOTS: u8 = 5;
pub const PREFIX: u8 = 6;
pub const RECORD: u8 = 7;
pub const SEAL: u8 = 8;
pub const BODY: u8 = 9;
pub const SEEN: u8 = 10;
pub const SCAN: u8 = 11;
pub const REREAD: u8 = 12;
pub const CHECK: u8 = 13;
pub const TAKE: u8 = 14;
pub const PUT: u8 = 15;
pub const INSERT: u8 = 16;
pub const LOOKUP: u8 = 17;

const NAMES: [&str; 18] = [
    "none", "crc", "header", "slot", "newest", "slots", "prefix", "record", "seal", "body", "seen", "scan", "reread", "check", "take",
    "put", "insert", "lookup",
];

/// The highest frame limit in the port's domain.
pub(crate) const HIGHEST_FRAME_LIMIT: u64 = 67_108_864;

/// How many bytes an answer has for what a body holds.
const CONTENTS_LEN: usize = 42;

/// The name of a request's operation.
pub fn name(request: &[u8]) -> &'static str {
    let number = request.first().map_or(0, |number| usize::from(*number));
    NAMES.get(number).copied().unwrap_or("none")
}

/// The answer to one request.
pub fn answer(request: &[u8]) -> Result<Vec<u8>, String> {
    let mut fields = Fields::new(request);
    match fields.u8()? {
        CRC => crc(fields),
        HEADER => header(fields),
        SLOT => slot(fields),
        NEWEST => newest(fields),
        SLOTS => slots(fields),
        PREFIX => prefix(fields),
        RECORD => record(fields),
        SEAL => seal(fields),
        BODY => body(fields),
        SEEN => seen(fields),
        SCAN => scan::answer(fields),
        REREAD => reread::answer(fields),
        CHECK => check::answer(fields),
        TAKE => cursors::take(fields),
        PUT => cursors::put(fields),
        INSERT => entries::insert(fields),
        LOOKUP => entries::lookup(fields),
        other => Err(format!("no operation has the number {other}")),
    }
}

/// What an answer says beside its refusal, in words for the counts. Some operations say it with the result's first byte.
pub fn found(request: &[u8], answer: &[u8]) -> String {
    match (request.first(), answer.get(9)) {
        (Some(&(BODY | SEEN | LOOKUP)), Some(found)) => format!(" found {found}"),
        (Some(&TAKE), Some(taken)) => format!(" width {} taken {taken}", request.get(1).unwrap_or(&0)),
        (Some(&PUT), _) => format!(" width {}", request.get(1).unwrap_or(&0)),
        (Some(&SCAN), _) => scan::found(request, answer),
        (Some(&CHECK), _) => check::found(answer),
        _ => String::new(),
    }
}

/// The CRC-32 of two runs of bytes, joined.
fn crc(mut fields: Fields) -> Result<Vec<u8>, String> {
    let first = fields.run()?;
    let more = fields.run()?;
    fields.end()?;
    let joined = [first, more].concat();
    Ok(Answer::new(0, 0).u32(crc32(&joined)).done())
}

/// A header's fields.
pub(crate) fn with_header(answer: Answer, header: &Header) -> Result<Answer, String> {
    let time = header.creation_time.duration_since(UNIX_EPOCH).map_err(|err| err.to_string())?;
    let answer = answer.u64(time.as_secs()).u32(time.subsec_nanos());
    Ok(answer.u64(header.next_sender).u64(header.next_target))
}

/// The header at the start of the bytes.
fn header(mut fields: Fields) -> Result<Vec<u8>, String> {
    let bytes = fields.run()?;
    fields.end()?;
    let found = match bytes.first_chunk::<HEADER_LEN>() {
        Some(image) => format::decode_header(image),
        // The scan says what a journal without a whole header is.
        None => match format::scan(bytes, bytes.len() as u64, 0, DamageRule::Anywhere) {
            Ok(_) => return Err("the original opens a journal without a header".to_string()),
            Err(error) => Err(error),
        },
    };
    match found {
        Ok(header) => Ok(with_header(Answer::new(0, 0), &header)?.done()),
        Err(error) => Ok(Answer::new(refusals::number(&error)?, 0).array(&[0; 28]).done()),
    }
}

/// An image as the original takes it. One that isn't of 52 bytes is not sound: so is one with every flag set.
fn image(bytes: &[u8]) -> [u8; SLOT_LEN] {
    bytes.try_into().unwrap_or([0xFF; SLOT_LEN])
}

fn with_slot(answer: Answer, slot: &Slot) -> Answer {
    answer
        .u64(slot.generation)
        .u64(slot.next_sender)
        .u64(slot.next_target)
        .u64(slot.durable_end)
        .u64(slot.app_watermark)
        .u8(u8::from(slot.reset_owed))
}

/// The slot that an image holds.
fn slot(mut fields: Fields) -> Result<Vec<u8>, String> {
    let bytes = fields.run()?;
    fields.end()?;
    let answer = Answer::new(0, 0);
    Ok(match format::decode_slot(&image(bytes)) {
        Some(slot) => with_slot(answer.u8(1), &slot).done(),
        None => answer.array(&[0; 42]).done(),
    })
}

/// Which of two images holds the newest slot, that slot, and the image.
fn newest(mut fields: Fields) -> Result<Vec<u8>, String> {
    let images = [fields.run()?, fields.run()?];
    fields.end()?;
    match format::newest_slot(&images.map(image)) {
        Ok((position, slot)) => {
            let answer = with_slot(Answer::new(0, 0).u8(position as u8), &slot);
            Ok(answer.run(images[position]).done())
        }
        Err(error) => Ok(Answer::new(refusals::number(&error)?, 0).array(&[0; 42]).run(&[]).done()),
    }
}

/// Two fresh slots, and the generation after theirs.
fn slots(mut fields: Fields) -> Result<Vec<u8>, String> {
    let first = fields.u64()?;
    let (sender, target, end, watermark) = (fields.u64()?, fields.u64()?, fields.u64()?, fields.u64()?);
    let reset = fields.flag()?;
    fields.end()?;
    match format::fresh_slots(first, sender, target, end, watermark, reset) {
        Ok((images, next)) => Ok(Answer::new(0, 0).u64(next).array(&images.concat()).done()),
        Err(error) => Ok(Answer::new(refusals::number(&error)?, 0).array(&[0; 112]).done()),
    }
}

/// A clock's time, where the original's clock can hold it.
fn time(seconds: u64, nanoseconds: u32) -> Option<SystemTime> {
    match nanoseconds {
        0..1_000_000_000 => UNIX_EPOCH.checked_add(Duration::new(seconds, nanoseconds)),
        _ => None,
    }
}

/// A prefix, written into a lent output. The original can't be asked for a bad time or for a small output.
fn prefix(mut fields: Fields) -> Result<Vec<u8>, String> {
    let creation_time = time(fields.u64()?, fields.u32()?);
    let (next_sender, next_target) = (fields.u64()?, fields.u64()?);
    let images: SlotImages = [fields.array()?, fields.array()?];
    let mut out = fields.run()?.to_vec();
    fields.end()?;
    let Some(creation_time) = creation_time else {
        return Ok(Answer::new(NOT_ASKED, 0).done());
    };
    let written = format::encode_prefix(&Header { creation_time, next_sender, next_target }, &images);
    let Some(front) = out.get_mut(..written.len()) else {
        return Ok(Answer::new(NOT_ASKED, 0).done());
    };
    front.copy_from_slice(&written);
    Ok(Answer::new(0, 0).u64(written.len() as u64).run(&out).done())
}

/// A type code as the original takes it, where it is good. Bytes past the length don't count.
pub(crate) fn code(bytes: &[u8; 8], length: u8) -> Option<MsgType> {
    let bytes = bytes.get(..usize::from(length))?;
    std::str::from_utf8(bytes).ok().and_then(|code| MsgType::new(code).ok())
}

/// A frame limit, where it is in the port's domain.
pub(crate) fn frame_limit(limit: u64) -> Option<u32> {
    u32::try_from(limit).ok().filter(|limit| u64::from(*limit) <= HIGHEST_FRAME_LIMIT)
}

/// A frame's record, not sealed, written into a lent output. The original can't be asked for a limit out of domain, for a bad code or
/// for a small output.
fn record(mut fields: Fields) -> Result<Vec<u8>, String> {
    let kind = fields.u8()?;
    let (sender, number) = (fields.u64()?, fields.u64()?);
    let code = code(&fields.array()?, fields.u8()?);
    let limit = frame_limit(fields.u64()?);
    let frame = fields.run()?;
    let mut out = fields.run()?.to_vec();
    fields.end()?;
    let sender = match kind {
        1 => None,
        5 => Some(sender),
        other => return Err(format!("a request has {other} for a record's kind")),
    };
    let Some(limit) = limit else {
        return Ok(Answer::new(NOT_ASKED, 0).done());
    };
    // The frame is measured before the code is looked at. So a good code takes a bad one's place, and only a refusal counts then.
    let any = MsgType::new("D").map_err(|_| "the code D is not good")?;
    let mut written = Vec::new();
    let asked = format::encode_frame_record_into(&mut written, number, sender, code.as_ref().unwrap_or(&any), frame, limit);
    if let Err(error) = asked {
        return Ok(Answer::new(refusals::number(&error)?, 0).u64(0).run(&out).done());
    }
    match (code, out.get_mut(..written.len())) {
        (Some(_), Some(front)) => front.copy_from_slice(&written),
        _ => return Ok(Answer::new(NOT_ASKED, 0).done()),
    }
    Ok(Answer::new(0, 0).u64(written.len() as u64).run(&out).done())
}

/// A record, sealed in place. Under 12 bytes the original does nothing and says nothing.
fn seal(mut fields: Fields) -> Result<Vec<u8>, String> {
    let generation = fields.u64()?;
    let mut record = fields.run()?.to_vec();
    fields.end()?;
    if record.len() < RECORD_HEADER_LEN {
        return Ok(Answer::new(NOT_ASKED, 0).done());
    }
    format::seal_frame_record(&mut record, generation);
    Ok(Answer::new(0, 0).run(&record).done())
}

/// A type code's eight bytes, with zeros past its length, and its length.
pub(crate) fn with_code(answer: Answer, code: &MsgType) -> Answer {
    let code = code.as_str().as_bytes();
    let mut bytes = [0; 8];
    bytes[..code.len()].copy_from_slice(code);
    answer.array(&bytes).u8(code.len() as u8)
}

fn with_contents(answer: Answer, contents: &Contents) -> Answer {
    let kind = if contents.counter.is_some() { 5 } else { 1 };
    let (generation, sender) = contents.counter.unwrap_or((0, 0));
    let answer = answer.u8(kind).u64(contents.number).u64(generation).u64(sender);
    with_code(answer, &contents.code).u64(contents.frame as u64)
}

/// What a body holds.
fn body(mut fields: Fields) -> Result<Vec<u8>, String> {
    let bytes = fields.run()?;
    fields.end()?;
    let answer = Answer::new(0, 0);
    Ok(match inner::contents(bytes) {
        Some(contents) => with_contents(answer.u8(1), &contents).done(),
        None => answer.u8(0).array(&[0; CONTENTS_LEN]).done(),
    })
}

/// An answer of `seen` where no sound record stands: the number of the test that fails.
pub(crate) fn unsound(test: u8) -> Vec<u8> {
    Answer::new(0, 0).u8(test).array(&[0; 16 + CONTENTS_LEN]).done()
}

/// What stands at a place. The original can't be asked where no bytes remain.
fn seen(mut fields: Fields) -> Result<Vec<u8>, String> {
    let (limit, place) = (fields.u64()?, fields.u64()?);
    let bytes = fields.run()?;
    fields.end()?;
    let rest = usize::try_from(place).ok().and_then(|place| bytes.get(place..)).unwrap_or_default();
    if rest.is_empty() {
        return Ok(Answer::new(NOT_ASKED, 0).done());
    }
    let test = match inner::first(rest, limit)? {
        First::Body(body) => match inner::contents(&body) {
            Some(contents) => {
                let answer = Answer::new(0, 0).u8(0).u64(place).u64(body.len() as u64);
                return Ok(with_contents(answer, &contents).done());
            }
            None => 6,
        },
        First::Cut(TruncationCause::Incomplete) if rest.len() < RECORD_HEADER_LEN => 1,
        First::Cut(TruncationCause::Incomplete) => 4,
        // Zeros aren't each other's complement: of the two kinds of damage, this is the header's.
        First::Cut(TruncationCause::Damaged) if rest.starts_with(&[0; RECORD_HEADER_LEN]) => 2,
        First::Cut(TruncationCause::Damaged) => 5,
        First::Refused(error) => match refusals::number(&error)? {
            11 => 2,
            12 => 5,
            13 => 3,
            other => return Err(format!("the original's scan refuses a first record with {other}")),
        },
    };
    Ok(unsound(test))
}
