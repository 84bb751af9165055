//! What the port must answer where the original can't be asked: the rule of its own refusals, restated.

use crate::frames::{Answer, Fields, NOT_ASKED};
use crate::operations::{self, CHECK, INSERT, LOOKUP, PREFIX, PUT, RECORD, REREAD, SCAN, SEAL, SEEN, TAKE};
use crate::{check, cursors, entries, reread, scan};

/// A prefix that isn't written: a bad time, or a small output.
fn prefix(mut fields: Fields) -> Result<Vec<u8>, String> {
    let (seconds, nanoseconds) = (fields.u64()?, fields.u32()?);
    fields.array::<120>()?;
    let number = match (nanoseconds, seconds) {
        (1_000_000_000.., _) => 5,
        (_, 0x8000_0000_0000_0000..) => 6,
        _ => 21,
    };
    Ok(Answer::new(number, 0).u64(0).run(fields.run()?).done())
}

/// A record that isn't written: a limit out of domain, a long frame, a bad code, or a small output.
fn record(mut fields: Fields) -> Result<Vec<u8>, String> {
    fields.array::<17>()?;
    let code = operations::code(&fields.array()?, fields.u8()?);
    let limit = operations::frame_limit(fields.u64()?);
    let frame = fields.run()?;
    let number = match (limit, code) {
        (None, _) => 17,
        (Some(limit), _) if frame.len() as u64 > u64::from(limit) => 19,
        (_, None) => 20,
        _ => 21,
    };
    Ok(Answer::new(number, 0).u64(0).run(fields.run()?).done())
}

/// A record too short to seal.
fn seal(mut fields: Fields) -> Result<Vec<u8>, String> {
    fields.u64()?;
    Ok(Answer::new(22, 0).run(fields.run()?).done())
}

/// What the port must answer where the original can't be asked: what the port adds, with zeros in the result's fields and no lent byte
/// changed, but for the entries that a scan filed before its index was full.
fn restated(request: &[u8]) -> Result<Vec<u8>, String> {
    let mut fields = Fields::new(request);
    match fields.u8()? {
        PREFIX => prefix(fields),
        RECORD => record(fields),
        SEAL => seal(fields),
        SEEN => Ok(operations::unsound(1)),
        SCAN => scan::restated(fields),
        REREAD => reread::restated(fields),
        CHECK => check::restated(fields),
        TAKE => cursors::taken(fields),
        PUT => cursors::written(fields),
        INSERT => entries::inserted(fields),
        LOOKUP => entries::looked_up(fields),
        other => Err(format!("the original can be asked each request of operation {other}")),
    }
}

/// What the port must answer, and whether the original has no say in it.
pub struct Expected {
    pub answer: Vec<u8>,
    pub restated: bool,
}

/// What the port must answer to a request.
pub fn expected(request: &[u8]) -> Result<Expected, String> {
    let answer = operations::answer(request)?;
    match answer.first() {
        Some(&NOT_ASKED) => Ok(Expected { answer: restated(request)?, restated: true }),
        _ => Ok(Expected { answer, restated: false }),
    }
}

/// Whether the port's answer is right where the original can't be asked.
pub fn added(request: &[u8], answer: &[u8]) -> Result<bool, String> {
    Ok(restated(request)? == answer)
}
