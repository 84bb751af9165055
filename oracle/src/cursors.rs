//! The operations `take` and `put`: a field read and a field written at a cursor, by the original's own reader and writer. Neither of them
//! ever stands past the end of its bytes: there the rule is restated.

use crate::file::format::inner::{self, Field};
use crate::frames::{Answer, Fields, NOT_ASKED};

/// A field's width: a number of so many bytes, or 0, a run.
fn width(fields: &mut Fields) -> Result<u8, String> {
    match fields.u8()? {
        width @ (0 | 1 | 2 | 4 | 8) => Ok(width),
        other => Err(format!("a request has {other} for a field's width")),
    }
}

struct Take<'a> {
    width: u8,
    cursor: u64,
    count: u64,
    bytes: &'a [u8],
}

impl<'a> Take<'a> {
    fn new(mut fields: Fields<'a>) -> Result<Self, String> {
        let (width, cursor, count, bytes) = (width(&mut fields)?, fields.u64()?, fields.u64()?, fields.run()?);
        fields.end()?;
        Ok(Self { width, cursor, count, bytes })
    }
}

fn nothing_taken(cursor: u64) -> Vec<u8> {
    Answer::new(0, 0).u8(0).u64(0).u64(cursor).run(&[]).done()
}

/// A field read.
pub(crate) fn take(fields: Fields) -> Result<Vec<u8>, String> {
    let Take { width, cursor, count, bytes } = Take::new(fields)?;
    let Some((field, next)) = inner::take(bytes, cursor, width, count) else {
        return Ok(Answer::new(NOT_ASKED, 0).done());
    };
    let answer = Answer::new(0, 0);
    Ok(match field {
        Field::Number(number) => answer.u8(1).u64(number).u64(next).run(&[]).done(),
        Field::Run(run) => answer.u8(1).u64(0).u64(next).run(run).done(),
        Field::Nothing => nothing_taken(next),
    })
}

/// What the port must answer to `take` past the end: nothing is taken, not even a run of no bytes.
pub(crate) fn taken(fields: Fields) -> Result<Vec<u8>, String> {
    let asked = Take::new(fields)?;
    match asked.cursor > asked.bytes.len() as u64 {
        true => Ok(nothing_taken(asked.cursor)),
        false => Err("the original can be asked for this field".to_string()),
    }
}

struct Put<'a> {
    cursor: u64,
    /// The bytes of the number, or the run.
    what: Vec<u8>,
    buffer: &'a [u8],
}

impl<'a> Put<'a> {
    fn new(mut fields: Fields<'a>) -> Result<Self, String> {
        let (width, cursor, value) = (width(&mut fields)?, fields.u64()?, fields.u64()?);
        let (run, buffer) = (fields.run()?, fields.run()?);
        fields.end()?;
        let what = match width {
            0 => run.to_vec(),
            width => value.to_le_bytes()[..usize::from(width)].to_vec(),
        };
        Ok(Self { cursor, what, buffer })
    }
}

/// A field written.
pub(crate) fn put(fields: Fields) -> Result<Vec<u8>, String> {
    let Put { cursor, what, buffer } = Put::new(fields)?;
    let mut buffer = buffer.to_vec();
    Ok(match inner::put(&mut buffer, cursor, &what) {
        Some(next) => Answer::new(0, 0).u64(next).run(&buffer).done(),
        None => Answer::new(NOT_ASKED, 0).done(),
    })
}

/// What the port must answer to `put` past the end: nothing is written.
pub(crate) fn written(fields: Fields) -> Result<Vec<u8>, String> {
    let asked = Put::new(fields)?;
    match asked.cursor > asked.buffer.len() as u64 {
        true => Ok(Answer::new(0, 0).u64(asked.cursor).run(asked.buffer).done()),
        false => Err("the original can be asked to write this field".to_string()),
    }
}
