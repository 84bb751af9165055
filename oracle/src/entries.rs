//! A lent index in requests and answers, and the operations `insert` and `lookup`. The original's index isn't in the text: their rule is
//! restated here, and the original is never asked.

use crate::frames::{Answer, Fields, NOT_ASKED};

/// The length of a record's header, which the length of a body doesn't count.
const HEADER_LEN: u128 = 12;

/// An entry of the index: message number, offset and body length.
pub(crate) type Entry = [u64; 3];

fn entry(fields: &mut Fields) -> Result<Entry, String> {
    Ok([fields.u64()?, fields.u64()?, fields.u64()?])
}

/// A lent index: its room, then so many entries.
pub(crate) fn index(fields: &mut Fields) -> Result<Vec<Entry>, String> {
    let room = fields.u32()?;
    (0..room).map(|_| entry(fields)).collect()
}

pub(crate) fn with_index(answer: Answer, index: &[Entry]) -> Answer {
    let answer = answer.u32(index.len() as u32);
    index.as_flattened().iter().fold(answer, |answer, number| answer.u64(*number))
}

/// How many entries are in use: never more than there are.
fn in_use(index: &[Entry], count: u64) -> usize {
    usize::try_from(count).unwrap_or(usize::MAX).min(index.len())
}

/// The place of the first entry in use that has the number.
fn place(index: &[Entry], used: usize, number: u64) -> Option<usize> {
    index[..used].iter().position(|entry| entry[0] == number)
}

struct Insert {
    index: Vec<Entry>,
    count: u64,
    dead: u64,
    entry: Entry,
}

impl Insert {
    fn new(mut fields: Fields) -> Result<Self, String> {
        let index = index(&mut fields)?;
        let (count, dead, entry) = (fields.u64()?, fields.u64()?, entry(&mut fields)?);
        fields.end()?;
        Ok(Self { index, count, dead, entry })
    }

    /// Files the entry, and answers the count and the dead bytes; or the refusal's number, with nothing changed.
    fn file(&mut self) -> Result<(u64, u64), u8> {
        let used = in_use(&self.index, self.count);
        let Some(place) = place(&self.index, used, self.entry[0]) else {
            *self.index.get_mut(used).ok_or(16)? = self.entry;
            return Ok((used as u64 + 1, self.dead));
        };
        let dead = u128::from(self.dead) + HEADER_LEN + u128::from(self.index[place][2]);
        let dead = u64::try_from(dead).map_err(|_| 18)?;
        self.index[place] = self.entry;
        Ok((used as u64, dead))
    }
}

/// An entry filed.
pub(crate) fn insert(fields: Fields) -> Result<Vec<u8>, String> {
    Insert::new(fields)?;
    Ok(Answer::new(NOT_ASKED, 0).done())
}

/// What the port must answer to `insert`.
pub(crate) fn inserted(fields: Fields) -> Result<Vec<u8>, String> {
    let mut asked = Insert::new(fields)?;
    let answer = match asked.file() {
        Ok((count, dead)) => Answer::new(0, 0).u64(count).u64(dead),
        Err(number) => Answer::new(number, 0).u64(0).u64(0),
    };
    Ok(with_index(answer, &asked.index).done())
}

struct Lookup {
    index: Vec<Entry>,
    count: u64,
    number: u64,
}

impl Lookup {
    fn new(mut fields: Fields) -> Result<Self, String> {
        let (index, count, number) = (index(&mut fields)?, fields.u64()?, fields.u64()?);
        fields.end()?;
        Ok(Self { index, count, number })
    }
}

/// The entry of a number.
pub(crate) fn lookup(fields: Fields) -> Result<Vec<u8>, String> {
    Lookup::new(fields)?;
    Ok(Answer::new(NOT_ASKED, 0).done())
}

/// What the port must answer to `lookup`.
pub(crate) fn looked_up(fields: Fields) -> Result<Vec<u8>, String> {
    let Lookup { index, count, number } = Lookup::new(fields)?;
    let found = place(&index, in_use(&index, count), number).map(|place| index[place]);
    let answer = Answer::new(0, 0).u8(u8::from(found.is_some()));
    let answer = found.unwrap_or_default().iter().fold(answer, |answer, number| answer.u64(*number));
    Ok(with_index(answer, &index).done())
}
