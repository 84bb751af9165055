//! Power losses that leave zeros. Of a written journal the bytes up to a place last; behind them stand zeros, up to a new length. A table
//! says what Tail answers (`losses/table.rs`). The original is held to the table, and the port to the original.

use crate::comparison::{compare, first_difference, hex};
use crate::entries::Entry;
use crate::file::format::RECORD_HEADER_LEN;
use crate::generate::{self, Numbers};
use crate::pieces::{self, START, TAIL};
use crate::restated::expected;
use crate::scan::BOUNDARY_AT;
use std::collections::BTreeMap;
use std::fmt;
use std::rc::Rc;

mod forced;
mod small;
mod table;

pub(crate) use forced::{can_match, force};
pub use table::Line;

/// How many losses there were, by line of the table.
pub type Lines = BTreeMap<Line, u64>;

/// Where a record of a written journal stands, where its code ends, and where it ends itself.
pub(crate) struct Record {
    pub(crate) place: usize,
    pub(crate) code_end: usize,
    pub(crate) end: usize,
}

/// A journal as it was written: a sound front, then sound records and nothing else.
pub(crate) struct Written {
    pub(crate) bytes: Vec<u8>,
    pub(crate) records: Vec<Record>,
    pub(crate) durable_end: u64,
}

/// Where in a record its code ends.
fn code_end(record: &[u8]) -> usize {
    let body = &record[RECORD_HEADER_LEN..];
    let at = pieces::code_length_at(body);
    RECORD_HEADER_LEN + at + 1 + usize::from(body[at])
}

impl Written {
    /// A prefix whose newest slot has the durable end, and the records behind it.
    pub(crate) fn new(prefix: Vec<u8>, durable_end: u64, records: &[Vec<u8>]) -> Self {
        let mut written = Self { bytes: prefix, records: Vec::new(), durable_end };
        for record in records {
            let place = written.bytes.len();
            written.bytes.extend_from_slice(record);
            written.records.push(Record { place, code_end: place + code_end(record), end: written.bytes.len() });
        }
        written
    }

    /// The length of the longest body.
    pub(crate) fn longest_body(&self) -> u64 {
        let lengths = self.records.iter().map(|record| record.end - record.place - RECORD_HEADER_LEN);
        lengths.max().unwrap_or(0) as u64
    }
}

/// A loss: what was written, what of it lasted, and what the journal left is scanned with.
#[derive(Clone)]
pub(crate) struct Loss {
    pub(crate) written: Rc<Written>,
    /// The bytes before this place lasted: k.
    pub(crate) place: usize,
    /// The new length: m.
    pub(crate) length: usize,
    /// How many records Tail excuses: N.
    pub(crate) excused: u64,
    pub(crate) limit: u64,
    pub(crate) lent: Vec<Entry>,
}

impl fmt::Display for Loss {
    fn fmt(&self, out: &mut fmt::Formatter) -> fmt::Result {
        let Self { written, place, length, excused, limit, .. } = self;
        let (end, whole) = (written.durable_end, written.bytes.len());
        write!(out, "k {place}, m {length}, N {excused}, limit {limit}, B {end}, {whole} bytes written")
    }
}

impl Loss {
    /// Whether the durable end and 12,288 aren't past the place, nor the place past the new length, nor that past the end.
    fn is_one(&self) -> bool {
        let first = self.written.durable_end.max(START as u64);
        first <= self.place as u64 && self.place <= self.length && self.length <= self.written.bytes.len()
    }

    /// How many bytes remain behind the records kept.
    pub(crate) fn rest(&self) -> usize {
        self.length - table::kept_end(self, table::last_place(self))
    }

    /// The request for a scan of some bytes, with all that the loss is scanned with.
    fn scan(&self, journal: &[u8]) -> Vec<u8> {
        pieces::scan(TAIL, self.excused, self.limit, &self.lent, journal)
    }

    /// The request for a scan of the journal left.
    fn request(&self) -> Vec<u8> {
        let mut left = self.written.bytes[..self.place].to_vec();
        left.resize(self.length, 0);
        self.scan(&left)
    }
}

/// The original's answer to a request. It must be one that the original can be asked.
fn asked(request: &[u8]) -> Result<Vec<u8>, String> {
    let right = expected(request)?;
    if right.restated { Err("the original can't be asked about a loss".to_string()) } else { Ok(right.answer) }
}

/// Whether a loss is one, of a journal as it was written: the original opens that whole, and has its durable end.
fn stands(loss: &Loss) -> Result<(), String> {
    let written = &loss.written;
    let whole = table::clean(loss, written.bytes.len())?;
    match loss.is_one() && whole[BOUNDARY_AT..BOUNDARY_AT + 8] == written.durable_end.to_le_bytes() {
        true => Ok(()),
        false => Err(format!("no loss: {loss}")),
    }
}

/// Holds the original to the table at a loss: the line that holds.
fn held(loss: &Loss) -> Result<Line, String> {
    stands(loss)?;
    let (line, says) = table::line(loss, table::last_place(loss));
    let table = table::answer(loss, says)?;
    let request = loss.request();
    let original = asked(&request)?;
    if original == table {
        return Ok(line);
    }
    let (name, at) = (line.name(), first_difference(&original, &table));
    let (request, original, table) = (hex(&request), hex(&original), hex(&table));
    Err(format!(
        "the table, line '{name}', and the original differ\n{loss}; the answers differ from byte {at} on\n\
         request  {request}\noriginal {original}\ntable    {table}"
    ))
}

/// The losses of a run: each of the small journals, those that match by force, and so many from a seed. They are made one by one.
fn losses(seed: u64, count: u64) -> impl Iterator<Item = Loss> {
    let mut numbers = Numbers::new(seed);
    small::losses().chain(forced::losses()).chain((0..count).map(move |_| generate::loss(&mut numbers)))
}

/// Holds the original to the table at each loss of a run. A line that no loss meets is an error too.
fn hold(losses: impl Iterator<Item = Loss>) -> Result<Lines, String> {
    let mut lines = Lines::new();
    for loss in losses {
        *lines.entry(held(&loss)?).or_default() += 1;
    }
    match Line::ALL.into_iter().find(|line| !lines.contains_key(line)) {
        Some(line) => Err(format!("no loss meets the table's line '{}'", line.name())),
        None => Ok(lines),
    }
}

/// Holds the original to the table at each loss of a run, then the port to the original.
pub fn compare_losses(seed: u64, count: u64, command: &[String]) -> Result<Lines, String> {
    let lines = hold(losses(seed, count))?;
    compare(move || losses(seed, count).map(|loss| loss.request()), command)?;
    Ok(lines)
}

#[cfg(test)]
mod tests {
    use super::{forced, generate, held, hold, small, Numbers, Rc};

    #[test]
    fn the_original_is_as_the_table_says() {
        let mut numbers = Numbers::new(7);
        hold(small::losses().chain(forced::losses())).expect("it is, and each line is met");
        hold((0..2000).map(|_| generate::loss(&mut numbers))).expect("it is, and each line is met");
    }

    #[test]
    fn a_line_that_is_not_met_is_an_error() {
        assert_eq!(hold(forced::losses()).expect_err("all match"), "no loss meets the table's line 'whole'");
    }

    #[test]
    fn a_difference_is_told() {
        let mut loss = forced::losses().next().expect("there are some");
        Rc::get_mut(&mut loss.written).expect("no other loss is left").records[1].code_end = 0;
        let told = held(&loss).expect_err("with its code the record is kept");
        let loss = "k 12327, m 12352, N 0, limit 31, B 12315, 12395 bytes written";
        let start = format!("the table, line 'match kept', and the original differ\n{loss}; the answers differ from byte 0 on\nrequest  ");
        assert!(told.starts_with(&start), "{told}");
    }
}
