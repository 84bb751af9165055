//! The operation `scan`: what the original's scan answers, and how the records that it takes leave the lent index.

use crate::file::format::{self, inner, DamageRule, IndexEntry, Scan, TruncationCause};
use crate::entries::{self, with_index, Entry};
use crate::frames::{Answer, Fields, NOT_ASKED};
use crate::operations::with_header;
use crate::refusals;

/// The highest body limit in the port's domain.
pub(crate) const HIGHEST_BODY_LIMIT: u64 = 67_108_898;

/// How many bytes an answer has for the result, and where in the answer the cut and the boundary stand. The dropped bytes follow the cut.
pub(crate) const RESULT_LEN: usize = 208;
pub(crate) const CUT_AT: usize = 158;
pub(crate) const BOUNDARY_AT: usize = 199;

pub(crate) struct Request<'a> {
    pub(crate) rule: DamageRule,
    pub(crate) limit: u64,
    /// The lent index.
    pub(crate) lent: Vec<Entry>,
    pub(crate) journal: &'a [u8],
}

impl<'a> Request<'a> {
    fn new(mut fields: Fields<'a>) -> Result<Self, String> {
        let (rule, records, limit) = (fields.u8()?, fields.u64()?, fields.u64()?);
        let rule = match rule {
            1 => DamageRule::Tail { records },
            2 => DamageRule::Anywhere,
            3 => DamageRule::Salvage,
            other => return Err(format!("a request has {other} for a rule")),
        };
        let (lent, journal) = (entries::index(&mut fields)?, fields.run()?);
        fields.end()?;
        Ok(Self { rule, limit, lent, journal })
    }
}

pub(crate) enum Outcome {
    Opened(Scan),
    /// Number and place.
    Refused(u8, u64),
    /// What the port refuses, and the original can't be asked.
    Added(u8, u64),
}

/// The outcome of a scan, and the index as it was left.
pub(crate) fn outcome(asked: Request) -> Result<(Outcome, Vec<Entry>), String> {
    let Request { rule, limit, lent: mut index, journal } = asked;
    if limit > HIGHEST_BODY_LIMIT {
        return Ok((Outcome::Added(17, 0), index));
    }
    let outcome = match format::scan(journal, journal.len() as u64, limit, rule) {
        Ok(scan) => Outcome::Opened(scan),
        Err(error) => {
            let (number, place) = refusals::number_and_place(&error)?;
            Outcome::Refused(number, place)
        }
    };
    // Nothing is written before the walk.
    if let Outcome::Refused(1..=9, _) = outcome {
        return Ok((outcome, index));
    }
    let walk = inner::walk(journal, limit, rule, index.len())?;
    let count = file(&mut index, &walk.taken)?;
    if let Some(place) = walk.full {
        return Ok((Outcome::Added(16, place), index));
    }
    // The scan and the walk over the same records must agree.
    let same = match &outcome {
        Outcome::Opened(scan) => scan.end == walk.end() && scan.index.entries().iter().map(entry).eq(index[..count].iter().copied()),
        Outcome::Refused(10..=14, place) => *place == walk.end(),
        _ => true,
    };
    match same {
        true => Ok((outcome, index)),
        false => Err("the original's scan and its walk over the records differ".to_string()),
    }
}

fn entry((number, entry): &(u64, IndexEntry)) -> Entry {
    [*number, entry.offset, u64::from(entry.body_len)]
}

/// Files the records in a lent index, and answers how many entries they take: a number's first record takes the next entry, and a later
/// one replaces it there.
fn file(index: &mut [Entry], records: &[(u64, IndexEntry)]) -> Result<usize, String> {
    let mut count = 0;
    for record in records {
        let place = index[..count].iter().position(|filed| filed[0] == record.0).unwrap_or(count);
        *index.get_mut(place).ok_or("the walk passes the room of the index")? = entry(record);
        count = count.max(place + 1);
    }
    Ok(count)
}

fn with_scan(answer: Answer, scan: &Scan) -> Result<Answer, String> {
    let (cut, dropped) = match scan.truncation {
        None => (0, 0),
        Some(cut) => match cut.cause() {
            TruncationCause::Incomplete => (1, cut.dropped_bytes()),
            TruncationCause::Damaged => (2, cut.dropped_bytes()),
        },
    };
    let answer = with_header(answer, &scan.header)?.array(&scan.slots.concat()).u8(scan.active as u8);
    let answer = answer.u64(scan.index.entries().len() as u64).u64(scan.end).u8(cut).u64(dropped).u64(scan.dead_bytes);
    let answer = answer.u64(scan.next_sender).u64(scan.next_target).u64(scan.next_generation);
    let answer = answer.u64(scan.boundary).u64(scan.app_watermark);
    Ok(answer.u8(u8::from(scan.reset_owed)).u8(u8::from(scan.slots_stale)))
}

fn refused(number: u8, place: u64, index: &[Entry]) -> Vec<u8> {
    with_index(Answer::new(number, place).array(&[0; RESULT_LEN]), index).done()
}

/// A journal read whole. The original can't be asked for a limit out of domain or for an index that is full.
pub(crate) fn answer(fields: Fields) -> Result<Vec<u8>, String> {
    Ok(match outcome(Request::new(fields)?)? {
        (Outcome::Opened(scan), index) => with_index(with_scan(Answer::new(0, 0), &scan)?, &index).done(),
        (Outcome::Refused(number, place), index) => refused(number, place, &index),
        (Outcome::Added(..), _) => Answer::new(NOT_ASKED, 0).done(),
    })
}

/// What the port must answer where the original can't be asked.
pub(crate) fn restated(fields: Fields) -> Result<Vec<u8>, String> {
    match outcome(Request::new(fields)?)? {
        (Outcome::Added(number, place), index) => Ok(refused(number, place, &index)),
        _ => Err("the original can be asked this scan".to_string()),
    }
}

/// The rule of a scan, and where it opens the kind of cut.
pub(crate) fn found(request: &[u8], answer: &[u8]) -> String {
    let rule = request.get(1).copied().unwrap_or(0);
    match (answer.first(), answer.get(CUT_AT)) {
        (Some(0), Some(cut)) => format!(" rule {rule} cut {cut}"),
        _ => format!(" rule {rule}"),
    }
}
