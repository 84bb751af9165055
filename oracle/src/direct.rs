//! The original's functions, called directly, for measuring (`bench`): numbers and lent bytes in, numbers out, and as little around
//! them as can be. What the original would read from a file is lent in memory.

use crate::file::crc32;
use crate::file::format::{self, inner, DamageRule, IndexEntry};
use crate::message::MsgType;
use crate::reread::Journal;

/// What a scan finds, in numbers.
#[repr(C)]
pub struct Found {
    pub count: u64,
    pub end: u64,
    pub dead: u64,
    pub sender: u64,
    pub target: u64,
    pub generation: u64,
}

/// Where a message stands: its number, the offset of its record, the length of the record's body.
pub type Entry = [u64; 3];

/// The CRC-32 of the bytes.
pub fn crc32(bytes: &[u8]) -> u32 {
    crc32::crc32(bytes)
}

fn tail(journal: &[u8], limit: u64) -> Option<format::Scan> {
    format::scan(journal, journal.len() as u64, limit, DamageRule::Tail { records: 1 }).ok()
}

/// A scan under Tail, where it opens. The original's index is the stand-in.
pub fn scan(journal: &[u8], limit: u64) -> Option<Found> {
    let scan = tail(journal, limit)?;
    Some(Found {
        count: scan.index.entries().len() as u64,
        end: scan.end,
        dead: scan.dead_bytes,
        sender: scan.next_sender,
        target: scan.next_target,
        generation: scan.next_generation,
    })
}

/// The entries that the scan files.
pub fn entries(journal: &[u8], limit: u64) -> Option<Vec<Entry>> {
    let scan = tail(journal, limit)?;
    Some(scan.index.entries().iter().map(|(number, at)| [*number, at.offset, u64::from(at.body_len)]).collect())
}

/// The walk over the records alone, with no index: how many there are, and where they end.
pub fn walk(journal: &[u8], limit: u64) -> Option<(u64, u64)> {
    inner::count(journal, limit, DamageRule::Tail { records: 1 })
}

/// A type code, and a buffer that is kept from one record to the next.
pub struct Desk {
    code: MsgType,
    record: Vec<u8>,
}

impl Desk {
    /// A desk whose records have this code, where it is good.
    pub fn new(code: &str) -> Option<Self> {
        Some(Self { code: MsgType::new(code).ok()?, record: Vec::new() })
    }

    /// Writes a record and seals it: with the next sender and the generation, or neither.
    pub fn write_seal(&mut self, sender: Option<u64>, number: u64, frame: &[u8], limit: u32, generation: u64) -> Option<&[u8]> {
        format::encode_frame_record_into(&mut self.record, number, sender, &self.code, frame, limit).ok()?;
        format::seal_frame_record(&mut self.record, generation);
        Some(&self.record)
    }

    /// Reads a message again: its frame.
    pub fn reread(&mut self, journal: &[u8], offset: u64, body_len: u32, number: u64) -> Option<&[u8]> {
        let entry = IndexEntry { offset, body_len };
        let (at, _) = format::read_record_into(&mut Journal(journal), number, entry, &mut self.record).ok()?;
        self.record.get(at..)
    }
}
