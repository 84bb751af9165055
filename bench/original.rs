//! The original's functions for the driver in C, `bench.c`, which has their declarations. Each calls the oracle's `direct` and nothing
//! else. A refusal is answered with zeros.
//!
//! What C sees to: so many bytes stand at a pointer as the length says, and a desk is one that `original_desk` made.

use oracle::direct::{self, Desk, Entry, Found};
use std::ptr;
use std::slice::{from_raw_parts, from_raw_parts_mut};

/// Two numbers, which C takes in registers.
#[repr(C)]
pub struct Pair {
    first: u64,
    second: u64,
}

/// # Safety
/// The bytes stand there.
#[no_mangle]
pub unsafe extern "C" fn original_scan(journal: *const u8, length: usize, limit: u64) -> Found {
    let refused = Found { count: 0, end: 0, dead: 0, sender: 0, target: 0, generation: 0 };
    direct::scan(from_raw_parts(journal, length), limit).unwrap_or(refused)
}

/// The scan's entries, copied out: how many.
///
/// # Safety
/// The bytes and the room stand there.
#[no_mangle]
pub unsafe extern "C" fn original_entries(journal: *const u8, length: usize, limit: u64, out: *mut Entry, room: usize) -> usize {
    let entries = direct::entries(from_raw_parts(journal, length), limit).unwrap_or_default();
    if let Some(front) = from_raw_parts_mut(out, room).get_mut(..entries.len()) {
        front.copy_from_slice(&entries);
    }
    entries.len()
}

/// The walk with no index: how many records, and where they end.
///
/// # Safety
/// The bytes stand there.
#[no_mangle]
pub unsafe extern "C" fn original_walk(journal: *const u8, length: usize, limit: u64) -> Pair {
    let (first, second) = direct::walk(from_raw_parts(journal, length), limit).unwrap_or_default();
    Pair { first, second }
}

/// A desk for records of this code, or null where the code isn't good. It is never given back.
///
/// # Safety
/// The bytes stand there.
#[no_mangle]
pub unsafe extern "C" fn original_desk(code: *const u8, letters: usize) -> *mut Desk {
    let code = std::str::from_utf8(from_raw_parts(code, letters)).unwrap_or_default();
    Desk::new(code).map_or(ptr::null_mut(), |desk| Box::into_raw(Box::new(desk)))
}

fn place(bytes: Option<&[u8]>) -> Pair {
    bytes.map_or(Pair { first: 0, second: 0 }, |bytes| Pair { first: bytes.as_ptr() as u64, second: bytes.len() as u64 })
}

/// Writes and seals: the record's address and length. The kind is 1, or 5 with a sender.
///
/// # Safety
/// The desk and the bytes stand there.
#[no_mangle]
pub unsafe extern "C" fn original_write_seal(
    desk: *mut Desk,
    kind: u64,
    sender: u64,
    number: u64,
    frame: *const u8,
    length: usize,
    limit: u32,
    generation: u64,
) -> Pair {
    let sender = (kind == 5).then_some(sender);
    place((*desk).write_seal(sender, number, from_raw_parts(frame, length), limit, generation))
}

/// Reads a message again: the frame's address, in the desk's own buffer, and length.
///
/// # Safety
/// The desk and the bytes stand there.
#[no_mangle]
pub unsafe extern "C" fn original_reread(
    desk: *mut Desk,
    journal: *const u8,
    length: usize,
    offset: u64,
    body: u32,
    number: u64,
) -> Pair {
    place((*desk).reread(from_raw_parts(journal, length), offset, body, number))
}
