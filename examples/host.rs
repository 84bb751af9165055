//! A small host of the journal, in Rust: the same program as host.c, with the same output.
//!
//!     tools/build host_c
//!     rustc --edition 2021 -O -o host examples/host.rs -C link-arg=target/staticlib/libhost.a
//!     ./host FILE
//!
//! It opens FILE as a unit does at power-up and prints the next numbers. It reads the last message again. It files one message more, and
//! moves the durable end behind it. Then it reads the file once more, as the next power-up will. Where there is no FILE, it makes one.
//!
//! Status: 0 where the message is filed, 1 where the library refuses, 2 where something else is wrong.

use library::{Code, Counters, Entry, Found, Made};
use std::fs::File;
use std::io::{Error, ErrorKind};
use std::os::unix::fs::{FileExt, OpenOptionsExt};
use std::path::Path;
use std::process::ExitCode;
use std::sync::Mutex;

/// The longest journal.
const ROOM: usize = 1_048_576;
/// The most messages in it.
const MESSAGES: usize = 1024;
/// The longest message.
const FRAME_LIMIT: u64 = 4096;
/// A body has its frame, and at most 34 bytes before it.
const BODY_LIMIT: u64 = FRAME_LIMIT + 34;
/// Header and slots: the first record stands here.
const PREFIX: u64 = 12_288;

/// All memory that the library is lent is static: a firmware has no heap. The lock is taken once.
static STORE: Mutex<Store> = Mutex::new(Store { journal: [0; ROOM], entries: [Entry { number: 0, offset: 0, body: 0 }; MESSAGES] });

struct Store {
    journal: [u8; ROOM],
    entries: [Entry; MESSAGES],
}

enum Failed {
    Refused { number: u64, place: u64 },
    Wrong(&'static str),
}

/// An error of the system, told in these words.
fn wrong(what: &'static str) -> impl Fn(Error) -> Failed {
    move |_| Failed::Wrong(what)
}

/// The library, as include/bulvreden.h declares it, and a safe function for each call.
///
/// What the header asks of a host, the types of the safe functions see to. A slice is aligned, initialized and as long as it says. One
/// that is lent to be written overlaps no other and isn't read or written by anyone else during the call. The library keeps no pointer.
mod library {
    use super::Failed;

    pub const TAIL: u64 = 1;
    pub const CUT_NONE: u64 = 0;
    pub const CUT_INCOMPLETE: u64 = 1;
    pub const CUT_DAMAGED: u64 = 2;
    pub const COUNTER: u64 = 5;

    #[repr(C)]
    #[derive(Clone, Copy)]
    pub struct Entry {
        pub number: u64,
        pub offset: u64,
        pub body: u64,
    }

    #[repr(C)]
    pub struct Made {
        pub seconds: u64,
        pub nanoseconds: u64,
        pub sender: u64,
        pub target: u64,
    }

    #[repr(C)]
    pub struct Slots {
        pub image: [[u8; 52]; 2],
    }

    #[repr(C)]
    pub struct Found {
        number: u64,
        place: u64,
        pub header: Made,
        pub active: u64,
        pub count: u64,
        pub end: u64,
        pub cut: u64,
        pub dropped: u64,
        pub dead: u64,
        pub sender: u64,
        pub target: u64,
        pub generation: u64,
        pub boundary: u64,
        pub watermark: u64,
        pub reset: u64,
        pub stale: u64,
        pub slots: Slots,
    }

    #[repr(C)]
    #[derive(Clone, Copy)]
    pub struct Code {
        pub letters: u64,
        pub bytes: [u8; 8],
    }

    #[repr(C)]
    pub struct Message {
        number: u64,
        place: u64,
        pub frame: u64,
        pub length: u64,
        pub code: Code,
    }

    #[repr(C)]
    struct Wrote {
        number: u64,
        place: u64,
        length: u64,
    }

    #[repr(C)]
    struct Sealed {
        number: u64,
        place: u64,
    }

    #[repr(C)]
    pub struct Counters {
        pub generation: u64,
        pub sender: u64,
        pub target: u64,
        pub end: u64,
        pub watermark: u64,
        pub reset: u64,
    }

    #[repr(C)]
    struct Fresh {
        number: u64,
        place: u64,
        next: u64,
        slots: Slots,
    }

    #[repr(C)]
    struct Image {
        number: u64,
        place: u64,
        bytes: [u8; 52],
    }

    // Those that take values alone are safe: they ask nothing of their caller.
    unsafe extern "C" {
        fn bulvreden_scan(
            journal: *const u8,
            length: usize,
            kind: u64,
            records: u64,
            limit: u64,
            entries: *mut Entry,
            room: usize,
        ) -> Found;
        fn bulvreden_reread(journal: *const u8, length: usize, entry: Entry, number: u64) -> Message;
        fn bulvreden_write(
            out: *mut u8,
            room: usize,
            kind: u64,
            sender: u64,
            number: u64,
            code: Code,
            frame: *const u8,
            length: usize,
            limit: u64,
        ) -> Wrote;
        fn bulvreden_seal(record: *mut u8, length: usize, generation: u64) -> Sealed;
        safe fn bulvreden_fresh_slots(first: Counters) -> Fresh;
        safe fn bulvreden_slot(counters: Counters) -> Image;
        fn bulvreden_prefix(out: *mut u8, room: usize, made: Made, slots: Slots) -> Wrote;
    }

    /// The answer, where nothing was refused.
    fn unless<T>(number: u64, place: u64, answer: T) -> Result<T, Failed> {
        if number == 0 {
            Ok(answer)
        } else {
            Err(Failed::Refused { number, place })
        }
    }

    pub fn scan(journal: &[u8], kind: u64, records: u64, limit: u64, entries: &mut [Entry]) -> Result<Found, Failed> {
        // SAFETY: the journal is lent to be read, the entries to be written; each with its own length.
        let found = unsafe { bulvreden_scan(journal.as_ptr(), journal.len(), kind, records, limit, entries.as_mut_ptr(), entries.len()) };
        unless(found.number, found.place, found)
    }

    pub fn reread(journal: &[u8], entry: Entry, number: u64) -> Result<Message, Failed> {
        // SAFETY: the journal is lent to be read, with its own length.
        let message = unsafe { bulvreden_reread(journal.as_ptr(), journal.len(), entry, number) };
        unless(message.number, message.place, message)
    }

    /// The record's length.
    pub fn write(out: &mut [u8], kind: u64, sender: u64, number: u64, code: Code, frame: &[u8], limit: u64) -> Result<usize, Failed> {
        // SAFETY: the output is lent to be written, the frame to be read; each with its own length.
        let wrote = unsafe { bulvreden_write(out.as_mut_ptr(), out.len(), kind, sender, number, code, frame.as_ptr(), frame.len(), limit) };
        unless(wrote.number, wrote.place, wrote.length as usize)
    }

    pub fn seal(record: &mut [u8], generation: u64) -> Result<(), Failed> {
        // SAFETY: the record is lent to be written, with its own length.
        let sealed = unsafe { bulvreden_seal(record.as_mut_ptr(), record.len(), generation) };
        unless(sealed.number, sealed.place, ())
    }

    pub fn fresh_slots(first: Counters) -> Result<Slots, Failed> {
        let fresh = bulvreden_fresh_slots(first);
        unless(fresh.number, fresh.place, fresh.slots)
    }

    pub fn slot(counters: Counters) -> Result<[u8; 52], Failed> {
        let image = bulvreden_slot(counters);
        unless(image.number, image.place, image.bytes)
    }

    /// How many bytes were written.
    pub fn prefix(out: &mut [u8], made: Made, slots: Slots) -> Result<usize, Failed> {
        // SAFETY: the output is lent to be written, with its own length.
        let wrote = unsafe { bulvreden_prefix(out.as_mut_ptr(), out.len(), made, slots) };
        unless(wrote.number, wrote.place, wrote.length as usize)
    }
}

/// The numbers that aren't here can't be met here.
fn meaning(number: u64) -> &'static str {
    match number {
        1 => "it is shorter than a header",
        2 => "the header's checksum is wrong",
        3 => "it is no journal",
        4 => "its version isn't 4",
        5 => "the header's nanoseconds are too many",
        6 => "the header's seconds are too many",
        7 => "it is shorter than header and slots",
        8 => "neither slot is sound",
        9 => "the slots contradict each other",
        10 => "damage, or the end, before the durable end",
        11 => "a damaged length that no loss of power leaves",
        12 => "a damaged record that no loss of power leaves",
        13 => "a record's length is 0, or too large",
        14 => "a sound record that doesn't read",
        15 => "no generation is left",
        16 => "more messages than the index has room for",
        21 => "no room is left for the record",
        _ => "not expected",
    }
}

// ---- the file: its bytes, and when they are on stable storage, are the host's

/// Reads the whole file to the buffer's start, and hands out that part.
fn take<'a>(file: &File, journal: &'a mut [u8]) -> Result<&'a [u8], Failed> {
    let unread = "the file can't be read";
    let end = file.metadata().map_err(wrong(unread))?.len();
    if end > ROOM as u64 {
        return Err(Failed::Wrong("the file is longer than 1048576 bytes"));
    }
    let part = &mut journal[..end as usize];
    file.read_exact_at(part, 0).map_err(wrong(unread))?;
    Ok(part)
}

/// Makes a new journal: both counters at 1, and no record.
///
/// Here this is done for a missing file. A unit does it when it is set up, not at power-up: there a missing journal is a lost one. The file
/// gets its name last, when it is on stable storage, so that no half of it is ever found under the name. After the rename the folder wants
/// a sync too. A unit takes the seconds from its clock; here they are fixed, so that the same calls write the same bytes.
fn make(path: &Path, journal: &mut [u8]) -> Result<File, Failed> {
    let first = Counters { generation: 1, sender: 1, target: 1, end: PREFIX, watermark: 0, reset: 0 };
    let made = Made { seconds: 1_772_438_400, nanoseconds: 0, sender: 1, target: 1 };
    let length = library::prefix(journal, made, library::fresh_slots(first)?)?;
    let mut other = path.as_os_str().to_owned();
    other.push(".new");
    let mut options = File::options();
    let opened = options.read(true).write(true).create(true).truncate(true).mode(0o600).open(&other);
    let file = opened.and_then(|file| {
        file.write_all_at(&journal[..length], 0)?;
        file.sync_all()?;
        std::fs::rename(&other, path)?;
        Ok(file)
    });
    let file = file.map_err(wrong("the file can't be opened, or made"))?;
    println!("made a journal of {length} bytes");
    Ok(file)
}

fn open(path: &Path, journal: &mut [u8]) -> Result<File, Failed> {
    match File::options().read(true).write(true).open(path) {
        Err(error) if error.kind() == ErrorKind::NotFound => make(path, journal),
        other => other.map_err(wrong("the file can't be opened, or made")),
    }
}

// ---- reading

/// Tail: what a loss of power can have left is cut, and nothing else. One record: each is on stable storage before the next is written.
fn scan(journal: &[u8], entries: &mut [Entry]) -> Result<Found, Failed> {
    library::scan(journal, library::TAIL, 1, BODY_LIMIT, entries)
}

fn show(found: &Found) {
    println!(
        "open: messages {}, next to send {}, next to receive {}, next generation {}",
        found.count, found.sender, found.target, found.generation
    );
    match found.cut {
        library::CUT_INCOMPLETE => println!("cuts {} bytes: a record that isn't whole", found.dropped),
        library::CUT_DAMAGED => println!("cuts {} bytes: damaged", found.dropped),
        _ => {}
    }
    if found.reset == 1 {
        println!("a reset is owed");
    }
}

/// A byte of a message, to be looked at. FIX ends its fields with the byte 1.
fn shown(byte: &u8) -> char {
    match byte {
        1 => '|',
        0x20..=0x7E => char::from(*byte),
        _ => '?',
    }
}

/// Reads the last entry's message again, as for a resend. The frame is a part of the journal.
fn show_last(journal: &[u8], entries: &[Entry]) -> Result<(), Failed> {
    let Some(last) = entries.last() else { return Ok(()) };
    let message = library::reread(journal, *last, last.number)?;
    let code = &message.code.bytes[..message.code.letters as usize];
    let frame = &journal[message.frame as usize..][..message.length as usize];
    println!(
        "message {}, code {}, {} bytes: {}",
        last.number,
        code.iter().map(shown).collect::<String>(),
        message.length,
        frame.iter().map(shown).collect::<String>()
    );
    Ok(())
}

// ---- writing
//
// A gateway scans once. From then on it keeps the numbers itself: each record and each slot moves them on.

/// A heartbeat of FIX 4.4. A unit takes the time from its clock. The | stand for the byte 1.
fn heartbeat(number: u64) -> Vec<u8> {
    let body = format!("35=0|34={number}|49=BROKER-A|52=20260302-08:00:00.000|56=BROKER-B|");
    let mut frame = format!("8=FIX.4.4|9={}|{body}", body.len()).replace('|', "\x01").into_bytes();
    let sum: u32 = frame.iter().map(|byte| u32::from(*byte)).sum();
    frame.extend_from_slice(format!("10={:03}\x01", sum % 256).as_bytes());
    frame
}

/// Files a message under the next number, in a record that also moves the next number on. When this returns, the record is on stable
/// storage. Only then may the message be sent: else the other side could hold a number that a loss of power gives to another message.
fn append(file: &File, journal: &mut [u8], now: &mut Found) -> Result<(), Failed> {
    let code = Code { letters: 1, bytes: *b"0\0\0\0\0\0\0\0" };
    let out = &mut journal[now.end as usize..];
    let number = now.sender;
    let length = library::write(out, library::COUNTER, number + 1, number, code, &heartbeat(number), FRAME_LIMIT)?;
    let record = &mut out[..length];
    library::seal(record, now.generation)?;
    let written = file.write_all_at(record, now.end).and_then(|()| file.sync_all());
    written.map_err(wrong("the record can't be written"))?;
    println!("filed message {number} at {}, {length} bytes, generation {}", now.end, now.generation);
    now.sender += 1;
    now.generation += 1;
    now.end += length as u64;
    Ok(())
}

/// Writes the numbers into the slot that isn't active. From then on the durable end stands behind the last record: damage before it is
/// refused, where before it could be cut as a record that was never sent. The records must be on stable storage first. A loss of power in
/// here spoils this slot alone, and the other one still counts. A unit may do this after each record, or after some.
fn commit(file: &File, now: &mut Found) -> Result<(), Failed> {
    let image = library::slot(Counters {
        generation: now.generation,
        sender: now.sender,
        target: now.target,
        end: now.end,
        watermark: now.watermark,
        reset: now.reset,
    })?;
    let slot = 1 - now.active;
    let written = file.write_all_at(&image, 4096 * (slot + 1)).and_then(|()| file.sync_all());
    written.map_err(wrong("the slot can't be written"))?;
    println!("wrote slot {slot}: generation {}, durable end {}", now.generation, now.end);
    now.generation += 1;
    now.active = slot;
    Ok(())
}

/// What a scan cut off goes first, and for good: behind a shorter record its rest would look like damage. The sync is also for a host that
/// was started again without a loss of power: a record that it wrote before, and didn't sync, would be a second one that can be torn.
fn cut(file: &File, now: &Found) -> Result<(), Failed> {
    if now.cut != library::CUT_NONE {
        file.set_len(now.end).map_err(wrong("the file can't be cut"))?;
    }
    file.sync_all().map_err(wrong("the file can't be synced"))
}

/// Whether no more message can be filed. The next scan must find room in its index, and a generation after those of the record and the
/// slot.
fn full(now: &Found) -> bool {
    now.count == MESSAGES as u64 || now.generation > u64::MAX - 2 || now.sender == u64::MAX
}

// ---- power-up, one message, and the next power-up

fn read_again(file: &File, store: &mut Store, now: &Found) -> Result<(), Failed> {
    let journal = take(file, &mut store.journal)?;
    let found = scan(journal, &mut store.entries)?;
    show(&found);
    let same = found.sender == now.sender && found.generation == now.generation && found.end == now.end && found.active == now.active;
    if same {
        Ok(())
    } else {
        Err(Failed::Wrong("this isn't what was written"))
    }
}

fn run(path: &Path, store: &mut Store) -> Result<(), Failed> {
    let file = open(path, &mut store.journal)?;
    let journal = take(&file, &mut store.journal)?;
    let mut now = scan(journal, &mut store.entries)?;
    show(&now);
    show_last(journal, &store.entries[..now.count as usize])?;
    if full(&now) {
        return Err(Failed::Wrong("the journal is full"));
    }
    cut(&file, &now)?;
    append(&file, &mut store.journal, &mut now)?;
    commit(&file, &mut now)?;
    read_again(&file, store, &now)
}

fn main() -> ExitCode {
    let words: Vec<_> = std::env::args_os().skip(1).collect();
    let mut store = STORE.lock().expect("nobody else has the lock");
    let done = match words.as_slice() {
        [path] => run(Path::new(path), &mut store),
        _ => Err(Failed::Wrong("takes one word, the journal's file")),
    };
    match done {
        Ok(()) => ExitCode::SUCCESS,
        Err(Failed::Refused { number, place }) => {
            println!("refused {number} at {place}: {}", meaning(number));
            ExitCode::from(1)
        }
        Err(Failed::Wrong(what)) => {
            eprintln!("host: {what}");
            ExitCode::from(2)
        }
    }
}
