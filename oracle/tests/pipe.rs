//! The oracle over its pipes: the published CRC-32s, records, scans, re-reads, frames, and requests that stop it.

use oracle::restated::added;
use std::io::Write;
use std::process::{Command, Output, Stdio};

const CRC: u8 = 1;
const SLOTS: u8 = 5;
const PREFIX: u8 = 6;
const RECORD: u8 = 7;
const SEAL: u8 = 8;
const BODY: u8 = 9;
const SEEN: u8 = 10;
const SCAN: u8 = 11;
const REREAD: u8 = 12;

fn run(bytes: &[u8]) -> Vec<u8> {
    [&(bytes.len() as u32).to_le_bytes(), bytes].concat()
}

fn crc(first: &[u8], more: &[u8]) -> Vec<u8> {
    run(&[vec![CRC], run(first), run(more)].concat())
}

/// What the oracle does with the input.
fn oracle(input: &[u8]) -> Output {
    let mut child = Command::new(env!("CARGO_BIN_EXE_oracle"))
        .stdin(Stdio::piped())
        .stdout(Stdio::piped())
        .stderr(Stdio::piped())
        .spawn()
        .expect("the oracle starts");
    let mut stdin = child.stdin.take().expect("its input is a pipe");
    let input = input.to_vec();
    let writer = std::thread::spawn(move || {
        // An oracle that stops early reads no further.
        let _ = stdin.write_all(&input);
    });
    let output = child.wait_with_output().expect("the oracle ends");
    writer.join().expect("the writer ends");
    output
}

fn answer(crc: u32) -> Vec<u8> {
    run(&[&[0u8; 9][..], &crc.to_le_bytes()].concat())
}

#[test]
fn published_values() {
    let ascending: Vec<u8> = (0..32).collect();
    let vectors: [(&[u8], u32); 7] = [
        (b"123456789", 0xCBF4_3926),
        (b"", 0),
        (b"a", 0xE8B7_BE43),
        (&[0; 32], 0x190A_55AD),
        (&[0xFF; 32], 0xFF6C_AB0B),
        (&ascending, 0x9126_7E8A),
        (b"The quick brown fox jumps over the lazy dog", 0x414F_A339),
    ];
    let mut input = Vec::new();
    let mut expected = Vec::new();
    for (bytes, value) in vectors {
        for cut in [0, bytes.len() / 2, bytes.len()] {
            input.extend(crc(&bytes[..cut], &bytes[cut..]));
            expected.extend(answer(value));
        }
    }
    let output = oracle(&input);
    assert!(output.status.success());
    assert_eq!(output.stdout, expected);
}

#[test]
fn no_request_no_answer() {
    let output = oracle(b"");
    assert!(output.status.success());
    assert!(output.stdout.is_empty());
}

fn stops(input: &[u8], why: &str) {
    let output = oracle(input);
    assert_eq!(output.status.code(), Some(2));
    let said = String::from_utf8_lossy(&output.stderr);
    assert!(said.contains(why), "it said: {said}");
}

#[test]
fn what_it_does_not_know_stops_it() {
    stops(&run(&[0]), "no operation has the number 0");
    stops(&run(&[200]), "no operation has the number 200");
    stops(&run(&[]), "ends inside a field");
    stops(&run(&[CRC, 1, 0, 0]), "ends inside a field");
    stops(&run(&[CRC, 1, 0, 0, 0]), "ends inside a field");
    stops(&[1, 0, 0], "ends inside a frame");
    stops(&[1, 0, 0, 0], "ends inside a frame");
    stops(&[1, 0, 4, 0], "is above 262144");
    let mut long = crc(b"a", b"");
    long[0] += 1;
    long.push(0);
    stops(&long, "1 bytes too many");
}

#[test]
fn answers_before_a_bad_request_stand() {
    let output = oracle(&[crc(b"a", b""), run(&[200])].concat());
    assert_eq!(output.status.code(), Some(2));
    assert_eq!(output.stdout, answer(0xE8B7_BE43));
}

/// The answer to one request.
fn ask(request: &[u8]) -> Vec<u8> {
    let output = oracle(&run(request));
    assert!(output.status.success());
    let (length, answer) = output.stdout.split_at(4);
    assert_eq!(length, (answer.len() as u32).to_le_bytes());
    answer.to_vec()
}

const FRAME: &[u8] = b"8=F\x01";

/// Sender 9, number 7, and a code of which the first two bytes are good.
fn record(kind: u8, code_length: u8, limit: u64, out: &[u8]) -> Vec<u8> {
    let front = [RECORD, kind, 9, 0, 0, 0, 0, 0, 0, 0, 7, 0, 0, 0, 0, 0, 0, 0];
    [&front, b"D~ \xFF\0\0\0\0" as &[u8], &[code_length], &limit.to_le_bytes(), &run(FRAME), &run(out)].concat()
}

fn seal(generation: u64, record: &[u8]) -> Vec<u8> {
    [&[SEAL], &generation.to_le_bytes()[..], &run(record)].concat()
}

fn body(bytes: &[u8]) -> Vec<u8> {
    [vec![BODY], run(bytes)].concat()
}

fn seen(limit: u64, place: u64, bytes: &[u8]) -> Vec<u8> {
    [&[SEEN], &limit.to_le_bytes()[..], &place.to_le_bytes(), &run(bytes)].concat()
}

/// What an answer has for number 7 under the code D.
fn contents(kind: u8, generation: u8, sender: u8, frame: u8) -> Vec<u8> {
    let numbers = [7, 0, 0, 0, 0, 0, 0, 0, generation, 0, 0, 0, 0, 0, 0, 0, sender, 0, 0, 0, 0, 0, 0, 0];
    [&[kind], &numbers[..], b"D\0\0\0\0\0\0\0\x01", &[frame, 0, 0, 0, 0, 0, 0, 0]].concat()
}

const KIND_1: &[u8] = b"\x0F\0\0\0\xF0\xFF\xFF\xFF\x7B\x21\xC2\xA5\x01\x07\0\0\0\0\0\0\0\x01D8=F\x01";
const KIND_5: &[u8] = b"\x1F\0\0\0\xE0\xFF\xFF\xFF\xA9\x4F\x5A\xD0\x05\x07\0\0\0\0\0\0\0\
    \x03\0\0\0\0\0\0\0\x09\0\0\0\0\0\0\0\x01D8=F\x01";

/// Writes a record, seals it with generation 3, and reads it back behind two other bytes.
fn written_sealed_and_seen(kind: u8, sealed: &[u8], contents: &[u8]) {
    let mut written = sealed.to_vec();
    written[4..12].fill(0);
    if kind == 5 {
        written[21..29].fill(0);
    }
    let room = [0xEE; 50];
    let length = (sealed.len() as u64).to_le_bytes();
    let out = [&written, &room[sealed.len()..]].concat();
    assert_eq!(ask(&record(kind, 1, 4, &room)), [&[0; 9], &length[..], &run(&out)].concat());
    assert_eq!(ask(&seal(3, &written)), [&[0; 9], &run(sealed)[..]].concat());
    assert_eq!(ask(&body(&sealed[12..])), [&[0; 9], &[1][..], contents].concat());
    let length = sealed.len() as u8 - 12;
    let front = [0, 2, 0, 0, 0, 0, 0, 0, 0, length, 0, 0, 0, 0, 0, 0, 0];
    let found = ask(&seen(u64::from(length), 2, &[b"..", sealed, b"."].concat()));
    assert_eq!(found, [&[0; 9], &front[..], contents].concat());
}

#[test]
fn records_are_written_sealed_and_seen() {
    assert_eq!((KIND_1.len(), KIND_5.len()), (27, 43));
    written_sealed_and_seen(1, KIND_1, &contents(1, 0, 0, 11));
    written_sealed_and_seen(5, KIND_5, &contents(5, 3, 9, 27));
}

/// A record with one byte changed.
fn changed(at: usize, to: u8) -> Vec<u8> {
    let mut record = KIND_1.to_vec();
    record[at] = to;
    record
}

#[test]
fn the_test_that_fails_is_named() {
    let no_length = b"\0\0\0\0\xFF\xFF\xFF\xFF\0\0\0\0";
    let wrong_crc = changed(26, 2);
    let unknown_kind = ask(&seal(0, &changed(12, 2)))[13..].to_vec();
    let cases: [(u8, u64, &[u8]); 12] = [
        (1, 15, &KIND_1[..1]),
        (1, 15, &KIND_1[..11]),
        (2, 15, &changed(4, 0xF1)),
        (2, 15, &[0; 12]),
        (2, 15, &[&[0; 12][..], KIND_1].concat()),
        (3, 14, KIND_1),
        (3, 15, no_length),
        (4, 15, &KIND_1[..26]),
        (5, 15, &wrong_crc),
        (5, 15, &[&wrong_crc[..], &[0; 5]].concat()),
        (5, 15, &[&wrong_crc[..], KIND_1].concat()),
        (6, 15, &unknown_kind),
    ];
    for (test, limit, bytes) in cases {
        let expected = [&[0; 9], &[test][..], &[0; 58]].concat();
        assert_eq!(ask(&seen(limit, 0, bytes)), expected, "{test}: {bytes:02x?}");
    }
}

#[test]
fn a_body_that_does_not_read() {
    let body_of = |at, to| changed(at, to)[12..].to_vec();
    // No body, another kind, a kind that has more fields, a code of no bytes, one past the end, one with a space, and one of 9.
    let long_code = b"\x01\x07\0\0\0\0\0\0\0\x09DDDDDDDDD";
    let bodies = [vec![], body_of(12, 2), body_of(12, 5), body_of(21, 0), body_of(21, 6), body_of(22, 0x20), long_code.to_vec()];
    for bytes in bodies {
        assert_eq!(ask(&body(&bytes)), [0; 52], "{bytes:02x?}");
    }
}

/// The original can't be asked this, and the port is held to one answer.
fn not_asked_at(place: u64, request: &[u8], number: u8, rest: &[u8]) {
    assert_eq!(ask(request), [255, 0, 0, 0, 0, 0, 0, 0, 0]);
    for tried in 0..=255 {
        let answer = [&[tried], &place.to_le_bytes()[..], rest].concat();
        assert_eq!(added(request, &answer), Ok(tried == number));
    }
    let touched = [&[number], &place.to_le_bytes()[..], &rest[..rest.len() - 1], &[0xAA]].concat();
    assert_eq!(added(request, &touched), Ok(false));
    let elsewhere = [&[number], &(place + 1).to_le_bytes()[..], rest].concat();
    assert_eq!(added(request, &elsewhere), Ok(false));
}

fn not_asked(request: &[u8], number: u8, rest: &[u8]) {
    not_asked_at(0, request, number, rest);
}

#[test]
fn what_the_original_cannot_be_asked() {
    let unwritten = |room: usize| [&[0; 8], &run(&vec![0xEE; room])[..]].concat();
    not_asked(&record(1, 9, 67_108_865, &[0xEE; 50]), 17, &unwritten(50));
    for code_length in [0, 3, 4, 9, 255] {
        not_asked(&record(1, code_length, 67_108_864, &[0xEE; 50]), 20, &unwritten(50));
    }
    not_asked(&record(5, 0, 4, &[0xEE; 1]), 20, &unwritten(1));
    not_asked(&record(1, 1, 4, &[0xEE; 26]), 21, &unwritten(26));
    not_asked(&record(5, 2, 4, &[0xEE; 43]), 21, &unwritten(43));
    not_asked(&seal(3, &KIND_5[..11]), 22, &run(&KIND_5[..11]));
    for place in [27, 28, u64::MAX] {
        not_asked(&seen(15, place, KIND_1), 0, &[&[1], &[0; 58][..]].concat());
    }
}

#[test]
fn a_frame_above_the_limit() {
    // Before a bad code and before a small output.
    for (code_length, room) in [(1, 50), (0, 50), (9, 50), (1, 0), (0, 0)] {
        let out = vec![0xEE; room];
        let expected = [&[19], &[0; 16][..], &run(&out)].concat();
        assert_eq!(ask(&record(1, code_length, 3, &out)), expected);
    }
}

#[test]
fn a_record_of_another_kind_stops_it() {
    stops(&run(&record(2, 1, 4, &[0; 50])), "a request has 2 for a record's kind");
}

const TAIL: u8 = 1;
const ANYWHERE: u8 = 2;
const SALVAGE: u8 = 3;

fn words(numbers: &[u64]) -> Vec<u8> {
    numbers.iter().flat_map(|number| number.to_le_bytes()).collect()
}

/// A journal with slots of generations 1 and 2: sender 7, target 9, the durable end, watermark 6, a reset owed.
fn journal(durable_end: u64, records: &[u8]) -> Vec<u8> {
    let slots = ask(&[&[SLOTS], &words(&[1, 7, 9, durable_end, 6])[..], &[1]].concat());
    let header = [&words(&[1_700_000_000])[..], &[5, 0, 0, 0], &words(&[3, 4])].concat();
    let prefix = ask(&[&[PREFIX], &header[..], &slots[17..], &run(&[0; 12_288])].concat());
    [&prefix[21..], records].concat()
}

fn index(entries: &[[u64; 3]]) -> Vec<u8> {
    [&(entries.len() as u32).to_le_bytes(), &words(entries.as_flattened())[..]].concat()
}

fn scan(rule: u8, records: u64, limit: u64, lent: &[[u64; 3]], journal: &[u8]) -> Vec<u8> {
    [&[SCAN, rule], &words(&[records, limit])[..], &index(lent), &run(journal)].concat()
}

/// What a scan of `journal` answers, where it opens.
struct Opened<'a> {
    entries: &'a [[u64; 3]],
    count: u64,
    end: u64,
    cut: (u8, u64),
    dead: u64,
    sender: u64,
    generation: u64,
    boundary: u64,
    stale: u8,
}

/// Opens with no record.
const EMPTY: Opened =
    Opened { entries: &[], count: 0, end: 12_288, cut: (0, 0), dead: 0, sender: 7, generation: 3, boundary: 12_288, stale: 0 };

fn opened(journal: &[u8], result: Opened) -> Vec<u8> {
    let slots = [&journal[4096..4148], &journal[8192..8244]].concat();
    let ends = [&words(&[result.count, result.end])[..], &[result.cut.0], &words(&[result.cut.1, result.dead])].concat();
    let counters = words(&[result.sender, 9, result.generation, result.boundary, 6]);
    let rest = [&[1][..], &ends, &counters, &[1, result.stale], &index(result.entries)].concat();
    [&[0; 9], &journal[12..40], &slots, &rest].concat()
}

fn refused(number: u8, place: u64, left: &[[u64; 3]]) -> Vec<u8> {
    [&[number], &words(&[place])[..], &[0; 208], &index(left)].concat()
}

#[test]
fn a_journal_without_records() {
    let whole = journal(12_288, &[]);
    assert_eq!(ask(&scan(TAIL, 0, 100, &[], &whole)), opened(&whole, EMPTY));
    assert_eq!(ask(&scan(TAIL, 0, 67_108_898, &[], &whole)), opened(&whole, EMPTY));
    assert_eq!(ask(&scan(TAIL, 0, 100, &[], &whole[..12_287])), refused(7, 0, &[]));
    assert_eq!(ask(&scan(TAIL, 0, 100, &[], &whole[..43])), refused(1, 0, &[]));
    let stale = journal(12_289, &[]);
    assert_eq!(ask(&scan(TAIL, 0, 100, &[], &stale)), refused(10, 12_288, &[]));
    assert_eq!(ask(&scan(ANYWHERE, 0, 100, &[], &stale)), opened(&stale, Opened { boundary: 12_289, stale: 1, ..EMPTY }));
}

/// Under Tail of N records and limit 100, past the durable end, these bytes are cut as damaged, or refused with the number.
fn tail(records: u64, bytes: &[u8], refusal: u8) {
    let whole = journal(12_288, bytes);
    let lent = [[1, 2, 3]; 2];
    let expected = match refusal {
        0 => opened(&whole, Opened { entries: &lent, cut: (2, bytes.len() as u64), ..EMPTY }),
        number => refused(number, 12_288, &lent),
    };
    assert_eq!(ask(&scan(TAIL, records, 100, &lent, &whole)), expected, "N {records}: {bytes:02x?}");
}

#[test]
fn damage_past_the_durable_end() {
    // The complement, inside the window and past it, and with zeros alone.
    tail(2, &[1; 224], 0);
    tail(2, &[1; 225], 11);
    tail(u64::MAX, &[1; 225], 0);
    tail(0, &[0; 300], 0);
    tail(0, &[&[0; 299][..], &[1]].concat(), 11);
    // The CRC-32: last, with zeros behind it, and with others, which one record's window doesn't excuse.
    let wrong_crc = changed(26, 2);
    tail(1, &wrong_crc, 0);
    tail(1, &[&wrong_crc[..], &[0; 5]].concat(), 0);
    tail(1, &[&wrong_crc[..], KIND_1].concat(), 12);
    tail(2, &[&wrong_crc[..], KIND_1].concat(), 0);
}

#[test]
fn no_length_is_refused_below_the_durable_end_too() {
    let no_length = b"\0\0\0\0\xFF\xFF\xFF\xFF\0\0\0\0";
    for durable_end in [12_288, 12_300] {
        let whole = journal(durable_end, no_length);
        assert_eq!(ask(&scan(TAIL, 1, 100, &[], &whole)), refused(13, 12_288, &[]));
        assert_eq!(ask(&scan(ANYWHERE, 1, 100, &[], &whole)), refused(13, 12_288, &[]));
        let stale = u8::from(durable_end > 12_288);
        let cut = Opened { cut: (2, 12), boundary: durable_end, stale, ..EMPTY };
        assert_eq!(ask(&scan(SALVAGE, 1, 100, &[], &whole)), opened(&whole, cut));
    }
}

#[test]
fn a_number_met_again() {
    // Number 7 without a counter, 8, and 7 again, of generation 3 with sender 9; then a torn record.
    let eight = ask(&seal(0, &changed(13, 8)))[13..].to_vec();
    let whole = journal(12_315, &[KIND_1, &eight, KIND_5, &KIND_1[..26]].concat());
    let (first, last) = ([7, 12_288, 15], [7, 12_342, 31]);
    let (other, lent) = ([8, 12_315, 15], [7, 12_288, 15]);
    let result = Opened {
        entries: &[last, other, lent],
        count: 2,
        end: 12_385,
        cut: (1, 26),
        dead: 27,
        sender: 9,
        generation: 4,
        boundary: 12_315,
        ..EMPTY
    };
    assert_eq!(ask(&scan(TAIL, 0, 31, &[lent; 3], &whole)), opened(&whole, result));
    // The third body is above the limit: the entries of the first two are left.
    assert_eq!(ask(&scan(TAIL, 0, 30, &[lent; 3], &whole)), refused(13, 12_342, &[first, other, lent]));
}

#[test]
fn scans_that_the_original_cannot_be_asked() {
    let eight = ask(&seal(0, &changed(13, 8)))[13..].to_vec();
    let whole = journal(12_288, &[KIND_1, KIND_1, &eight, &[1; 12]].concat());
    let rest = |left: &[[u64; 3]]| [&[0; 208], &index(left)[..]].concat();
    let lent = [[8, 1, 1]; 3];
    for rule in [TAIL, ANYWHERE, SALVAGE] {
        not_asked_at(12_288, &scan(rule, 9, 100, &[], &whole), 16, &rest(&[]));
        not_asked_at(12_342, &scan(rule, 9, 100, &lent[..1], &whole), 16, &rest(&[[7, 12_315, 15]]));
        not_asked(&scan(rule, 9, 67_108_899, &lent, &whole), 17, &rest(&lent));
        not_asked(&scan(rule, 9, u64::MAX, &lent, &[]), 17, &rest(&lent));
    }
    // What the front refuses comes before, and what the walk meets earlier.
    assert_eq!(ask(&scan(TAIL, 0, 100, &[], &whole[..12_287])), refused(7, 0, &[]));
    assert_eq!(ask(&scan(TAIL, 0, 14, &[], &whole)), refused(13, 12_288, &[]));
}

#[test]
fn scans_that_stop_it() {
    stops(&run(&scan(4, 0, 100, &[], &[])), "a request has 4 for a rule");
    // The request is short enough, its answer isn't.
    stops(&run(&scan(TAIL, 0, 100, &[[0; 3]; 10_920], &[])), "a frame of 262301 bytes is above 262144");
}

/// An entry of message number 1, offset and body length, and the message number that is asked for.
fn reread(offset: u64, body: u64, number: u64, journal: &[u8]) -> Vec<u8> {
    [&[REREAD], &words(&[1, offset, body, number])[..], &run(journal)].concat()
}

fn read_again(code: &[u8; 9], place: u64, frame: &[u8]) -> Vec<u8> {
    [&[0; 9], &code[..], &words(&[place]), &run(frame)].concat()
}

#[test]
fn a_message_is_read_again() {
    // With no prefix, at any offset, and under a number that the entry hasn't.
    let both = [b".", KIND_1, KIND_5].concat();
    assert_eq!(ask(&reread(1, 15, 7, &both)), read_again(b"D\0\0\0\0\0\0\0\x01", 24, FRAME));
    assert_eq!(ask(&reread(28, 31, 7, &both)), read_again(b"D\0\0\0\0\0\0\0\x01", 67, FRAME));
    // A code of eight, and no frame.
    let bare = ask(&seal(0, b"\x12\0\0\0\0\0\0\0\0\0\0\0\x01\x07\0\0\0\0\0\0\0\x08!ABCDEF~"))[13..].to_vec();
    assert_eq!(ask(&reread(0, 18, 7, &bare)), read_again(b"!ABCDEF~\x08", 30, &[]));
    assert_eq!(ask(&reread(12_288, 15, 7, &journal(12_288, KIND_1))), read_again(b"D\0\0\0\0\0\0\0\x01", 12_311, FRAME));
}

#[test]
fn rereads_that_are_refused() {
    let unknown_kind = ask(&seal(0, &changed(12, 2)))[13..].to_vec();
    let cases: [(u8, u64, u64, u64, &[u8]); 14] = [
        (23, 0, 15, 7, &KIND_1[..26]),
        (23, 1, 15, 7, KIND_1),
        (23, 0, 16, 7, KIND_1),
        (23, 0, 1 << 20, 7, KIND_1),
        (23, 1 << 32, 15, 7, KIND_1),
        (23, u64::MAX - 26, 15, 7, KIND_1),
        (23, u64::MAX, 15, 7, KIND_1),
        (24, 0, 14, 7, KIND_1),
        (24, 0, 15, 7, &changed(0, 14)),
        (24, 0, 15, 7, &changed(4, 0xF1)),
        (25, 0, 15, 7, &changed(13, 8)),
        (26, 0, 15, 7, &unknown_kind),
        (26, 0, 15, 1, &unknown_kind),
        (27, 0, 15, 1, KIND_1),
    ];
    for (number, offset, body, asked, bytes) in cases {
        let expected = [&[number], &[0; 29][..]].concat();
        assert_eq!(ask(&reread(offset, body, asked, bytes)), expected, "{number}: {offset} {body} {asked} {bytes:02x?}");
    }
}

#[test]
fn rereads_that_the_original_is_not_asked() {
    for body in [(1 << 20) + 1, u64::from(u32::MAX), (1 << 32) + 15, u64::MAX - 11, u64::MAX] {
        not_asked(&reread(0, body, 7, KIND_1), 23, &[0; 21]);
    }
}
