//! Edges of the CRC-32, of records written, sealed and seen, and of bodies.

use super::pieces::{self, body_1, body_5, changed, kind_1, kind_5, record, record_header, run, seen, words, FRAME};
use super::List;
use super::Says::{Found, Number};
use crate::operations::{CRC, RECORD, SEAL};

fn sums(list: &mut List) {
    let crc = |first: &[u8], more: &[u8]| [vec![CRC], run(first), run(more)].concat();
    let all: Vec<u8> = (0..=255).collect();
    list.add("CRC of nothing is 0", Number(0), crc(b"", b""));
    list.add("CRC of the check digits", Number(0), crc(b"123456789", b""));
    list.add("CRC in two parts", Number(0), crc(b"1234", b"56789"));
    list.add("CRC of every byte", Number(0), crc(&all, &all));
}

/// A record to write: kind, code, its length, frame limit, frame and room.
fn write(kind: u8, code: &[u8; 8], length: u8, limit: u64, frame: &[u8], room: usize) -> Vec<u8> {
    let front = [&[RECORD, kind], &words(&[9, 7])[..], code, &[length], &words(&[limit])].concat();
    [front, run(frame), run(&vec![0xEE; room])].concat()
}

const CODE: &[u8; 8] = b"D\0 \x7F\xFF1~!";

fn written(list: &mut List) {
    for (kind, length) in [(1, 27), (5, 43)] {
        list.add(&format!("kind {kind}, output one short: 21"), Number(21), write(kind, CODE, 1, 4, FRAME, length - 1));
        list.add(&format!("kind {kind}, output exactly full"), Number(0), write(kind, CODE, 1, 4, FRAME, length));
        list.add(&format!("kind {kind}, output of one more"), Number(0), write(kind, CODE, 1, 4, FRAME, length + 1));
        list.add(&format!("kind {kind}, no output: 21"), Number(21), write(kind, CODE, 1, 4, FRAME, 0));
    }
    list.add("frame limit 67,108,864", Number(0), write(1, CODE, 1, 67_108_864, FRAME, 27));
    list.add("frame limit 67,108,865: 17", Number(17), write(1, CODE, 1, 67_108_865, FRAME, 27));
    list.add("frame limit 2^32 + 4: 17", Number(17), write(1, CODE, 1, (1 << 32) + 4, FRAME, 27));
    list.add("frame of 4, limit 3: 19", Number(19), write(1, CODE, 1, 3, FRAME, 27));
    list.add("frame limit 0, no frame", Number(0), write(5, CODE, 1, 0, b"", 43));
    list.add("frame limit 0, a byte: 19", Number(19), write(5, CODE, 1, 0, b"8", 43));
    list.add("17 before 19", Number(17), write(1, CODE, 0, u64::MAX, FRAME, 0));
    list.add("19 before 20", Number(19), write(1, CODE, 0, 3, FRAME, 0));
    list.add("20 before 21", Number(20), write(1, CODE, 0, 4, FRAME, 0));
}

fn codes(list: &mut List) {
    let good = b"DDDDDDDD";
    for (length, number) in [(0, 20), (1, 0), (8, 0), (9, 20), (128, 20), (255, 20)] {
        list.add(&format!("code of {length}: {number}"), Number(number), write(1, good, length, 4, FRAME, 40));
    }
    for (byte, number) in [(0x20, 20), (0x21, 0), (0x7E, 0), (0x7F, 20), (0, 20), (0x80, 20), (0xFF, 20)] {
        let mut code = *good;
        code[1] = byte;
        list.add(&format!("code with byte {byte:02x}: {number}"), Number(number), write(5, &code, 2, 4, FRAME, 50));
        list.add(&format!("byte {byte:02x} past the code doesn't count"), Number(0), write(1, &code, 1, 4, FRAME, 50));
    }
}

fn sealed(list: &mut List) {
    let seal = |record: &[u8]| [&[SEAL], &words(&[0x0102_0304_0506_0708])[..], &run(record)].concat();
    let (one, five) = (kind_1(7), kind_5(7, 0, 9));
    for length in [0, 11, 12, 13, 27] {
        let number = if length < 12 { 22 } else { 0 };
        list.add(&format!("kind 1, {length} bytes to seal: {number}"), Number(number), seal(&one[..length]));
    }
    for length in [11, 12, 13, 28, 29, 43] {
        let number = if length < 12 { 22 } else { 0 };
        list.add(&format!("kind 5, {length} bytes to seal: {number}"), Number(number), seal(&five[..length]));
    }
    list.add("byte 12 is 4: no generation", Number(0), seal(&changed(&five, 12, 1)));
    list.add("another length than the record's: it isn't compared", Number(0), seal(&changed(&one, 1, 1)));
}

fn bodies(list: &mut List) {
    let mut add = |what: &str, reads: u8, bytes: &[u8]| {
        list.add(&format!("body: {what}"), Found(reads), pieces::body(bytes));
        let found = if reads == 1 { 0 } else { 6 };
        // No record has an empty body.
        if !bytes.is_empty() {
            list.add(&format!("seen, body: {what}"), Found(found), seen(100, 0, &record(bytes)));
        }
    };
    let (one, five) = (body_1(7, b"D", FRAME), body_5(7, 3, 9, b"D", FRAME));
    add("none", 0, b"");
    for kind in [0, 1, 2, 3, 4, 5, 6, 255] {
        let reads = u8::from(kind == 1);
        add(&format!("kind {kind} with kind 1's fields"), reads, &[&[kind], &one[1..]].concat());
        // The generation's first byte is where kind 1 has the code's length.
        let no_generation = [&[kind], &five[1..9], &[0; 8], &five[17..]].concat();
        add(&format!("kind {kind} with kind 5's fields, generation 0"), u8::from(kind == 5), &no_generation);
    }
    add("kind 1, 9 bytes", 0, &one[..9]);
    add("kind 1, 10 bytes, a code to come", 0, &one[..10]);
    add("kind 1, 11 bytes, no frame", 1, &one[..11]);
    add("kind 5, 25 bytes", 0, &five[..25]);
    add("kind 5, 26 bytes, a code to come", 0, &five[..26]);
    add("kind 5, 27 bytes, no frame", 1, &five[..27]);
    add("a code of none", 0, &body_1(7, b"", FRAME));
    add("a code of 8", 1, &body_1(7, b"!234567~", FRAME));
    add("a code of 9", 0, &body_1(7, b"123456789", FRAME));
    add("a code of 8, one byte missing", 0, &body_1(7, b"12345678", b"")[..17]);
    add("a code that reaches the end", 1, &body_1(7, b"12345678", b""));
    add("a code with a space", 0, &body_1(7, b" ", FRAME));
    add("a code with 7f", 0, &body_5(7, 3, 9, b"A\x7F", FRAME));
    add("a code of two bytes of UTF-8", 0, &body_5(7, 3, 9, b"\xC3\xA9", FRAME));
    add("the highest number, generation and sender", 1, &body_5(u64::MAX, u64::MAX, u64::MAX, b"D", FRAME));
}

fn stands(list: &mut List) {
    let one = kind_1(7);
    let mut add = |what: &str, found: u8, limit: u64, place: u64, bytes: &[u8]| {
        list.add(&format!("seen: {what}"), Found(found), seen(limit, place, bytes));
    };
    add("no bytes", 1, 15, 0, &[]);
    add("place at the end", 1, 15, 27, &one);
    add("place past the end", 1, 15, u64::MAX, &one);
    add("11 bytes", 1, 15, 0, &one[..11]);
    add("12 bytes, the body to come", 4, 15, 0, &one[..12]);
    add("12 zero bytes: the complement", 2, 15, 0, &[0; 12]);
    add("complement wrong", 2, 15, 0, &changed(&one, 7, 1));
    add("length 0", 3, 15, 0, &record_header(0, 0));
    add("length 1", 6, 15, 0, &record(&[9]));
    add("length as the limit", 0, 15, 0, &one);
    add("length above the limit", 3, 14, 0, &one);
    add("limit 0", 3, 0, 0, &one);
    add("length 2^32-1", 3, 67_108_898, 0, &record_header(u32::MAX, 0));
    add("one byte short", 4, 15, 0, &one[..26]);
    add("a byte behind", 0, 15, 0, &[&one[..], &[1]].concat());
    add("CRC wrong", 5, 15, 0, &changed(&one, 8, 1));
    add("a byte of the body wrong", 5, 15, 0, &changed(&one, 26, 1));
    add("kind 5", 0, 31, 2, &[b"..", &kind_5(7, 3, 9)[..]].concat());
}

pub(super) fn add(list: &mut List) {
    sums(list);
    written(list);
    codes(list);
    sealed(list);
    bodies(list);
    stands(list);
}
