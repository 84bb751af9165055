//! Edges of re-reads, checks, fields and entries.

use super::pieces::{body_1, body_5, changed, check, check_input, front, journal, kind_1, kind_5, numbered, record, record_header, reread};
use super::pieces::{run, words, ANYWHERE, FRAME, SALVAGE, START, TAIL};
use super::List;
use super::Says::{Found, Number, Prints};
use crate::operations::{INSERT, LOOKUP, PUT, TAKE};

fn rereads(list: &mut List) {
    let one = kind_1(7);
    let mut add = |what: &str, number: u8, offset: u64, body: u64, asked: u64, bytes: &[u8]| {
        list.add(&format!("re-read: {what}"), Number(number), reread(offset, body, asked, bytes));
    };
    add("whole, at 0", 0, 0, 15, 7, &one);
    add("whole, at 12,288", 0, START as u64, 31, 8, &journal(START as u64, &[&kind_5(8, 3, 9)]));
    add("behind other bytes, before others", 0, 2, 15, 7, &[b"..", &one[..], b".."].concat());
    add("one byte short: 23", 23, 0, 15, 7, &one[..26]);
    add("no bytes: 23", 23, 0, 0, 7, &[]);
    add("11 bytes: 23", 23, 0, 0, 7, &one[..11]);
    add("one byte on: 23", 23, 1, 15, 7, &one);
    add("body one longer than remains: 23", 23, 0, 16, 7, &one);
    add("offset at the end: 23", 23, 27, 0, 7, &one);
    add("offset 2^64-1: 23", 23, u64::MAX, 15, 7, &one);
    add("end wraps to 27: 23", 23, u64::MAX - 4, 20, 7, &one);
    add("end wraps to 0: 23", 23, 0u64.wrapping_sub(27), 15, 7, &one);
    add("body 2^32 + 15: 23", 23, 0, (1 << 32) + 15, 7, &one);
    add("body 2^64-12: 23", 23, 0, u64::MAX - 11, 7, &one);
    add("body one shorter than the record says: 24", 24, 0, 14, 7, &one);
    add("the record says another length, complement right: 24", 24, 0, 15, 7, &[record_header(14, 0), one[12..].to_vec()].concat());
    add("complement wrong: 24", 24, 0, 15, 7, &changed(&one, 7, 0x80));
    add("CRC wrong: 25", 25, 0, 15, 7, &changed(&one, 11, 0x80));
    add("a byte of the frame wrong: 25", 25, 0, 15, 7, &changed(&one, 26, 1));
    add("body of 0, CRC 0: 26", 26, 0, 0, 7, &record_header(0, 0));
    add("body of 0, CRC 1: 25", 25, 0, 0, 7, &record_header(0, 1));
    add("unknown kind: 26", 26, 0, 11, 7, &record(&[2; 11]));
    add("a code with a space: 26", 26, 0, 11, 7, &record(&body_1(7, b" ", b"")));
    add("another number: 27", 27, 0, 15, 8, &one);
    add("a number that differs above 2^32: 27", 27, 0, 15, 7 + (1 << 32), &one);
    add("24 before 25", 24, 0, 15, 7, &changed(&changed(&one, 7, 1), 26, 1));
    add("25 before 26", 25, 0, 11, 7, &changed(&record(&[2; 11]), 8, 1));
    add("26 before 27", 26, 0, 11, 8, &record(&body_1(7, b" ", b"")));
    add("a code of 8, no frame", 0, 0, 34, 7, &record(&body_5(7, 3, 9, b"!234567~", b"")));
    add("a code of 9: 26", 26, 0, 23, 7, &record(&body_1(7, b"123456789", FRAME)));
    add("number 2^64-1", 0, 0, 15, u64::MAX, &kind_1(u64::MAX));
}

fn checks(list: &mut List) {
    let empty = front(START as u64);
    let mut add = |what: &str, text: &'static str, input: &[u8]| list.add(&format!("check: {what}"), Prints(text), check(input));
    add("no input: 28", "refused 28 at 0\n", &[]);
    for kind in [0, 4, b'1', b'2', b'3', 255] {
        add(&format!("kind {kind}: 28"), "refused 28 at 0\n", &check_input(kind, 0, 100, &empty[..44]));
    }
    for (kind, whole) in [(TAIL, 17), (ANYWHERE, 9), (SALVAGE, 9)] {
        let input = check_input(kind, 1, 100, &empty);
        add(&format!("kind {kind} alone: 28"), "refused 28 at 0\n", &input[..1]);
        add(&format!("kind {kind}, one byte short: 28"), "refused 28 at 0\n", &input[..whole - 1]);
        add(&format!("kind {kind}, no journal: 1"), "refused 1 at 0\n", &input[..whole]);
        add(&format!("kind {kind}, a journal of 43: 1"), "refused 1 at 0\n", &input[..whole + 43]);
        add(&format!("kind {kind}, an empty journal"), "open end=12288 records=0 dead=0 sender=7 target=9 generation=3 active=1 ", &input);
        add(&format!("kind {kind}, limit 67,108,899: 17"), "refused 17 at 0\n", &check_input(kind, 1, 67_108_899, &empty[..44]));
    }
    let long = vec![0; 65_537];
    add("a journal of 65,536 bytes", "refused 2 at 0\n", &check_input(ANYWHERE, 0, 100, &long[..65_536]));
    add("a journal of 65,537 bytes: 29", "refused 29 at 0\n", &check_input(ANYWHERE, 0, 100, &long));
    add("29 before 17", "refused 29 at 0\n", &check_input(TAIL, 1, u64::MAX, &long));
    add("28 before 29", "refused 28 at 0\n", &check_input(0, 0, 100, &long));
    let full = "open end=35863 records=1024 dead=23 sender=7 target=9 generation=3 active=1 stale=0 ";
    add("1,024 numbers, one of them again", full, &check_input(TAIL, 1, 100, &numbered((1..=1024).chain([1]))));
    add("1,025 numbers: 16", "refused 16 at 35840\n", &check_input(SALVAGE, 1, 100, &numbered(1..=1025)));
    let again = journal(START as u64, &[&kind_5(u64::MAX, 3, 9), &kind_1(1 << 63), &kind_5(u64::MAX, 4, 8)]);
    let entries = "open end=12401 records=2 dead=43 sender=8 target=9 generation=5 active=1 stale=0 reset=0 watermark=0 boundary=12288 \
                   cut=none\nentry seq=18446744073709551615 offset=12358 body=31\nentry seq=9223372036854775808 offset=12331 body=15\n";
    add("a number filed again, numbers above 2^63", entries, &check_input(TAIL, 1, 100, &again));
}

fn fields(list: &mut List) {
    let bytes: Vec<u8> = (1..=9).collect();
    let take = |width: u8, cursor: u64, count: u64| [&[TAKE, width], &words(&[cursor, count])[..], &run(&bytes)].concat();
    let put = |width: u8, cursor: u64, what: &[u8]| {
        let numbers = words(&[cursor, 0x8877_6655_4433_2211]);
        [&[PUT, width], &numbers[..], &run(what), &run(&bytes)].concat()
    };
    for width in [1, 2, 4, 8] {
        let last = 9 - u64::from(width);
        for (cursor, taken) in [(0, 1), (last, 1), (last + 1, 0), (10, 0), (0u64.wrapping_sub(u64::from(width)), 0)] {
            list.add(&format!("take {width} bytes at {cursor} of 9"), Found(taken), take(width, cursor, 0));
            list.add(&format!("put {width} bytes at {cursor} of 9"), Number(0), put(width, cursor, b"not this"));
        }
    }
    let runs = [(0, 9, 1), (0, 10, 0), (9, 0, 1), (9, 1, 0), (10, 0, 0), (3, 6, 1), (3, u64::MAX - 2, 0), (u64::MAX, 1, 0)];
    for (cursor, count, taken) in runs {
        list.add(&format!("take a run of {count} at {cursor} of 9"), Found(taken), take(0, cursor, count));
    }
    let runs: [(u64, &[u8]); 8] =
        [(0, b"123456789"), (0, b"1234567890"), (9, b""), (9, b"1"), (10, b""), (6, b"123"), (7, b"123"), (u64::MAX, b"1")];
    for (cursor, what) in runs {
        list.add(&format!("put a run of {} at {cursor} of 9", what.len()), Number(0), put(0, cursor, what));
    }
}

fn entries(list: &mut List) {
    let lent = [[5, 1, 10], [6, 2, 20], [5, 3, 30]];
    let index = |entries: &[[u64; 3]]| [&(entries.len() as u32).to_le_bytes(), &words(entries.as_flattened())[..]].concat();
    let insert = |entries: &[[u64; 3]], count: u64, dead: u64, number: u64| {
        [&[INSERT], &index(entries)[..], &words(&[count, dead]), &words(&[number, 8, 9])].concat()
    };
    list.add("insert: new, below the room", Number(0), insert(&lent, 2, 0, 7));
    list.add("insert: new, full: 16", Number(16), insert(&lent, 3, 0, 7));
    list.add("insert: new, a count above the room: 16", Number(16), insert(&lent, u64::MAX, 0, 7));
    list.add("insert: no room: 16", Number(16), insert(&[], 0, 0, 7));
    list.add("insert: met again, full", Number(0), insert(&lent, 3, 0, 6));
    list.add("insert: the first of two with the number", Number(0), insert(&lent, 3, 0, 5));
    list.add("insert: past the count it isn't met", Number(0), insert(&lent, 1, 0, 6));
    list.add("insert: dead bytes reach 2^64-1", Number(0), insert(&lent, 3, u64::MAX - 22, 5));
    list.add("insert: dead bytes pass 2^64-1: 18", Number(18), insert(&lent, 3, u64::MAX - 21, 5));
    list.add("insert: an old body of 2^64-13", Number(0), insert(&[[5, 1, u64::MAX - 12]], 1, 0, 5));
    list.add("insert: an old body of 2^64-12: 18", Number(18), insert(&[[5, 1, u64::MAX - 11]], 1, 0, 5));
    let lookup = |count: u64, number: u64| [&[LOOKUP], &index(&lent)[..], &words(&[count, number])].concat();
    let sought = [(3, 5, 1), (3, 6, 1), (1, 6, 0), (2, 6, 1), (0, 5, 0), (u64::MAX, 6, 1), (3, 0, 0), (3, 5 + (1 << 32), 0)];
    for (count, number, found) in sought {
        list.add(&format!("lookup: {number} among {count} of 5, 6, 5"), Found(found), lookup(count, number));
    }
    list.add("lookup: no entries", Found(0), [&[LOOKUP], &index(&[])[..], &words(&[1, 0])].concat());
}

pub(super) fn add(list: &mut List) {
    rereads(list);
    checks(list);
    fields(list);
    entries(list);
}
