//! Checks, fields and entries: what is expected of the port, and whether the original says it.

use oracle::operations::{answer, CHECK, INSERT, LOOKUP, PREFIX, PUT, SLOTS, TAKE};
use oracle::restated::expected;

fn run(bytes: &[u8]) -> Vec<u8> {
    [&(bytes.len() as u32).to_le_bytes(), bytes].concat()
}

fn words(numbers: &[u64]) -> Vec<u8> {
    numbers.iter().flat_map(|number| number.to_le_bytes()).collect()
}

fn index(entries: &[[u64; 3]]) -> Vec<u8> {
    [&(entries.len() as u32).to_le_bytes(), &words(entries.as_flattened())[..]].concat()
}

/// The request is answered so, by the original or not.
fn answers(request: &[u8], restated: bool, number: u8, rest: &[u8]) {
    let found = expected(request).expect("the request is one");
    let whole = [&[number], &[0; 8][..], rest].concat();
    assert_eq!((found.restated, found.answer), (restated, whole), "{request:02x?}");
    assert_eq!(answer(request).expect("the request is one")[0] == 255, restated);
}

fn take(width: u8, cursor: u64, count: u64, bytes: &[u8]) -> Vec<u8> {
    [&[TAKE, width], &words(&[cursor, count])[..], &run(bytes)].concat()
}

fn taken(taken: u8, value: u64, next: u64, bytes: &[u8]) -> Vec<u8> {
    [&[taken], &words(&[value, next])[..], &run(bytes)].concat()
}

#[test]
fn fields_are_taken() {
    let bytes = [1, 2, 3, 4, 5, 6, 7, 8, 0xFF];
    let values = [(1, 0x02), (2, 0x0302), (4, 0x0504_0302), (8, 0xFF08_0706_0504_0302)];
    for (width, value) in values {
        answers(&take(width, 1, 77, &bytes), false, 0, &taken(1, value, 1 + u64::from(width), &[]));
        let last = 9 - u64::from(width);
        answers(&take(width, last + 1, 0, &bytes), false, 0, &taken(0, 0, last + 1, &[]));
        answers(&take(width, 10, 0, &bytes), true, 0, &taken(0, 0, 10, &[]));
    }
    answers(&take(0, 1, 3, &bytes), false, 0, &taken(1, 0, 4, &[2, 3, 4]));
    answers(&take(0, 1, 8, &bytes), false, 0, &taken(1, 0, 9, &bytes[1..]));
    answers(&take(0, 1, 9, &bytes), false, 0, &taken(0, 0, 1, &[]));
    answers(&take(0, 1, u64::MAX, &bytes), false, 0, &taken(0, 0, 1, &[]));
    // A run of no bytes is taken at the end, and not past it.
    answers(&take(0, 9, 0, &bytes), false, 0, &taken(1, 0, 9, &[]));
    answers(&take(0, 10, 0, &bytes), true, 0, &taken(0, 0, 10, &[]));
    answers(&take(1, u64::MAX, 0, &[]), true, 0, &taken(0, 0, u64::MAX, &[]));
    assert!(answer(&take(3, 0, 0, &bytes)).is_err());
}

fn put(width: u8, cursor: u64, value: u64, what: &[u8], buffer: &[u8]) -> Vec<u8> {
    [&[PUT, width], &words(&[cursor, value])[..], &run(what), &run(buffer)].concat()
}

fn written(next: u64, buffer: &[u8]) -> Vec<u8> {
    [&words(&[next])[..], &run(buffer)].concat()
}

#[test]
fn fields_are_put() {
    let (value, empty) = (0x8877_6655_4433_2211u64, [0xEE; 9]);
    let bytes = value.to_le_bytes();
    for width in [1, 2, 4, 8] {
        let mut left = empty;
        left[1..1 + width].copy_from_slice(&bytes[..width]);
        answers(&put(width as u8, 1, value, b"no", &empty), false, 0, &written(1 + width as u64, &left));
        let late = 10 - width as u64;
        answers(&put(width as u8, late, value, b"", &empty), false, 0, &written(late, &empty));
        answers(&put(width as u8, 10, value, b"", &empty), true, 0, &written(10, &empty));
    }
    answers(&put(0, 2, value, b"abc", b"......"), false, 0, &written(5, b"..abc."));
    answers(&put(0, 3, value, b"abc", b"......"), false, 0, &written(6, b"...abc"));
    answers(&put(0, 4, value, b"abc", b"......"), false, 0, &written(4, b"......"));
    answers(&put(0, 6, 0, b"", b"......"), false, 0, &written(6, b"......"));
    answers(&put(0, 7, 0, b"", b"......"), true, 0, &written(7, b"......"));
    answers(&put(8, u64::MAX, 0, b"", &[]), true, 0, &written(u64::MAX, &[]));
}

fn insert(lent: &[[u64; 3]], count: u64, dead: u64, entry: [u64; 3]) -> Vec<u8> {
    [&[INSERT], &index(lent)[..], &words(&[count, dead]), &words(&entry)].concat()
}

#[test]
fn entries_are_filed() {
    let lent = [[5, 1, 10], [6, 2, 20], [5, 3, 30]];
    let filed = |count, dead, left: &[[u64; 3]]| [&words(&[count, dead])[..], &index(left)].concat();
    // New, at the count; and again, in the place of the first that has the number.
    answers(&insert(&lent, 2, 9, [7, 8, 9]), true, 0, &filed(3, 9, &[lent[0], lent[1], [7, 8, 9]]));
    answers(&insert(&lent, 3, 9, [5, 8, 9]), true, 0, &filed(3, 9 + 22, &[[5, 8, 9], lent[1], lent[2]]));
    // Entries past the count aren't looked at, and a count above the room is the room.
    answers(&insert(&lent, 1, 0, [6, 8, 9]), true, 0, &filed(2, 0, &[lent[0], [6, 8, 9], lent[2]]));
    answers(&insert(&lent, u64::MAX, 0, [6, 8, 9]), true, 0, &filed(3, 32, &[lent[0], [6, 8, 9], lent[2]]));
    for count in [3, 4, u64::MAX] {
        answers(&insert(&lent, count, 9, [7, 8, 9]), true, 16, &filed(0, 0, &lent));
    }
    answers(&insert(&[], 0, 9, [7, 8, 9]), true, 16, &filed(0, 0, &[]));
    // Dead bytes up to 2^64-1, and past it.
    answers(&insert(&lent, 3, u64::MAX - 22, [5, 8, 9]), true, 0, &filed(3, u64::MAX, &[[5, 8, 9], lent[1], lent[2]]));
    answers(&insert(&lent, 3, u64::MAX - 21, [5, 8, 9]), true, 18, &filed(0, 0, &lent));
    answers(&insert(&[[5, 1, u64::MAX]], 1, 0, [5, 8, 9]), true, 18, &filed(0, 0, &[[5, 1, u64::MAX]]));
    answers(&insert(&[[5, 1, u64::MAX - 12]], 1, 0, [5, 8, 9]), true, 0, &filed(1, u64::MAX, &[[5, 8, 9]]));
}

#[test]
fn entries_are_looked_up() {
    let lent = [[5, 1, 10], [6, 2, 20], [5, 3, 30]];
    let lookup = |count, number| [&[LOOKUP], &index(&lent)[..], &words(&[count, number])].concat();
    let found = |found: u8, entry: [u64; 3]| [&[found], &words(&entry)[..], &index(&lent)].concat();
    answers(&lookup(3, 5), true, 0, &found(1, lent[0]));
    answers(&lookup(2, 6), true, 0, &found(1, lent[1]));
    answers(&lookup(1, 6), true, 0, &found(0, [0; 3]));
    answers(&lookup(u64::MAX, 6), true, 0, &found(1, lent[1]));
    answers(&lookup(0, 5), true, 0, &found(0, [0; 3]));
    answers(&lookup(3, 0), true, 0, &found(0, [0; 3]));
}

/// A journal with slots of generations 1 and 2: sender 7, target 9, the durable end, watermark 6, a reset owed.
fn journal(durable_end: u64, records: &[u8]) -> Vec<u8> {
    let ask = |request: &[u8]| answer(request).expect("the original answers");
    let slots = ask(&[&[SLOTS], &words(&[1, 7, 9, durable_end, 6])[..], &[1]].concat());
    let prefix = ask(&[&[PREFIX], &[0; 28][..], &slots[17..], &run(&[0; 12_288])].concat());
    [&prefix[21..], records].concat()
}

const KIND_1: &[u8] = b"\x0F\0\0\0\xF0\xFF\xFF\xFF\x7B\x21\xC2\xA5\x01\x07\0\0\0\0\0\0\0\x01D8=F\x01";

fn check(kind: &[u8], numbers: &[u64], journal: &[u8]) -> Vec<u8> {
    [vec![CHECK], run(&[kind, &words(numbers), journal].concat())].concat()
}

#[test]
fn checks_print() {
    let whole = journal(12_315, &[KIND_1, KIND_1, &KIND_1[..5]].concat());
    let text = "open end=12342 records=1 dead=27 sender=7 target=9 generation=3 active=1 stale=0 reset=1 watermark=6 boundary=12315 \
                cut=incomplete:5\nentry seq=7 offset=12315 body=15\n";
    answers(&check(&[1], &[0, 100], &whole), false, 0, &run(text.as_bytes()));
    answers(&check(&[2], &[100], &whole), false, 0, &run(text.as_bytes()));
    answers(&check(&[1], &[0, 14], &whole), false, 0, &run(b"refused 13 at 12288\n"));
    let damaged = "open end=12288 records=0 dead=0 sender=7 target=9 generation=3 active=1 stale=1 reset=1 watermark=6 boundary=12315 \
                   cut=damaged:59\n";
    answers(&check(&[3], &[14], &whole), false, 0, &run(damaged.as_bytes()));
    answers(&check(&[1], &[0, 67_108_899], &whole), true, 0, &run(b"refused 17 at 0\n"));
    answers(&check(&[4], &[0, 100], &whole), true, 0, &run(b"refused 28 at 0\n"));
    answers(&check(&[1], &[0, 100], &[0; 65_537]), true, 0, &run(b"refused 29 at 0\n"));
    answers(&check(&[1], &[0, 100], &[0; 65_536]), false, 0, &run(b"refused 2 at 0\n"));
}

#[test]
fn a_full_index_is_told() {
    // 1,024 numbers, and one of them again; then one more, in the shortest records.
    let bodies = (0..1024).chain([0, 1024]).map(|number: u64| [&[1], &number.to_le_bytes()[..], &[1, b'D']].concat());
    let mut records = Vec::new();
    for body in bodies {
        let sealed = answer(&[&[8], &[0; 8][..], &run(&[&[11, 0, 0, 0, 0, 0, 0, 0, 0, 0, 0, 0], &body[..]].concat())].concat());
        records.extend_from_slice(&sealed.expect("a record is sealed")[13..]);
    }
    let full = journal(12_288, &records[..23 * 1025]);
    let found = expected(&check(&[3], &[100], &full)).expect("the request is one");
    let text = String::from_utf8(found.answer[13..].to_vec()).expect("a text");
    assert!(text.starts_with("open end=35863 records=1024 dead=23 "), "{text}");
    assert!(text.contains("\nentry seq=0 offset=35840 body=11\nentry seq=1 offset=12311 body=11\n"));
    assert_eq!(text.lines().count(), 1025);
    answers(&check(&[3], &[100], &journal(12_288, &records)), true, 0, &run(b"refused 16 at 35863\n"));
}
