//! Edges of the walk over the records: the reading table under each rule, the windows, the end, the counters, the index and the limits.

use super::pieces::{self, body_1, changed, journal, kind_1, kind_5, record, record_header, with_slot_field};
use super::pieces::{ANYWHERE, SALVAGE, START, TAIL};
use super::Says::{Number, Opens};
use super::{List, Says};

const DURABLE: u64 = START as u64;

/// The body limit: a window is a multiple of 112.
const LIMIT: u64 = 100;

const LENT: [[u64; 3]; 2] = [[1, 2, 3]; 2];

/// Records under Tail of N records, B at 12,288.
fn tail(list: &mut List, what: &str, n: u64, records: &[&[u8]], says: Says) {
    list.add(what, says, pieces::scan(TAIL, n, LIMIT, &LENT, &journal(DURABLE, records)));
}

/// A row of the table: below B and past it under Tail of one record, under Anywhere and under Salvage; under Tail behind a record too.
fn row(list: &mut List, what: &str, bytes: &[u8], says: [Says; 4]) {
    let good = kind_1(7);
    let rules = [("Tail, durable", TAIL, 1), ("Tail", TAIL, 0), ("Anywhere", ANYWHERE, 0), ("Salvage", SALVAGE, 0)];
    for ((name, rule, past), says) in rules.into_iter().zip(says) {
        let first = journal(DURABLE + past, &[bytes]);
        list.add(&format!("{what}: {name}"), says, pieces::scan(rule, 1, LIMIT, &LENT, &first));
        if rule == TAIL {
            let behind = journal(DURABLE + good.len() as u64 + past, &[&good, bytes]);
            list.add(&format!("{what}, behind a record: {name}"), says, pieces::scan(rule, 1, LIMIT, &LENT, &behind));
        }
    }
}

/// As many bytes of a kind, none of which is a record.
fn ones(count: usize) -> Vec<u8> {
    vec![1; count]
}

fn rows(list: &mut List) {
    let good = kind_1(8);
    let (cut, torn, refused) = (Opens(2), Opens(1), Number);
    row(list, "r = 1", &good[..1], [refused(10), torn, torn, torn]);
    row(list, "r = 11", &[0; 11], [refused(10), torn, torn, torn]);
    row(list, "12 zero bytes", &[0; 12], [refused(10), cut, cut, cut]);
    row(list, "complement wrong, outside the window", &ones(113), [refused(10), refused(11), cut, cut]);
    row(list, "length 0", &record_header(0, 0), [refused(13), refused(13), refused(13), cut]);
    row(list, "length above the limit, nothing behind", &record_header(101, 0), [refused(13), refused(13), refused(13), cut]);
    row(list, "one byte short", &good[..26], [refused(10), torn, torn, torn]);
    row(list, "12 bytes of a record", &good[..12], [refused(10), torn, torn, torn]);
    row(list, "CRC wrong, nothing follows", &changed(&good, 26, 1), [refused(10), cut, cut, cut]);
    let followed = [changed(&good, 26, 1), kind_1(9)].concat();
    row(list, "CRC wrong, a good record follows", &followed, [refused(10), refused(12), cut, cut]);
    row(list, "body doesn't read", &record(&body_1(7, b" ", b"")), [refused(14), refused(14), refused(14), cut]);
    row(list, "unknown kind", &record(&[2; 11]), [refused(14), refused(14), refused(14), cut]);
}

fn headers(list: &mut List) {
    let long = [record_header(100, 0), vec![0; 100]].concat();
    tail(list, "length as the limit, CRC wrong: cut", 1, &[&long], Opens(2));
    tail(list, "length as the limit, one byte short: cut incomplete", 1, &[&long[..111]], Opens(1));
    tail(list, "length 2^32-1: 13", 1, &[&record_header(u32::MAX, 0)], Number(13));
    tail(list, "length 0 with its CRC wrong: 13", 1, &[&record_header(0, 1)], Number(13));
    // B far past: 13 and 14 know no B.
    let far = |records: &[&[u8]]| pieces::scan(TAIL, 1, LIMIT, &LENT, &journal(u64::MAX, records));
    list.add("length 0, B = 2^64-1: 13", Number(13), far(&[&record_header(0, 0)]));
    list.add("unknown kind, B = 2^64-1: 14", Number(14), far(&[&record(&[2; 11])]));
    list.add("complement wrong, B = 2^64-1: 10", Number(10), far(&[&ones(12)]));
}

/// Bytes that start with others and end in zeros, with the last of them another.
fn padded(front: &[u8], length: usize, last: u8) -> Vec<u8> {
    let mut bytes = front.to_vec();
    bytes.resize(length, 0);
    if let Some(byte) = bytes.last_mut().filter(|_| last != 0) {
        *byte = last;
    }
    bytes
}

fn complement_windows(list: &mut List) {
    let windows = [(0, 12, 11), (0, 13, 11), (1, 12, 0), (1, 112, 0), (2, 224, 0), (2, 225, 11), (3, 336, 0), (3, 337, 11)];
    for (n, r, number) in windows {
        let says = if number == 0 { Opens(2) } else { Number(number) };
        tail(list, &format!("complement wrong, N = {n}, r = {r}"), n, &[&ones(r)], says);
    }
    for (name, n) in [("2^64-1", u64::MAX), ("2^63", 1 << 63), ("2^64 / 112", u64::MAX / 112), ("2^64 / 112 + 1", u64::MAX / 112 + 1)] {
        tail(list, &format!("complement wrong, N = {name}: cut"), n, &[&ones(225)], Opens(2));
    }
    // A window of 2^64, which wraps to 0: 64 times 2^58.
    let wraps = pieces::scan(TAIL, 1 << 58, 52, &LENT, &journal(DURABLE, &[&ones(225)]));
    list.add("complement wrong, a window of 2^64: cut", Opens(2), wraps);
    for r in [12, 13, 300, 4096, 4108, 4109] {
        tail(list, &format!("N = 0, {r} zeros: cut"), 0, &[&vec![0; r]], Opens(2));
        tail(list, &format!("N = 0, {r} zeros but the last byte: 11"), 0, &[&padded(&[], r, 1)], Number(11));
    }
    tail(list, "N = 0, zeros but the CRC field's first byte: 11", 0, &[&padded(&[0, 0, 0, 0, 0, 0, 0, 0, 1], 300, 0)], Number(11));
    tail(list, "N = 0, zeros but the first byte: 11", 0, &[&padded(&[1], 300, 0)], Number(11));
}

fn crc_windows(list: &mut List) {
    let wrong = changed(&kind_1(8), 26, 1);
    tail(list, "CRC wrong, N = 0, nothing follows: cut", 0, &[&wrong], Opens(2));
    for n in [0, 1] {
        tail(list, &format!("CRC wrong, N = {n}, a zero follows: cut"), n, &[&padded(&wrong, 28, 0)], Opens(2));
        tail(list, &format!("CRC wrong, N = {n}, zeros follow: cut"), n, &[&padded(&wrong, 4124, 0)], Opens(2));
        tail(list, &format!("CRC wrong, N = {n}, a one follows: 12"), n, &[&padded(&wrong, 28, 1)], Number(12));
        tail(list, &format!("CRC wrong, N = {n}, zeros but the last byte follow: 12"), n, &[&padded(&wrong, 4124, 1)], Number(12));
    }
    tail(list, "CRC wrong, N = 1, inside one window, bytes follow: 12", 1, &[&padded(&wrong, 112, 1)], Number(12));
    for (n, r, number) in [(2, 224, 0), (2, 225, 12), (3, 336, 0), (3, 337, 12)] {
        let says = if number == 0 { Opens(2) } else { Number(number) };
        tail(list, &format!("CRC wrong, N = {n}, r = {r}"), n, &[&padded(&wrong, r, 1)], says);
    }
    tail(list, "CRC wrong, N = 2, past the window, zeros follow: cut", 2, &[&padded(&wrong, 225, 0)], Opens(2));
    tail(list, "CRC wrong, N = 2^64-1: cut", u64::MAX, &[&padded(&wrong, 400, 1)], Opens(2));
    let wraps = pieces::scan(TAIL, 1 << 58, 52, &LENT, &journal(DURABLE, &[&padded(&wrong, 400, 1)]));
    list.add("CRC wrong, a window of 2^64: cut", Opens(2), wraps);
}

fn ends(list: &mut List) {
    let good = kind_1(7);
    for (past, says) in [(26, Opens(0)), (27, Opens(0)), (28, Number(10))] {
        let whole = journal(DURABLE + past, &[&good]);
        list.add(&format!("B {past} past 12,288, a record of 27, Tail"), says, pieces::scan(TAIL, 1, LIMIT, &LENT, &whole));
        list.add(&format!("B {past} past 12,288, a record of 27, Anywhere"), Opens(0), pieces::scan(ANYWHERE, 1, LIMIT, &LENT, &whole));
    }
    // A record that starts below B and ends past it; damage at B.
    for (past, number) in [(27, 12), (28, 10)] {
        let whole = journal(DURABLE + past, &[&good, &changed(&good, 26, 1), &good]);
        list.add(&format!("CRC wrong at 12,315, B {past} past 12,288"), Number(number), pieces::scan(TAIL, 1, LIMIT, &LENT, &whole));
    }
    // What is damaged ends the walk, though a good record follows.
    let whole = journal(0, &[&good, &changed(&good, 26, 1), &kind_1(8)]);
    list.add("a good record behind damage isn't taken", Opens(2), pieces::scan(ANYWHERE, 0, LIMIT, &LENT, &whole));
    // A frame that holds a record isn't walked into.
    let holds = record(&body_1(9, b"D", &good));
    tail(list, "a record inside a frame isn't one", 1, &[&holds, &good], Opens(0));
    tail(list, "a record inside a frame whose CRC is wrong", 1, &[&changed(&holds, 8, 1)], Opens(2));
}

fn counters(list: &mut List) {
    let cases: [(&str, &[[u64; 3]]); 8] = [
        ("generation as the slot's: the slot's sender", &[[7, 2, 50]]),
        ("generation above the slot's: the record's sender", &[[7, 3, 50]]),
        ("generation below the slot's", &[[7, 1, 50]]),
        ("equal generations: the first one's sender", &[[7, 5, 50], [8, 5, 60]]),
        ("a lower generation later", &[[7, 5, 50], [8, 4, 60]]),
        ("a higher generation later", &[[7, 5, 50], [8, 6, 60]]),
        ("the highest is filed again later", &[[7, 9, 50], [7, 3, 60]]),
        ("sender and number 2^64-1", &[[u64::MAX, 3, u64::MAX]]),
    ];
    for (what, records) in cases {
        let made: Vec<Vec<u8>> = records.iter().map(|[number, generation, sender]| kind_5(*number, *generation, *sender)).collect();
        tail(list, what, 1, &[&made.concat()], Opens(0));
    }
}

fn generations(list: &mut List) {
    let last = u64::MAX;
    let slots = |zero, one| with_slot_field(&with_slot_field(&journal(DURABLE, &[]), 0, 0, zero), 1, 0, one);
    let mut add = |what: &str, says, journal: &[u8]| list.add(what, says, pieces::scan(TAIL, 1, LIMIT, &LENT, journal));
    add("newest generation 2^64-2: opens", Opens(0), &slots(1, last - 1));
    add("newest generation 2^64-1: 15", Number(15), &slots(1, last));
    add("generation 2^64-1 in slot 0: 15", Number(15), &slots(last, 1));
    add("generation 0 in both: opens", Opens(0), &slots(0, 0));
    add("generation 2^64-1 in a slot that isn't sound: opens", Opens(0), &changed(&slots(1, last), 8243, 1));
    add("kind 5 of generation 2^64-2: opens", Opens(0), &journal(DURABLE, &[&kind_5(7, last - 1, 9)]));
    let exhausted = kind_5(7, last, 9);
    add("kind 5 of generation 2^64-1: 15", Number(15), &journal(DURABLE, &[&exhausted]));
    add("2^64-1, filed again: 15", Number(15), &journal(DURABLE, &[&exhausted, &kind_1(7)]));
    add("10 at the end before 15", Number(10), &journal(DURABLE + 44, &[&exhausted]));
    add("14 before 15", Number(14), &journal(DURABLE, &[&exhausted, &record(&[2])]));
    let damaged = journal(DURABLE, &[&changed(&exhausted, 42, 1)]);
    add("2^64-1 in a record that is cut: opens", Opens(2), &damaged);
}

fn rooms(list: &mut List) {
    let (one, two, again) = (kind_1(7), kind_1(8), kind_5(7, 3, 9));
    let lent = [[8, 1, 1]; 3];
    for (name, rule) in [("Tail", TAIL), ("Anywhere", ANYWHERE), ("Salvage", SALVAGE)] {
        let both = journal(DURABLE, &[&one, &two]);
        list.add(&format!("no room, no record, {name}"), Opens(0), pieces::scan(rule, 1, LIMIT, &[], &journal(DURABLE, &[])));
        list.add(&format!("no room, a record: 16, {name}"), Number(16), pieces::scan(rule, 1, LIMIT, &[], &both));
        list.add(&format!("room for one of two: 16, {name}"), Number(16), pieces::scan(rule, 1, LIMIT, &lent[..1], &both));
        list.add(&format!("room for both, {name}"), Opens(0), pieces::scan(rule, 1, LIMIT, &lent[..2], &both));
        let met_again = journal(DURABLE, &[&one, &again]);
        list.add(&format!("a number met again in a full index, {name}"), Opens(0), pieces::scan(rule, 1, LIMIT, &lent[..1], &met_again));
    }
    let unread = journal(DURABLE, &[&one, &record(&[2])]);
    list.add("14 before 16", Number(14), pieces::scan(TAIL, 1, LIMIT, &lent[..1], &unread));
    let past = journal(DURABLE, &[&one, &again, &two]);
    list.add("entries past the count don't change", Opens(0), pieces::scan(TAIL, 1, LIMIT, &lent, &past));
    list.add("13 leaves the entries before it", Number(13), pieces::scan(TAIL, 1, 30, &lent, &past));
    list.add("16 before 10 at the end", Number(16), pieces::scan(TAIL, 1, LIMIT, &lent[..1], &journal(DURABLE + 200, &[&one, &two])));
    list.add("10 at the end leaves all entries", Number(10), pieces::scan(TAIL, 1, LIMIT, &lent, &journal(DURABLE + 200, &[&one, &two])));
    let many: Vec<u8> = [5, 3, 9, 5, 1, 9, 0, u64::MAX, 3, 1 << 63].iter().flat_map(|number| kind_1(*number)).collect();
    list.add("numbers up and down, some again", Opens(0), pieces::scan(TAIL, 1, LIMIT, &[[0; 3]; 8], &journal(DURABLE, &[&many])));
}

fn limits(list: &mut List) {
    let whole = journal(DURABLE, &[&kind_1(7)]);
    let highest = 67_108_898;
    for (name, rule) in [("Tail", TAIL), ("Anywhere", ANYWHERE), ("Salvage", SALVAGE)] {
        list.add(&format!("limit 67,108,898, {name}"), Opens(0), pieces::scan(rule, 1, highest, &LENT, &whole));
        list.add(&format!("limit 67,108,899: 17, {name}"), Number(17), pieces::scan(rule, 1, highest + 1, &LENT, &whole));
        list.add(&format!("17 before 1, {name}"), Number(17), pieces::scan(rule, 1, u64::MAX, &LENT, &[]));
        let says = if rule == SALVAGE { Opens(2) } else { Number(13) };
        list.add(&format!("limit 0, {name}"), says, pieces::scan(rule, 1, 0, &LENT, &whole));
        list.add(&format!("limit one below the body, {name}"), says, pieces::scan(rule, 1, 14, &LENT, &whole));
    }
    list.add("limit as the body", Opens(0), pieces::scan(TAIL, 1, 15, &LENT, &whole));
    list.add("limit 2^32 + 15: 17", Number(17), pieces::scan(TAIL, 1, (1 << 32) + 15, &LENT, &whole));
    // Limit 0 has windows of 12.
    for (n, r, says) in [(1, 12, Opens(2)), (1, 13, Number(11)), (2, 24, Opens(2)), (2, 25, Number(11))] {
        let damaged = journal(DURABLE, &[&ones(r)]);
        list.add(&format!("limit 0, N = {n}, complement wrong, r = {r}"), says, pieces::scan(TAIL, n, 0, &LENT, &damaged));
    }
}

/// The message number of a record that fills a journal.
const FILLING: u64 = 6;

/// A record of so many bytes.
fn filling(length: usize) -> Vec<u8> {
    record(&body_1(FILLING, b"D", &vec![b'8'; length - 23]))
}

fn places(list: &mut List) {
    // Records that start about a power of two, and the last one's end there.
    for power in [1 << 14, 1 << 15, 1 << 16] {
        for place in [power - 1, power, power + 1] {
            // At the power itself a number is met again, which replaces the entry's place.
            let number = if place == power { FILLING } else { 7 };
            let whole = journal(place as u64, &[&filling(place - START), &kind_5(number, 3, 9)]);
            list.add(&format!("a record at {place}, B there"), Opens(0), pieces::scan(TAIL, 1, 60_000, &LENT, &whole));
        }
    }
    // Bodies about a power of two long.
    for body in [127, 128, 255, 256, 257, 4095, 4096] {
        let whole = journal(DURABLE, &[&filling(body + 12), &kind_1(7)]);
        list.add(&format!("a body of {body}"), Opens(0), pieces::scan(TAIL, 1, body as u64, &LENT, &whole));
        list.add(&format!("a body of {body}, above the limit"), Number(13), pieces::scan(TAIL, 1, body as u64 - 1, &LENT, &whole));
    }
}

pub(super) fn add(list: &mut List) {
    rows(list);
    headers(list);
    complement_windows(list);
    crc_windows(list);
    ends(list);
    counters(list);
    generations(list);
    rooms(list);
    limits(list);
    places(list);
}
