//! Edges of the header, the slots and the prefix.

use super::pieces::{self, changed, front, prefix, run, scan, slot, with_header, with_slot_field, words, ANYWHERE, SALVAGE, START, TAIL};
use super::Says::{Found, Number, Opens};
use super::{List, Says};
use crate::file::format::{encode_slot, Slot};
use crate::operations::{PREFIX, SLOTS};

const DURABLE: u64 = START as u64;

/// The journal under each rule, where all say the same.
fn each_rule(list: &mut List, what: &str, says: Says, journal: &[u8]) {
    for (rule, name) in [(TAIL, "Tail"), (ANYWHERE, "Anywhere"), (SALVAGE, "Salvage")] {
        list.add(&format!("{what}, {name}"), says, scan(rule, 1, 100, &[[1, 2, 3]], journal));
    }
}

/// The journal under Tail.
fn tail(list: &mut List, what: &str, says: Says, journal: &[u8]) {
    list.add(what, says, scan(TAIL, 1, 100, &[[1, 2, 3]], journal));
}

fn lengths(list: &mut List) {
    let whole = front(DURABLE);
    each_rule(list, "length 0: 1", Number(1), &[]);
    each_rule(list, "length 43: 1", Number(1), &whole[..43]);
    each_rule(list, "length 44: 7", Number(7), &whole[..44]);
    tail(list, "length 4,096: 7", Number(7), &whole[..4096]);
    tail(list, "length 8,192: 7", Number(7), &whole[..8192]);
    each_rule(list, "valid prefix cut at 12,287: 7", Number(7), &whole[..START - 1]);
    each_rule(list, "12,288 bytes, B = 12,288: opens empty", Opens(0), &whole);
    list.add("a header of 43 bytes: 1", Number(1), pieces::header(&whole[..43]));
    list.add("a header of 44 bytes", Number(0), pieces::header(&whole[..44]));
    list.add("a header with a byte behind it", Number(0), pieces::header(&whole[..45]));
}

fn durable_ends(list: &mut List) {
    for (name, end) in [("12,289", DURABLE + 1), ("2^64-1", u64::MAX)] {
        let journal = front(end);
        tail(list, &format!("B = {name}: 10 at 12,288"), Number(10), &journal);
        list.add(&format!("B = {name}, Anywhere: opens, stale"), Opens(0), scan(ANYWHERE, 0, 100, &[], &journal));
        list.add(&format!("B = {name}, Salvage: opens, stale"), Opens(0), scan(SALVAGE, 0, 100, &[], &journal));
    }
    tail(list, "B = 12,287: opens", Opens(0), &front(DURABLE - 1));
    tail(list, "B = 0: opens", Opens(0), &front(0));
    // The newest slot's B alone counts.
    tail(list, "B past the end in the older slot: opens", Opens(0), &with_slot_field(&front(DURABLE), 0, 3, u64::MAX));
}

/// A header: told by `header`, by a scan of the header alone, which is 7 where it stands, and where it stands of the whole prefix.
fn header_fault(list: &mut List, what: &str, number: u8, journal: &[u8]) {
    list.add(&format!("{what}, header"), Number(number), pieces::header(&journal[..44]));
    let alone = if number == 0 { 7 } else { number };
    tail(list, &format!("{what}, 44 bytes alone: before 7"), Number(alone), &journal[..44]);
    if number == 0 {
        tail(list, &format!("{what}, scan"), Opens(0), journal);
    }
}

fn headers(list: &mut List) {
    let whole = front(DURABLE);
    header_fault(list, "header CRC wrong: 2", 2, &changed(&whole, 43, 1));
    header_fault(list, "a header byte wrong: 2", 2, &changed(&whole, 39, 1));
    header_fault(list, "magic wrong, sealed: 3", 3, &with_header(&whole, 7, b"M"));
    header_fault(list, "version 3, sealed: 4", 4, &with_header(&whole, 8, &[3, 0]));
    header_fault(list, "version 5, sealed: 4", 4, &with_header(&whole, 8, &[5, 0]));
    header_fault(list, "version 260, whose low byte is 4: 4", 4, &with_header(&whole, 8, &[4, 1]));
    header_fault(list, "reserved field not 0: stands", 0, &with_header(&whole, 10, &[0xFF, 0xFF]));
    header_fault(list, "nanoseconds 999,999,999: stands", 0, &with_header(&whole, 20, &999_999_999u32.to_le_bytes()));
    header_fault(list, "nanoseconds 10^9: 5", 5, &with_header(&whole, 20, &1_000_000_000u32.to_le_bytes()));
    header_fault(list, "seconds 2^63-1: stands", 0, &with_header(&whole, 12, &words(&[i64::MAX as u64])));
    header_fault(list, "seconds 2^63: 6", 6, &with_header(&whole, 12, &words(&[1 << 63])));
    // Two faults: the first in order is told.
    let late = with_header(&whole, 12, &[words(&[1 << 63]), 1_000_000_000u32.to_le_bytes().to_vec()].concat());
    header_fault(list, "nanoseconds and seconds wrong: 5", 5, &late);
    header_fault(list, "version and nanoseconds wrong: 4", 4, &with_header(&late, 8, &[0, 0]));
    header_fault(list, "magic and version wrong: 3", 3, &with_header(&late, 0, &[0; 10]));
    header_fault(list, "CRC and magic wrong: 2", 2, &changed(&late, 0, 1));
}

/// Two images: told by `newest`, and by a scan of their prefix.
fn two_slots(list: &mut List, what: &str, number: u8, images: [[u8; 52]; 2]) {
    list.add(&format!("{what}, newest"), Number(number), pieces::newest(&images[0], &images[1]));
    tail(list, &format!("{what}, scan"), if number == 0 { Opens(0) } else { Number(number) }, &prefix(&images));
}

/// An image whose flags are these, sealed.
fn flagged(generation: u64, flags: u64) -> [u8; 52] {
    let mut image = encode_slot(&slot(generation, DURABLE));
    image[40..48].copy_from_slice(&flags.to_le_bytes());
    pieces::reseal(&mut image);
    image
}

fn slots(list: &mut List) {
    let [one, two] = [1, 2].map(|generation| encode_slot(&slot(generation, DURABLE)));
    let torn: [u8; 52] = changed(&two, 51, 1).try_into().expect("52 bytes");
    two_slots(list, "both slots' CRC wrong: 8", 8, [torn, torn]);
    two_slots(list, "both slots zero: 8", 8, [[0; 52]; 2]);
    two_slots(list, "slot 0 alone is sound", 0, [one, torn]);
    two_slots(list, "slot 1 alone is sound", 0, [torn, one]);
    two_slots(list, "slot 0 is newer", 0, [two, one]);
    list.add("slot 1 is newer, newest", Found(1), pieces::newest(&one, &two));
    two_slots(list, "equal slots: 0", 0, [two, two]);
    two_slots(list, "generations that differ above 2^63", 0, [flagged(1 << 63, 0), flagged(1, 0)]);
    let base = slot(2, DURABLE);
    let others = [
        ("sender", Slot { next_sender: 8, ..base }),
        ("target", Slot { next_target: 8, ..base }),
        ("durable end", Slot { durable_end: 0, ..base }),
        ("watermark", Slot { app_watermark: 1, ..base }),
        ("reset", Slot { reset_owed: true, ..base }),
    ];
    for (name, other) in others {
        two_slots(list, &format!("equal generations, {name} changed: 9"), 9, [two, encode_slot(&other)]);
    }
    two_slots(list, "flags 1: reset owed", 0, [flagged(2, 1), one]);
    for flags in [2, 3, 256, 257, 1 << 63] {
        list.add(&format!("flags {flags}: not sound"), Found(0), pieces::slot_image(&flagged(2, flags)));
    }
    two_slots(list, "flags 256 in the newer slot: the other", 0, [one, flagged(2, 256)]);
}

fn images(list: &mut List) {
    let image = encode_slot(&slot(2, DURABLE));
    let long = [&image[..], &[0]].concat();
    list.add("an image of 51 bytes: not sound", Found(0), pieces::slot_image(&image[..51]));
    list.add("an image of 52 bytes", Found(1), pieces::slot_image(&image));
    list.add("an image of 53 bytes: not sound", Found(0), pieces::slot_image(&long));
    list.add("an image of no bytes: not sound", Found(0), pieces::slot_image(&[]));
    list.add("images of 53 and 51 bytes: 8", Number(8), pieces::newest(&long, &image[..51]));
    list.add("an image of 53 bytes beside a sound one", Found(1), pieces::newest(&long, &image));
}

fn fresh(first: u64, reset: u8) -> Vec<u8> {
    [&[SLOTS], &words(&[first, 7, 9, DURABLE, 0])[..], &[reset]].concat()
}

fn fresh_slots(list: &mut List) {
    list.add("fresh slots from 0", Number(0), fresh(0, 1));
    list.add("fresh slots from 2^64-3 stand", Number(0), fresh(u64::MAX - 2, 0));
    list.add("fresh slots from 2^64-2: 15", Number(15), fresh(u64::MAX - 1, 0));
    list.add("fresh slots from 2^64-1: 15", Number(15), fresh(u64::MAX, 0));
}

fn prefix_request(seconds: u64, nanoseconds: u32, room: usize) -> Vec<u8> {
    let images = [1, 2].map(|generation| encode_slot(&slot(generation, DURABLE)));
    let time = [words(&[seconds]), nanoseconds.to_le_bytes().to_vec()].concat();
    [&[PREFIX], &time[..], &words(&[3, 4]), &images.concat(), &run(&vec![0xEE; room])].concat()
}

fn prefixes(list: &mut List) {
    let last = 999_999_999;
    list.add("output of 12,287: 21", Number(21), prefix_request(1, 0, START - 1));
    list.add("output of 12,288, last nanosecond", Number(0), prefix_request(1, last, START));
    list.add("output of 12,289, last second", Number(0), prefix_request(i64::MAX as u64, 0, START + 1));
    list.add("no output: 21", Number(21), prefix_request(1, last, 0));
    list.add("nanoseconds 10^9 to write: 5", Number(5), prefix_request(1, last + 1, 60));
    list.add("seconds 2^63 to write: 6, before 21", Number(6), prefix_request(1 << 63, 0, 60));
    list.add("both to write: 5", Number(5), prefix_request(1 << 63, last + 1, 60));
}

pub(super) fn add(list: &mut List) {
    lengths(list);
    durable_ends(list);
    headers(list);
    slots(list);
    images(list);
    fresh_slots(list);
    prefixes(list);
}
