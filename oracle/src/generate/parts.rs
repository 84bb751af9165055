//! Requests for the parts of a prefix, and for a CRC-32.

use super::Numbers;
use crate::file::format::{encode_header, fresh_slots, Header};
use crate::operations::{CRC, HEADER, NEWEST, PREFIX, SLOT, SLOTS};
use crate::pieces::{reseal, run};
use std::time::UNIX_EPOCH;

/// Perhaps some damage: a byte changed, or the length.
fn damage(numbers: &mut Numbers, bytes: &mut Vec<u8>) {
    if numbers.one_in(4) {
        let at = numbers.below(bytes.len() as u64) as usize;
        bytes[at] ^= 1 << numbers.below(8);
    }
    if numbers.one_in(8) {
        let length = numbers.below(bytes.len() as u64 + 12) as usize;
        bytes.resize(length, numbers.next() as u8);
    }
}

pub(super) fn crc(numbers: &mut Numbers) -> Vec<u8> {
    let most = numbers.pick(&[4, 40, 400, 4000]);
    let (first, more) = (numbers.below(most), numbers.below(most));
    [vec![CRC], run(&numbers.bytes(first)), run(&numbers.bytes(more))].concat()
}

/// A sound header's bytes, with any reserved field.
fn header_bytes(numbers: &mut Numbers) -> Vec<u8> {
    let header = Header {
        creation_time: UNIX_EPOCH,
        next_sender: numbers.number(),
        next_target: numbers.number(),
    };
    let mut bytes = encode_header(&header).to_vec();
    bytes[10] = numbers.next() as u8;
    bytes[12..20].copy_from_slice(&numbers.number().to_le_bytes());
    let nanoseconds = numbers.pick(&[0, 1, 999_999_999, 1_000_000_000, u32::MAX]);
    bytes[20..24].copy_from_slice(&nanoseconds.to_le_bytes());
    bytes
}

pub(super) fn header(numbers: &mut Numbers) -> Vec<u8> {
    let mut bytes = header_bytes(numbers);
    // One of the tested fields changed, and sealed again.
    if numbers.one_in(3) {
        let at = numbers.below(10) as usize;
        bytes[at] = bytes[at].wrapping_add(numbers.pick(&[1, 128, 255]));
    }
    reseal(&mut bytes);
    damage(numbers, &mut bytes);
    [vec![HEADER], run(&bytes)].concat()
}

/// The image of a slot, of which one field may be changed and sealed again.
fn image(numbers: &mut Numbers, generation: u64, counters: [u64; 4], reset: bool) -> Vec<u8> {
    let [sender, target, end, watermark] = counters;
    // The original makes no fresh slot of the last generations: there the generation is written over another.
    let made = match fresh_slots(generation, sender, target, end, watermark, reset) {
        Ok((images, _)) => images[0],
        Err(_) => {
            let mut image = fresh_slots(0, sender, target, end, watermark, reset).expect("generation 0 stands").0[0];
            image[..8].copy_from_slice(&generation.to_le_bytes());
            image
        }
    };
    let mut bytes = made.to_vec();
    if numbers.one_in(6) {
        let flags = numbers.pick(&[0, 1, 2, 3, 256, 1 << 32, 1 << 63, u64::MAX]);
        bytes[40..48].copy_from_slice(&flags.to_le_bytes());
    }
    reseal(&mut bytes);
    bytes
}

fn any_image(numbers: &mut Numbers) -> Vec<u8> {
    let counters = [numbers.number(), numbers.number(), numbers.number(), numbers.number()];
    let (generation, reset) = (numbers.number(), numbers.one_in(2));
    image(numbers, generation, counters, reset)
}

pub(super) fn slot(numbers: &mut Numbers) -> Vec<u8> {
    let mut bytes = any_image(numbers);
    damage(numbers, &mut bytes);
    [vec![SLOT], run(&bytes)].concat()
}

pub(super) fn newest(numbers: &mut Numbers) -> Vec<u8> {
    let mut zero = any_image(numbers);
    let mut one = match numbers.below(3) {
        // The same slot, or the same with one byte of it changed and sealed again.
        0 => zero.clone(),
        1 => {
            let mut bytes = zero.clone();
            let at = numbers.below(48) as usize;
            bytes[at] ^= 1 << numbers.below(8);
            reseal(&mut bytes);
            bytes
        }
        _ => any_image(numbers),
    };
    damage(numbers, &mut zero);
    damage(numbers, &mut one);
    [vec![NEWEST], run(&zero), run(&one)].concat()
}

pub(super) fn slots(numbers: &mut Numbers) -> Vec<u8> {
    let first = match numbers.below(2) {
        0 => u64::MAX - numbers.below(5),
        _ => numbers.number(),
    };
    let mut request = vec![SLOTS];
    for number in [first, numbers.number(), numbers.number(), numbers.number(), numbers.number()] {
        request.extend_from_slice(&number.to_le_bytes());
    }
    request.push(numbers.below(2) as u8);
    request
}

pub(super) fn prefix(numbers: &mut Numbers) -> Vec<u8> {
    let mut request = vec![PREFIX];
    request.extend_from_slice(&header_bytes(numbers)[12..40]);
    request.extend_from_slice(&any_image(numbers));
    request.extend_from_slice(&any_image(numbers));
    let room = numbers.pick(&[0, 44, 12_287, 12_288, 12_289, 13_000]);
    request.extend(run(&numbers.bytes(room)));
    request
}
