//! The fronts of the scans' journals: header, slots and filler, and what can be wrong with each.

use super::records::flip;
use super::Numbers;
use crate::file::format::{encode_header, encode_slot, Header, Slot, SlotImages, DATA_START, SLOT_LEN, SLOT_OFFSETS};
use crate::pieces::reseal;
use std::time::UNIX_EPOCH;

/// A sound header with any reserved field, its CRC-32 right.
fn header(numbers: &mut Numbers) -> Vec<u8> {
    let (next_sender, next_target) = (numbers.number(), numbers.number());
    let mut bytes = encode_header(&Header { creation_time: UNIX_EPOCH, next_sender, next_target }).to_vec();
    let seconds = numbers.pick(&[0, 1, 1_700_000_000, i64::MAX as u64]);
    let nanoseconds = numbers.pick(&[0u32, 1, 999_999_999]);
    bytes[10] = numbers.next() as u8;
    bytes[12..20].copy_from_slice(&seconds.to_le_bytes());
    bytes[20..24].copy_from_slice(&nanoseconds.to_le_bytes());
    reseal(&mut bytes);
    bytes
}

/// A fault in a header: one that the CRC-32 shows, or one or two in the fields, sealed again.
fn spoil_header(numbers: &mut Numbers, bytes: &mut [u8]) {
    if numbers.one_in(4) {
        return flip(numbers, bytes);
    }
    for _ in 0..numbers.pick(&[1, 1, 2]) {
        match numbers.below(4) {
            0 => flip(numbers, &mut bytes[..8]),
            1 => bytes[8..10].copy_from_slice(&numbers.pick(&[0u16, 1, 3, 5, 0x0104, 0x0400]).to_le_bytes()),
            2 => bytes[20..24].copy_from_slice(&numbers.pick(&[1_000_000_000, u32::MAX]).to_le_bytes()),
            _ => bytes[12..20].copy_from_slice(&numbers.pick(&[1 << 63, u64::MAX]).to_le_bytes()),
        }
    }
    reseal(bytes);
}

/// A fault in a slot's image: damage, flags that aren't known, or another's bytes.
fn spoil_image(numbers: &mut Numbers, image: &mut [u8; SLOT_LEN]) {
    match numbers.below(4) {
        0 => flip(numbers, image),
        1 => {
            let flags = numbers.pick(&[2, 3, 256, 257, 1 << 32, 1 << 63, u64::MAX]);
            image[40..48].copy_from_slice(&flags.to_le_bytes());
            reseal(image);
        }
        2 => *image = [0; SLOT_LEN],
        _ => image.copy_from_slice(&numbers.bytes(SLOT_LEN as u64)),
    }
}

/// The other slot: older, the same, or of the same generation with one field changed.
fn other_slot(numbers: &mut Numbers, newest: &Slot) -> Slot {
    let mut slot = *newest;
    match numbers.below(20) {
        0 => {}
        1 => match numbers.below(5) {
            0 => slot.next_sender ^= 1,
            1 => slot.next_target ^= 1 << 63,
            2 => slot.durable_end ^= 1,
            3 => slot.app_watermark ^= 1 << 32,
            _ => slot.reset_owed ^= true,
        },
        2..=9 => slot.generation = slot.generation.saturating_sub(1),
        _ => {
            slot.generation = slot.generation.saturating_sub(1 + numbers.below(300));
            (slot.next_sender, slot.next_target) = (numbers.number(), numbers.number());
            (slot.durable_end, slot.app_watermark) = (numbers.number(), numbers.number());
            slot.reset_owed = numbers.one_in(2);
        }
    }
    slot
}

/// A slot with this generation and durable end.
fn slot(numbers: &mut Numbers, generation: u64, durable_end: u64) -> Slot {
    Slot {
        generation,
        next_sender: numbers.number(),
        next_target: numbers.number(),
        durable_end,
        app_watermark: numbers.number(),
        reset_owed: numbers.one_in(2),
    }
}

/// The images as they are, or swapped.
fn in_either_order(numbers: &mut Numbers, mut images: SlotImages) -> SlotImages {
    if numbers.one_in(2) {
        images.swap(0, 1);
    }
    images
}

/// Both slots' images, in either order. Mostly the newest sound one has the generation and the durable end.
fn images(numbers: &mut Numbers, generation: u64, durable_end: u64) -> SlotImages {
    let newest = slot(numbers, generation, durable_end);
    let mut other = other_slot(numbers, &newest);
    let wrong = numbers.below(24);
    // Not sound, and it would be the newest.
    if wrong == 0 {
        other.generation = generation.saturating_add(1);
    }
    let mut images = [encode_slot(&newest), encode_slot(&other)];
    if matches!(wrong, 0..=2) {
        spoil_image(numbers, &mut images[1]);
    }
    if matches!(wrong, 2..=3) {
        spoil_image(numbers, &mut images[0]);
    }
    in_either_order(numbers, images)
}

/// Both slots' images, in either order: the newest sound one has the generation and the durable end, and the other is the same, older or
/// not sound.
fn sound_images(numbers: &mut Numbers, generation: u64, durable_end: u64) -> SlotImages {
    let newest = slot(numbers, generation, durable_end);
    let mut other = other_slot(numbers, &newest);
    if other.generation == generation {
        other = newest;
    }
    let mut images = [encode_slot(&newest), encode_slot(&other)];
    if numbers.one_in(8) {
        spoil_image(numbers, &mut images[1]);
    }
    in_either_order(numbers, images)
}

/// What stands around header and slots: zeros or anything.
fn filler(numbers: &mut Numbers) -> Vec<u8> {
    match numbers.below(10) {
        0 => numbers.bytes(DATA_START),
        _ => vec![0; DATA_START as usize],
    }
}

/// Header and slots, put into the filler.
fn filled(mut bytes: Vec<u8>, header: &[u8], images: &SlotImages) -> Vec<u8> {
    bytes[..header.len()].copy_from_slice(header);
    for (image, at) in images.iter().zip(SLOT_OFFSETS) {
        bytes[at as usize..][..SLOT_LEN].copy_from_slice(image);
    }
    bytes
}

/// The prefix of a journal.
pub(super) fn prefix(numbers: &mut Numbers, generation: u64, durable_end: u64) -> Vec<u8> {
    let bytes = filler(numbers);
    let mut header = header(numbers);
    if numbers.one_in(20) {
        spoil_header(numbers, &mut header);
    }
    filled(bytes, &header, &images(numbers, generation, durable_end))
}

/// The prefix of a journal that was written and not damaged.
pub(super) fn sound_prefix(numbers: &mut Numbers, generation: u64, durable_end: u64) -> Vec<u8> {
    let (bytes, header) = (filler(numbers), header(numbers));
    filled(bytes, &header, &sound_images(numbers, generation, durable_end))
}
