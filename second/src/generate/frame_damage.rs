//! Deliberate damage to the frame of an image, with and without mended checks.

use crate::blocks::{
    mend_checks, right_check, Form, BLOCK_BYTES, BLOCK_COUNT_AT, BLOCK_NUMBER_AT, CHECK_AT,
    CHECK_MODULUS, FILL_AT, FIRST_PLACE_AT, HEADER_FILL_AT, RECORDS_PER_BLOCK, RECORD_COUNT_AT,
};
use crate::bytes::{put_u16, u16_at};
use crate::generate::random::Random;
use crate::records::RECORD_BYTES;

/// Does one sort of damage to header, record count or zero fill of a block, and mends the checks.
pub fn damage_frame(random: &mut Random, image: &mut [u8]) {
    let blocks = image.len() / BLOCK_BYTES;
    let rank = random.low_or_high_rank(blocks);
    let is_last = rank + 1 == blocks;
    let block = &mut image[rank * BLOCK_BYTES..][..BLOCK_BYTES];
    match random.rank(8) {
        0 => change_byte(random, block, 0, BLOCK_NUMBER_AT),
        1 => change_byte(random, block, BLOCK_NUMBER_AT, BLOCK_COUNT_AT),
        2 => change_byte(random, block, BLOCK_COUNT_AT, RECORD_COUNT_AT),
        3 => change_byte(random, block, HEADER_FILL_AT, FIRST_PLACE_AT),
        4 => change_byte(random, block, FILL_AT, CHECK_AT),
        5 => fill_unused_place(random, block),
        _ => change_count(random, block, is_last),
    }
    mend_checks(image);
}

/// Changes one of the bytes from `from` up to but without `to`.
fn change_byte(random: &mut Random, block: &mut [u8], from: usize, to: usize) {
    let at = random.count(from, to - 1);
    block[at] ^= match random.one_in(2) {
        true => 1,
        false => random.byte_above_zero(),
    };
}

/// Sets a byte of a place that holds no record, or of the fill where every place holds one.
fn fill_unused_place(random: &mut Random, block: &mut [u8]) {
    let first_unused = end_of_records(block);
    let at = match random.rank(3) {
        0 => first_unused,
        _ => random.count(first_unused, FILL_AT),
    };
    block[at] = random.byte_above_zero();
}

/// Writes another number of records, one that is wrong in itself or one that leaves records over.
fn change_count(random: &mut Random, block: &mut [u8], is_last: bool) {
    let right = block[RECORD_COUNT_AT];
    let (one_less, one_more) = (right.saturating_sub(1), right.saturating_add(1));
    let empties_place = is_last && random.one_in(3);
    block[RECORD_COUNT_AT] = match empties_place {
        true => 0,
        false => random.pick(&[0, 14, 16, 255, one_less, one_more]),
    };
    if empties_place || random.one_in(2) {
        let end = end_of_records(block);
        block[end..FILL_AT].fill(0);
    }
}

/// Where the records of a block end by its count, which may be damaged already.
fn end_of_records(block: &[u8]) -> usize {
    let records = usize::from(block[RECORD_COUNT_AT]).min(RECORDS_PER_BLOCK);
    FIRST_PLACE_AT + RECORD_BYTES * records
}

/// Makes the check of one block wrong.
pub fn damage_check(random: &mut Random, image: &mut [u8]) {
    let blocks = image.len() / BLOCK_BYTES;
    let rank = random.low_or_high_rank(blocks);
    let block = &mut image[rank * BLOCK_BYTES..][..BLOCK_BYTES];
    let wrong = match random.one_in(2) {
        true => u16_at(block, CHECK_AT) ^ 1,
        false => u16_at(block, CHECK_AT).wrapping_add(random.short(1, u16::MAX)),
    };
    put_u16(block, CHECK_AT, wrong);
}

/// Stores the modulus above the right check where that fits 16 bits, and says whether it did.
pub fn raise_check_by_modulus(image: &mut [u8]) -> bool {
    let raised = u32::from(right_check(image)) + CHECK_MODULUS;
    match u16::try_from(raised) {
        Ok(raised) => {
            put_u16(image, CHECK_AT, raised);
            true
        }
        Err(_) => false,
    }
}

/// Gives the image a length that is refused whatever it holds.
pub fn damage_length(random: &mut Random, form: Form, image: &mut Vec<u8>) {
    let too_long = (form.most_blocks() + 1) * BLOCK_BYTES;
    let length = match random.rank(8) {
        0 => 0,
        1 => 1,
        2 => 511,
        3 => 513,
        4 => image.len() - 1,
        5 => image.len() + 1,
        6 => return lengthen(image, too_long),
        _ => image.len() + 256,
    };
    image.resize(length, 0);
}

/// Repeats the image's first block until the image has this length.
fn lengthen(image: &mut Vec<u8>, length: usize) {
    let first: Vec<u8> = image[..BLOCK_BYTES].to_vec();
    *image = first.iter().copied().cycle().take(length).collect();
    for (rank, block) in image.chunks_exact_mut(BLOCK_BYTES).enumerate() {
        block[BLOCK_NUMBER_AT] = rank as u8;
        block[BLOCK_COUNT_AT] = (length / BLOCK_BYTES) as u8;
    }
    mend_checks(image);
}
