//! Images that are made from sound ones by deliberate damage, and images of noise.

use crate::blocks::{image_of, mend_checks, start_of_record, Form, BLOCK_BYTES};
use crate::bytes::put_u32;
use crate::generate::frame_damage::{
    damage_check, damage_frame, damage_length, raise_check_by_modulus,
};
use crate::generate::precedences::table_with_circle;
use crate::generate::random::Random;
use crate::generate::record_damage::damage_records;
use crate::generate::tables::{
    any_table, fullest_table, table_of_every_kind, table_of_shape, Shape,
};
use crate::record_faults::MOST_PERIOD;
use crate::records::{patch_records, Record, JITTER_AT};
use crate::table::Table;

/// A table image that is most likely refused.
pub fn damaged_table(random: &mut Random) -> Vec<u8> {
    damaged_image(random, Form::Table)
}

/// An image of this form that is most likely refused, every eighth table for a circle.
pub fn damaged_image(random: &mut Random, form: Form) -> Vec<u8> {
    if form == Form::Table && random.one_in(8) {
        return image_of(form, &records_with_circle(random));
    }
    let record_damages = match random.rank(20) {
        0..=9 => 1,
        10 | 11 => 2,
        _ => return with_other_damage(random, form),
    };
    image_of(form, &damaged_records(random, form, record_damages))
}

/// The records of a table with a circle, in every fourth one with other damage too.
fn records_with_circle(random: &mut Random) -> Vec<Record> {
    let mut records = table_with_circle(random).records();
    if random.one_in(4) {
        damage_records(random, Form::Table, &mut records);
    }
    records
}

/// An image with its frame, checks, length or single bytes damaged.
fn with_other_damage(random: &mut Random, form: Form) -> Vec<u8> {
    let record_damages = random.rank(2);
    let records = damaged_records(random, form, record_damages);
    let mut image = image_of(form, &records);
    match random.rank(16) {
        0..=4 => damage_frame(random, &mut image),
        5 => (0..2).for_each(|_| damage_frame(random, &mut image)),
        6 | 7 => damage_check(random, &mut image),
        8 | 9 => {
            damage_frame(random, &mut image);
            damage_check(random, &mut image);
        }
        10 | 11 => damage_length(random, form, &mut image),
        12 => image = image_of(form.other(), &records),
        13 => match random.one_in(2) {
            true => flip_a_byte(random, &mut image),
            false => change_neighbours_over(random, &mut image),
        },
        14 => {
            flip_a_byte(random, &mut image);
            mend_checks(&mut image);
        }
        _ => return rare_image(random, form),
    }
    image
}

fn damaged_records(random: &mut Random, form: Form, damages: usize) -> Vec<Record> {
    let mut records = records_to_damage(random, form);
    for _ in 0..damages {
        damage_records(random, form, &mut records);
    }
    records
}

/// Sound records of every kind, and now and then as many as there may be.
fn records_to_damage(random: &mut Random, form: Form) -> Vec<Record> {
    let draw = match random.one_in(40) {
        true => fullest_table,
        false => table_of_every_kind,
    };
    match form {
        Form::Table => draw(random).records(),
        Form::Patch => patch_records(&draw(random).records(), &draw(random).records()),
    }
}

/// The records of a sound image of this form, of any shape.
pub fn sound_records(random: &mut Random, form: Form) -> Vec<Record> {
    match form {
        Form::Table => any_table(random).records(),
        Form::Patch => sound_patch(random),
    }
}

/// The records of a sound patch; in every sixth one those that it puts in have a circle, and in every other
/// sixth those that it takes out.
fn sound_patch(random: &mut Random) -> Vec<Record> {
    let draws: [fn(&mut Random) -> Table; 2] = match random.rank(6) {
        0 => [any_table, table_with_circle],
        1 => [table_with_circle, any_table],
        _ => [any_table, any_table],
    };
    let [taken_out, put_in] = draws.map(|draw| draw(random).records());
    patch_records(&taken_out, &put_in)
}

fn flip_a_byte(random: &mut Random, image: &mut [u8]) {
    let at = random.rank(image.len());
    image[at] ^= random.byte_above_zero();
}

/// Changes two neighbouring bytes with different values over with each other; the two letters of a mark are such.
fn change_neighbours_over(random: &mut Random, image: &mut [u8]) {
    let differs = |at: &usize| image[*at] != image[*at + 1];
    let unequal: Vec<usize> = (0..image.len() - 1).filter(differs).collect();
    let at = random.pick(&unequal);
    image.swap(at, at + 1);
}

/// Pure noise, or an image whose check is stored with the modulus added.
fn rare_image(random: &mut Random, form: Form) -> Vec<u8> {
    match random.one_in(2) {
        true => noise(random, form),
        false => with_raised_check(random, form),
    }
}

/// Random bytes of whole blocks, sometimes with right checks or right letters too.
fn noise(random: &mut Random, form: Form) -> Vec<u8> {
    let blocks = random.count(1, 3);
    let mut image = random.bytes(blocks * BLOCK_BYTES);
    if random.one_in(2) {
        image[..2].copy_from_slice(&form.mark());
    }
    if random.one_in(2) {
        mend_checks(&mut image);
    }
    image
}

/// A sound image of one block whose right check is small enough to add the modulus to it.
fn with_raised_check(random: &mut Random, form: Form) -> Vec<u8> {
    let shape = Shape {
        transactions: 1,
        tasks: random.count(6, 14),
        pairs: 0,
    };
    let records = table_of_shape(random, shape).records();
    let jitter_of_last = start_of_record(records.len() - 1) + JITTER_AT;
    let mut image = image_of(form, &records);
    while !raise_check_by_modulus(&mut image) {
        put_u32(&mut image, jitter_of_last, random.time(0, MOST_PERIOD));
    }
    image
}
