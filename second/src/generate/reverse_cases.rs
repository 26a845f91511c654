//! Cases of the reverse call.

use crate::blocks::{image_of, Form, BLOCK_BYTES};
use crate::generate::damaged_images::{damaged_image, sound_records};
use crate::generate::misfits::unused_record;
use crate::generate::patches::{absent_record, breaking_patch, fitting_patch};
use crate::generate::random::Random;
use crate::generate::tables::{any_table, fullest_table, table_of_every_kind};
use crate::records::{patch_records, Record, PAIR, TASK, TRANSACTION};
use crate::stream::parts::MOST_IMAGE;
use crate::stream::{Call, Case};

/// A reverse call, accepted about every second time.
pub fn draw(random: &mut Random) -> Case {
    let patch = match random.one_in(3) {
        true => damaged_image(random, Form::Patch),
        false => image_of(Form::Patch, &draw_records(random)),
    };
    let room_bytes = draw_room_bytes(random, patch.len());
    Case {
        room: random.bytes(room_bytes),
        ..Case::lending(Call::Reverse, patch)
    }
}

/// The records of a patch of any shape, which need not fit a base.
fn draw_records(random: &mut Random) -> Vec<Record> {
    let sort = random.rank(16);
    let base = any_table(random);
    let records = base.records();
    match sort {
        0 => Vec::new(),
        1 => patch_records(&records, &[]),
        2 => patch_records(&[], &records),
        3 => patch_records(&records, &records),
        4 => one_record(random),
        5 => many_records(random),
        6 | 7 => fitting_patch(random, &base),
        8 => absent_record(random, &records),
        9 => breaking_patch(random, &records),
        _ => sound_records(random, Form::Patch),
    }
}

/// One record of any kind, taken out or put in.
fn one_record(random: &mut Random) -> Vec<Record> {
    let kind = random.pick(&[TRANSACTION, TASK, PAIR]);
    let record = unused_record(random, &[], kind);
    match random.one_in(2) {
        true => vec![record],
        false => vec![record.turned()],
    }
}

/// Records of every kind both ways, and in every third patch as many as there may be.
fn many_records(random: &mut Random) -> Vec<Record> {
    let draw = match random.one_in(3) {
        true => fullest_table,
        false => table_of_every_kind,
    };
    patch_records(&draw(random).records(), &draw(random).records())
}

/// Bytes of a room for the reverse of a patch of this length, too few in a quarter of the cases.
fn draw_room_bytes(random: &mut Random, patch_bytes: usize) -> usize {
    let lacking = |bytes: usize| patch_bytes.saturating_sub(bytes);
    let room_bytes = match random.rank(24) {
        0 | 1 => lacking(1),
        2 | 3 => lacking(BLOCK_BYTES / 2),
        4 => lacking(BLOCK_BYTES),
        5 => 0,
        6..=14 => patch_bytes,
        15..=19 => patch_bytes + 1,
        20..=22 => patch_bytes + random.count(2, 2 * BLOCK_BYTES),
        _ => MOST_IMAGE,
    };
    room_bytes.min(MOST_IMAGE)
}
