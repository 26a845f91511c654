//! Cases of a round trip: a patch, its reverse, and the patch once more.

use crate::blocks::{image_of, Form};
use crate::generate::damaged_images::damaged_image;
use crate::generate::patch_cases::needed_length;
use crate::generate::patches::{
    absent_record, breaking_patch, circle_patch, fitting_patch, precedence_patch,
};
use crate::generate::precedences::table_of_paths;
use crate::generate::random::Random;
use crate::generate::rooms::{enough_rows, too_few_rows};
use crate::generate::tables::{any_table, fullest_table, table_of_every_kind};
use crate::preempt::true_map;
use crate::records::patch_records;
use crate::reverse_call::reverse_of;
use crate::stream::step::{LENT_BYTE, LENT_ROW};
use crate::stream::{Call, Case};
use crate::table::Table;

/// A round trip from a table with its true map, more often accepted all the way than not.
pub fn draw(random: &mut Random) -> Case {
    let (base, patch) = draw_base_and_patch(random);
    let mut case = Case {
        patch,
        map_read: true_map(&base).to_vec(),
        ..Case::lending(Call::RoundTrip, image_of(Form::Table, &base.records()))
    };
    let row_count = enough_rows(random);
    case.map_read.resize_with(row_count, || random.bits());
    let row_count = match random.one_in(16) {
        true => too_few_rows(random),
        false => enough_rows(random),
    };
    case.map_written = vec![LENT_ROW; row_count];
    case.room = vec![LENT_BYTE; draw_room_bytes(random, &case)];
    case
}

/// A table, and the image of a patch that mostly fits it.
fn draw_base_and_patch(random: &mut Random) -> (Table, Vec<u8>) {
    let sort = random.rank(40);
    let base = match sort {
        0 | 1 => Table::default(),
        2 | 3 => fullest_table(random),
        4 | 5 => table_of_every_kind(random),
        29..=39 => table_of_paths(random),
        _ => any_table(random),
    };
    let records = base.records();
    let patch = match sort {
        1 => patch_records(&[], &any_table(random).records()),
        2 => patch_records(&records, &fullest_table(random).records()),
        4 | 5 => patch_records(&records, &[]),
        6 => Vec::new(),
        7 => absent_record(random, &records),
        8 => breaking_patch(random, &records),
        9 => reverse_of(&fitting_patch(random, &base)),
        10 => patch_records(&[], &records),
        11..=14 => return (base, damaged_image(random, Form::Patch)),
        29 | 30 => circle_patch(random, &records),
        31..=39 => precedence_patch(random, &base),
        _ => fitting_patch(random, &base),
    };
    (base, image_of(Form::Patch, &patch))
}

/// Bytes of the room for each outcome: mostly enough both ways, else too few on the way back, or both ways.
fn draw_room_bytes(random: &mut Random, case: &Case) -> usize {
    let (there, back) = (needed_length(case), case.image.len());
    let longest = there.max(back);
    match random.rank(20) {
        0 => there - 1,
        1 => back - 1,
        2..=5 => there,
        6..=9 => longest,
        _ => longest + random.pick(&[0, 1, 100, 512]),
    }
}
