//! Cases of the bound call.

use crate::blocks::{image_of, Form};
use crate::generate::damaged_images::damaged_table;
use crate::generate::maps::map_for;
use crate::generate::random::Random;
use crate::generate::rooms::{enough_rows, entries, too_few_rows};
use crate::generate::tables::any_table;
use crate::stream::{Call, Case};

/// A bound call, more often accepted than not.
pub fn draw(random: &mut Random) -> Case {
    let table = any_table(random);
    let (row_count, entry_count) = match random.rank(12) {
        0 => (too_few_rows(random), enough_rows(random)),
        1 => (enough_rows(random), too_few_rows(random)),
        _ => (enough_rows(random), enough_rows(random)),
    };
    let image = match random.one_in(8) {
        true => damaged_table(random),
        false => image_of(Form::Table, &table.records()),
    };
    Case {
        map_read: map_for(random, &table, row_count),
        ids: entries(random, entry_count),
        ..Case::lending(Call::Bound, image)
    }
}
