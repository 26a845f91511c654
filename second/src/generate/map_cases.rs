//! Cases of the map call.

use crate::blocks::{image_of, Form};
use crate::generate::damaged_images::damaged_table;
use crate::generate::random::Random;
use crate::generate::rooms::{enough_rows, rows, too_few_rows};
use crate::generate::tables::any_table;
use crate::stream::{Call, Case};

/// A map call, more often accepted than not.
pub fn draw(random: &mut Random) -> Case {
    let image = match random.one_in(4) {
        true => damaged_table(random),
        false => image_of(Form::Table, &any_table(random).records()),
    };
    let row_count = match random.one_in(6) {
        true => too_few_rows(random),
        false => enough_rows(random),
    };
    Case {
        map_written: rows(random, row_count),
        ..Case::lending(Call::Map, image)
    }
}
