//! Cases of a run of patches, each on what the last accepted one left.

use crate::blocks::{image_of, Form};
use crate::generate::patch_cases::PatchRun;
use crate::generate::precedences::table_of_paths;
use crate::generate::random::Random;
use crate::generate::tables::any_table;
use crate::preempt::true_map;
use crate::stream::{Call, Case};

/// Patches in a run.
const RUN_LENGTH: usize = 20;

/// A run on a table with its true map, its patches more often accepted than not; in three of four runs most
/// of the accepted ones change precedence pairs.
pub fn draw(random: &mut Random) -> Case {
    let (table, precedence_patches) = match random.one_in(4) {
        true => (any_table(random), 0),
        false => (table_of_paths(random), 8),
    };
    let map = true_map(&table).to_vec();
    let mut run = PatchRun::from(&table, map.clone(), precedence_patches);
    Case {
        map_read: map,
        steps: (0..RUN_LENGTH).map(|_| run.next_step(random)).collect(),
        ..Case::lending(Call::Run, image_of(Form::Table, &table.records()))
    }
}
