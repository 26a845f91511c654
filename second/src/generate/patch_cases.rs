//! Cases of the patch call: runs of patches, each on what the last accepted one left.

use crate::blocks::{image_of, records_in, Form, BLOCK_BYTES};
use crate::generate::damaged_images::{damaged_image, damaged_table};
use crate::generate::maps::true_map_and_more;
use crate::generate::patches::{absent_record, breaking_patch, fitting_patch, precedence_patch};
use crate::generate::precedences::table_of_paths;
use crate::generate::random::Random;
use crate::generate::rooms::{enough_rows, rows, too_few_rows};
use crate::generate::tables::any_table;
use crate::patch_call::patch_call;
use crate::preempt::{true_map, MAP_ROWS};
use crate::records::Record;
use crate::stream::step::Step;
use crate::stream::{Call, Case};
use crate::table::Table;

/// Patches in a run before a new base is drawn.
const RUN_LENGTH: usize = 6;

/// The base and the map that the next patch of the run meets.
pub struct PatchRun {
    base: Vec<u8>,
    map: Vec<u64>,
    left: usize,
    /// How many in ten of the patches that the base accepts are of precedence pairs.
    precedence_patches: usize,
}

impl PatchRun {
    /// A run that starts from a new table with its true map, mostly.
    pub fn start(random: &mut Random) -> PatchRun {
        let table = match random.one_in(4) {
            true => table_of_paths(random),
            false => any_table(random),
        };
        let map = match random.rank(4) {
            0 | 1 => true_map(&table).to_vec(),
            2 => true_map_and_more(random, &table),
            _ => rows(random, MAP_ROWS),
        };
        PatchRun::from(&table, map, 0)
    }

    /// A run that starts from this table and this map, with so many patches of precedence pairs in ten.
    pub fn from(table: &Table, map: Vec<u64>, precedence_patches: usize) -> PatchRun {
        PatchRun {
            base: image_of(Form::Table, &table.records()),
            map,
            left: RUN_LENGTH,
            precedence_patches,
        }
    }

    /// The next patch call; an accepted one leaves its outcome and map for the one after it.
    pub fn next_case(&mut self, random: &mut Random) -> Case {
        if self.left == 0 {
            *self = PatchRun::start(random);
        }
        self.left -= 1;
        let case = self.draw(random);
        self.carry(case.clone());
        case
    }

    /// The next step of a run whose base and map are what stands; an accepted one leaves its outcome.
    pub fn next_step(&mut self, random: &mut Random) -> Step {
        let drawn = self.draw(random);
        let step = Step {
            map_rows: drawn.map_written.len(),
            room_bytes: drawn.room.len(),
            patch: drawn.patch.clone(),
        };
        self.carry(Case {
            image: self.base.clone(),
            map_read: self.map.clone(),
            ..drawn
        });
        step
    }

    /// Makes the call of the case, and keeps outcome and map where it is accepted.
    fn carry(&mut self, mut case: Case) {
        if let Some(length) = outcome_length(&mut case) {
            self.base = case.room[..length].to_vec();
            self.map = case.map_written[..MAP_ROWS].to_vec();
        }
    }

    fn draw(&self, random: &mut Random) -> Case {
        let base = records_in(&self.base);
        let sort = random.rank(20);
        let patch = match sort {
            0 | 1 => absent_record(random, &base),
            2..=4 => breaking_patch(random, &base),
            _ if random.rank(10) < self.precedence_patches => {
                precedence_patch(random, &Table::read(&base))
            }
            _ => fitting_patch(random, &Table::read(&base)),
        };
        let case = self.roomy(random, &patch);
        let case = match sort {
            5..=7 => damaged(random, case),
            _ => case,
        };
        match sort == 8 || random.one_in(20) {
            true => cramped(random, case),
            false => case,
        }
    }

    /// A case with this patch and maps and rooms that are long enough.
    fn roomy(&self, random: &mut Random, patch: &[Record]) -> Case {
        let mut case = Case {
            patch: image_of(Form::Patch, patch),
            map_read: self.map.clone(),
            ..Case::lending(Call::Patch, self.base.clone())
        };
        let row_count = enough_rows(random);
        case.map_read.resize_with(row_count, || random.bits());
        let row_count = enough_rows(random);
        case.map_written = rows(random, row_count);
        let length = needed_length(&case) + random.pick(&[0, 0, 0, 1, 100, 512]);
        case.room = random.bytes(length);
        case
    }
}

/// The case with a map or the room too short.
fn cramped(random: &mut Random, mut case: Case) -> Case {
    match random.rank(4) {
        0 => case.map_read.truncate(too_few_rows(random)),
        1 => case.map_written.truncate(too_few_rows(random)),
        2 => case.room.truncate(needed_length(&case) - 1),
        _ => case.room.clear(),
    }
    case
}

/// The case with a base or a patch that is no sound image, or both.
fn damaged(random: &mut Random, mut case: Case) -> Case {
    let which = random.rank(5);
    if which <= 2 {
        case.image = damaged_table(random);
    }
    if which >= 2 {
        case.patch = damaged_image(random, Form::Patch);
    }
    case
}

/// Makes the call of the case and says how long the outcome is, if it is accepted.
fn outcome_length(case: &mut Case) -> Option<usize> {
    patch_call(
        &case.image,
        &case.patch,
        &case.map_read,
        &mut case.room,
        &mut case.map_written,
    )
    .ok()
    .map(|patched| patched.length)
}

/// The room that the outcome of the case takes, and one block where it is refused.
pub fn needed_length(case: &Case) -> usize {
    let mut tried = case.clone();
    tried.map_read.resize(MAP_ROWS, 0);
    tried.map_written.resize(MAP_ROWS, 0);
    tried.room.resize(Form::Table.most_bytes(), 0);
    outcome_length(&mut tried).unwrap_or(BLOCK_BYTES)
}
