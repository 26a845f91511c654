//! Ids that calls are asked for, listed or not.

use crate::generate::misfits::unused_number;
use crate::generate::random::Random;
use crate::records::TASK;
use crate::table::Table;

/// The first number past the ids; a cut to 16 bits takes its multiples away.
const PAST_IDS: u32 = 1 << 16;

/// The id of one of the tasks; where there are none, one that is not listed.
pub fn some_id(random: &mut Random, table: &Table) -> u32 {
    match table.tasks.is_empty() {
        true => 1,
        false => u32::from(random.pick(&table.tasks).id),
    }
}

/// A number that is no task's id: 0, one of 16 bits, or one that is some task's id in its low 16 bits.
pub fn unlisted_id(random: &mut Random, table: &Table) -> u32 {
    match random.rank(4) {
        0 => 0,
        1 => u32::from(unused_number(random, &table.records(), TASK)),
        2 => some_id(random, table) + PAST_IDS,
        _ => some_id(random, table) + PAST_IDS * random.time(1, PAST_IDS - 1),
    }
}
