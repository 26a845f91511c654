//! The reason call: an image and two ids are read, and nothing is written.

use crate::preempt::reason_for;
use crate::reasons::Reason;
use crate::table::Table;
use crate::verdict::{records_of_table, Refusal, UNLISTED_ID};

/// Why the task with id `low` may be preempted by the one with id `high`, or why it may not.
pub fn reason_call(image: &[u8], low: u32, high: u32) -> Result<Reason, Refusal> {
    let table = Table::read(&records_of_table(image)?);
    let listed = |id: u32| {
        let place = table.place_of_named(id).ok_or(UNLISTED_ID)?;
        Ok(&table.tasks[place])
    };
    Ok(reason_for(&table, listed(low)?, listed(high)?))
}
