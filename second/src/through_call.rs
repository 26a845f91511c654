//! The chain call for one task: an image, any lent map and an id are read, and the ids of a chain are written.

use crate::bound_call::ID_ENTRIES;
use crate::bounds::Relation;
use crate::preempt::MAP_ROWS;
use crate::table::Table;
use crate::through::Through;
use crate::verdict::{records_of_table, Refusal, TOO_SHORT, UNLISTED_ID};

/// What an accepted call says of the heaviest chain that contains the named task.
#[derive(Clone, Copy, PartialEq, Eq, Debug, Default)]
pub struct Shown {
    pub weight: u64,
    /// How many ids the chain has.
    pub length: usize,
}

/// The heaviest chain that contains the task with this id, its ids written to the room; a refusal writes nothing.
pub fn through_call(image: &[u8], map: &[u64], id: u32, ids: &mut [u16]) -> Result<Shown, Refusal> {
    let table = Table::read(&records_of_table(image)?);
    let place = table.place_of_named(id).ok_or(UNLISTED_ID)?;
    if map.len() < MAP_ROWS || ids.len() < ID_ENTRIES {
        return Err(TOO_SHORT);
    }
    let relation = Relation::read(&table.tasks, map);
    let chain = Through::over(&relation).chain(place);
    for (entry, place) in ids.iter_mut().zip(&chain) {
        *entry = table.tasks[*place].id;
    }
    Ok(Shown {
        weight: relation.weight_of(&chain),
        length: chain.len(),
    })
}
