//! The room call: an image, any lent map and a reserve are read, and how much each task may grow is written.

use crate::bounds::Relation;
use crate::preempt::MAP_ROWS;
use crate::table::Table;
use crate::through::Through;
use crate::verdict::{records_of_table, Refusal, TOO_SHORT};

/// Entries that the room for figures must have.
pub const FIGURE_ENTRIES: usize = 64;

/// Writes for each task, by place, the reserve less the weight of the heaviest chain that contains it, and
/// keeps all other entries; a refusal writes nothing.
pub fn room_call(
    image: &[u8],
    map: &[u64],
    reserve: u32,
    figures: &mut [i64],
) -> Result<(), Refusal> {
    let table = Table::read(&records_of_table(image)?);
    if map.len() < MAP_ROWS || figures.len() < FIGURE_ENTRIES {
        return Err(TOO_SHORT);
    }
    let relation = Relation::read(&table.tasks, map);
    let mut through = Through::over(&relation);
    for (place, figure) in figures.iter_mut().enumerate().take(table.tasks.len()) {
        *figure = i64::from(reserve) - through.weight(place) as i64;
    }
    Ok(())
}
