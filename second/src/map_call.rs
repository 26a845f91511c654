//! The map call: an image is read and its map is written.

use crate::preempt::{true_map, MAP_ROWS};
use crate::table::Table;
use crate::verdict::{records_of_table, Refusal, TOO_SHORT};

/// Writes the 64 rows of the image's map and keeps further rows; a refusal writes nothing.
pub fn map_call(image: &[u8], map: &mut [u64]) -> Result<(), Refusal> {
    let records = records_of_table(image)?;
    let rows = map.get_mut(..MAP_ROWS).ok_or(TOO_SHORT)?;
    rows.copy_from_slice(&true_map(&Table::read(&records)));
    Ok(())
}
