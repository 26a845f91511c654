//! The bound call: an image and any lent map are read, and the chain's ids are written.

use crate::bounds::{levels, Relation};
use crate::chain::heaviest_chain;
use crate::preempt::MAP_ROWS;
use crate::table::Table;
use crate::verdict::{records_of_table, Refusal, TOO_SHORT};

/// Entries that the room for ids must have.
pub const ID_ENTRIES: usize = 64;

/// The numbers of an accepted bound call.
#[derive(Clone, Copy, PartialEq, Eq, Debug, Default)]
pub struct Bounds {
    pub tasks: usize,
    pub chain: u64,
    pub path: u64,
    pub transactions: u64,
    pub levels: u64,
    /// How many ids the chain has.
    pub length: usize,
}

/// The four bounds, with the chain's ids written to the room; a refusal writes nothing.
pub fn bound_call(image: &[u8], map: &[u64], ids: &mut [u16]) -> Result<Bounds, Refusal> {
    let table = Table::read(&records_of_table(image)?);
    if map.len() < MAP_ROWS || ids.len() < ID_ENTRIES {
        return Err(TOO_SHORT);
    }
    let relation = Relation::read(&table.tasks, map);
    let chain = heaviest_chain(&relation);
    let bounds = Bounds {
        tasks: table.tasks.len(),
        chain: relation.weight_of(&chain),
        path: relation.path(),
        transactions: relation.transactions(&table.tasks),
        levels: levels(&table.tasks),
        length: chain.len(),
    };
    for (entry, place) in ids.iter_mut().zip(&chain) {
        *entry = table.tasks[*place].id;
    }
    Ok(bounds)
}
