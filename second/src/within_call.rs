//! The bound call with a limit: an image, any lent map and how many chains may be opened are read, and the chain's ids
//! are written.

use crate::bound_call::{bound_call, Bounds, ID_ENTRIES};
use crate::bounds::Relation;
use crate::opening::open_chains;
use crate::preempt::MAP_ROWS;
use crate::table::Table;
use crate::verdict::{records_of_table, Refusal, PAST_LIMIT, TOO_SHORT};

/// The numbers of an accepted call.
#[derive(Clone, Copy, PartialEq, Eq, Debug, Default)]
pub struct Within {
    pub bounds: Bounds,
    /// How many chains the rule opens.
    pub opened: u32,
}

/// A refused call, for 13 with the bounds that need no search.
#[derive(Clone, Copy, PartialEq, Eq, Debug)]
pub struct LimitRefusal {
    pub refusal: Refusal,
    /// Path and transactions for refusal 13; all else is 0.
    pub bounds: Bounds,
}

impl From<Refusal> for LimitRefusal {
    fn from(refusal: Refusal) -> Self {
        LimitRefusal {
            refusal,
            bounds: Bounds::default(),
        }
    }
}

/// What the bound call gives, and how many chains the rule opens, if it opens no more than the limit; a refusal writes
/// nothing.
pub fn within_call(
    image: &[u8],
    map: &[u64],
    limit: u32,
    ids: &mut [u16],
) -> Result<Within, LimitRefusal> {
    let table = Table::read(&records_of_table(image)?);
    if map.len() < MAP_ROWS || ids.len() < ID_ENTRIES {
        return Err(TOO_SHORT.into());
    }
    let relation = Relation::read(&table.tasks, map);
    let opened = open_chains(&relation, limit).ok_or_else(|| LimitRefusal {
        refusal: PAST_LIMIT,
        bounds: Bounds {
            path: relation.path(),
            transactions: relation.transactions(&table.tasks),
            ..Bounds::default()
        },
    })?;
    Ok(Within {
        bounds: bound_call(image, map, ids)?,
        opened: opened.count,
    })
}
