//! Whether an image is accepted, and the number and place of its refusal if not.

use crate::blocks::{check_is_right, frame_is_right, records_in, Form, BLOCK_BYTES};
use crate::precedence::Paths;
use crate::record_faults::{has_stray_byte, is_out_of_range};
use crate::records::{Pair, Record, Task, PAIR, PUT_IN, TAKEN_OUT, TASK, TRANSACTION};
use crate::table::Table;

/// Why a call is refused, and where its fault lies.
#[derive(Clone, Copy, PartialEq, Eq, Debug)]
pub struct Refusal {
    pub number: u32,
    pub place: usize,
}

/// A refusal at place 0: the outcome of a patch is no table.
pub const BAD_OUTCOME: Refusal = Refusal::new(10, 0);
/// A refusal at place 0: a lent map or room is too short.
pub const TOO_SHORT: Refusal = Refusal::new(11, 0);
/// A refusal at place 0: more chains are opened than the limit allows.
pub const PAST_LIMIT: Refusal = Refusal::new(13, 0);
/// A refusal at place 0: an id that is asked for is not listed.
pub const UNLISTED_ID: Refusal = Refusal::new(15, 0);

impl Refusal {
    /// The refusal of this number at this place.
    pub const fn new(number: u32, place: usize) -> Refusal {
        Refusal { number, place }
    }
}

/// The most pairs that a table may have.
pub const MOST_PAIRS: usize = 256;

/// The most transactions, tasks and pairs that a table may have.
pub const MOST_OF_KIND: [(u8, usize); 3] = [(TRANSACTION, 16), (TASK, 64), (PAIR, MOST_PAIRS)];

/// What is added to refusals 1 to 7 when they are given for a patch.
const PATCH_NUMBERS: u32 = 20;

/// The records of a table image, or its refusal 1 to 8 or 14.
pub fn records_of_table(image: &[u8]) -> Result<Vec<Record>, Refusal> {
    let records = well_formed_records(image, Form::Table)?;
    refuse_unlisted(&records)?;
    refuse_circles(&records)?;
    Ok(records)
}

/// The records of a patch image, or its refusal 21 to 27.
pub fn records_of_patch(image: &[u8]) -> Result<Vec<Record>, Refusal> {
    well_formed_records(image, Form::Patch)
        .map_err(|refusal| Refusal::new(refusal.number + PATCH_NUMBERS, refusal.place))
}

/// The records of an image after checks 1 to 7, each over the whole image before the next.
fn well_formed_records(image: &[u8], form: Form) -> Result<Vec<Record>, Refusal> {
    let blocks = image.len() / BLOCK_BYTES;
    if image.is_empty() || !image.len().is_multiple_of(BLOCK_BYTES) || blocks > form.most_blocks() {
        return Err(Refusal::new(1, 0));
    }
    refuse_first(2, image.chunks_exact(BLOCK_BYTES), |_, block| {
        !check_is_right(block)
    })?;
    refuse_first(3, image.chunks_exact(BLOCK_BYTES), |rank, block| {
        !frame_is_right(block, form, rank, blocks)
    })?;
    let records = records_in(image);
    refuse_first(4, records.iter(), |_, record| has_stray_byte(record, form))?;
    refuse_disorder(&records)?;
    refuse_first(6, records.iter(), |_, record| is_out_of_range(record))?;
    refuse_too_many(&records)?;
    Ok(records)
}

/// Refuses with `number` at the first item that has the fault.
fn refuse_first<Item>(
    number: u32,
    mut items: impl Iterator<Item = Item>,
    mut fault: impl FnMut(usize, Item) -> bool,
) -> Result<(), Refusal> {
    let mut rank = 0;
    let found = items.any(|item| {
        rank += 1;
        fault(rank - 1, item)
    });
    match found {
        true => Err(Refusal::new(number, rank - 1)),
        false => Ok(()),
    }
}

/// Refuses 5 at the first record that is not after the one before it.
pub fn refuse_disorder(records: &[Record]) -> Result<(), Refusal> {
    refuse_first(5, records.iter(), |rank, record| {
        rank > 0 && records[rank - 1].order() >= record.order()
    })
}

/// Refuses 7 at the first kind of which too many are taken out or put in; a table counts as one way.
pub fn refuse_too_many(records: &[Record]) -> Result<(), Refusal> {
    for (kind, most) in MOST_OF_KIND {
        let too_many = |way: u8| {
            let counted = |record: &&Record| record.kind() == kind && record.way() == way;
            records.iter().filter(counted).count() > most
        };
        if too_many(TAKEN_OUT) || too_many(PUT_IN) {
            return Err(Refusal::new(7, usize::from(kind)));
        }
    }
    Ok(())
}

/// Refuses 8 at the first record that names what is not listed or whose offset is not below the period.
pub fn refuse_unlisted(records: &[Record]) -> Result<(), Refusal> {
    let table = Table::read(records);
    refuse_first(8, records.iter(), |_, record| match record.kind() {
        TASK => !task_fits(&table, &Task::read(record)),
        PAIR => !pair_fits(&table, &Pair::read(record)),
        _ => false,
    })
}

fn task_fits(table: &Table, task: &Task) -> bool {
    table
        .period_of(task.transaction)
        .is_some_and(|period| task.offset < period)
}

fn pair_fits(table: &Table, pair: &Pair) -> bool {
    table.place_of(pair.first).is_some() && table.place_of(pair.second).is_some()
}

/// Refuses 14 at the lowest id of a task that comes before itself.
pub fn refuse_circles(records: &[Record]) -> Result<(), Refusal> {
    let paths = Paths::along(&Table::read(records).pairs);
    let lowest = paths.circular().next();
    match lowest {
        None => Ok(()),
        Some(id) => Err(Refusal::new(14, usize::from(id))),
    }
}
