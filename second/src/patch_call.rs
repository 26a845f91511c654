//! The patch call: base, patch and base map are read, the outcome and its map are written.

use std::collections::BTreeSet;

use crate::blocks::{image_of, start_of_record, Form};
use crate::precedence::Paths;
use crate::preempt::{is_set, map_from, Decider, Map, MAP_ROWS};
use crate::records::{
    Pair, PairSort, Record, Task, PAIR, PUT_IN, RECORD_BYTES, TAKEN_OUT, TASK, TRANSACTION,
};
use crate::table::Table;
use crate::verdict::{
    records_of_patch, records_of_table, refuse_circles, refuse_disorder, refuse_too_many,
    refuse_unlisted, Refusal, BAD_OUTCOME, TOO_SHORT,
};

/// The numbers of an accepted patch call.
#[derive(Clone, Copy, PartialEq, Eq, Debug, Default)]
pub struct Patched {
    /// How many tasks of the outcome are touched.
    pub touched: usize,
    /// Bytes of the outcome's image.
    pub length: usize,
}

/// A refused patch call, with the offending record as a part of the patch.
#[derive(Clone, Copy, PartialEq, Eq, Debug)]
pub struct PatchRefusal<'patch> {
    pub refusal: Refusal,
    /// Empty but for refusal 9.
    pub offending: &'patch [u8],
}

impl From<Refusal> for PatchRefusal<'_> {
    fn from(refusal: Refusal) -> Self {
        PatchRefusal {
            refusal,
            offending: &[],
        }
    }
}

/// Writes the outcome of the patch and its map; a refusal writes nothing.
pub fn patch_call<'patch>(
    base: &[u8],
    patch: &'patch [u8],
    base_map: &[u64],
    room: &mut [u8],
    new_map: &mut [u64],
) -> Result<Patched, PatchRefusal<'patch>> {
    let base_records = records_of_table(base)?;
    let patch_records = records_of_patch(patch)?;
    refuse_absent(&base_records, &patch_records, patch)?;
    let records = outcome(&base_records, &patch_records)?;
    let image = image_of(Form::Table, &records);
    let too_short = base_map.len() < MAP_ROWS || new_map.len() < MAP_ROWS;
    if too_short || room.len() < image.len() {
        return Err(TOO_SHORT.into());
    }
    let (old, new) = (Table::read(&base_records), Table::read(&records));
    let touched = touched_places(&old, &new, &patch_records);
    room[..image.len()].copy_from_slice(&image);
    new_map[..MAP_ROWS].copy_from_slice(&carried_map(&old, base_map, &new, &touched));
    Ok(Patched {
        touched: touched.len(),
        length: image.len(),
    })
}

/// Refuses 9 at the first record to take out that is not in the base, byte for byte.
fn refuse_absent<'patch>(
    base: &[Record],
    patch: &[Record],
    patch_image: &'patch [u8],
) -> Result<(), PatchRefusal<'patch>> {
    let present: BTreeSet<&Record> = base.iter().collect();
    let absent = |record: &Record| record.way() == TAKEN_OUT && !present.contains(record);
    match patch.iter().position(absent) {
        None => Ok(()),
        Some(place) => Err(PatchRefusal {
            refusal: Refusal::new(9, place),
            offending: &patch_image[start_of_record(place)..][..RECORD_BYTES],
        }),
    }
}

/// The records of the outcome, or refusal 10.
fn outcome(base: &[Record], patch: &[Record]) -> Result<Vec<Record>, Refusal> {
    let records = patched(base, patch);
    refuse_disorder(&records)
        .and_then(|()| refuse_too_many(&records))
        .and_then(|()| refuse_unlisted(&records))
        .and_then(|()| refuse_circles(&records))
        .map_err(|_| BAD_OUTCOME)?;
    Ok(records)
}

/// The base's records without those taken out and with those put in, in table order.
pub fn patched(base: &[Record], patch: &[Record]) -> Vec<Record> {
    let (put_in, taken_out): (Vec<Record>, Vec<Record>) =
        patch.iter().partition(|record| record.way() == PUT_IN);
    let stays = |record: &&Record| !taken_out.contains(record);
    let mut records: Vec<Record> = base.iter().filter(stays).copied().collect();
    records.extend(put_in.iter().map(|record| record.with_way(0)));
    records.sort_by_key(Record::key);
    records
}

/// The places of the outcome's tasks that the patch touches.
fn touched_places(old: &Table, new: &Table, patch: &[Record]) -> BTreeSet<usize> {
    let joined = joined_to_precedences(&[old, new], patch);
    let is_touched =
        |task: &Task| joined.contains(&task.id) || patch.iter().any(|record| touches(record, task));
    (0..new.tasks.len())
        .filter(|place| is_touched(&new.tasks[*place]))
        .collect()
}

/// Whether a patch record is the task's record, names it in a pair, or is its transaction's record.
fn touches(record: &Record, task: &Task) -> bool {
    match record.kind() {
        TRANSACTION => record.number() == task.transaction,
        TASK => record.number() == task.id,
        PAIR => Pair::read(record).names(task.id),
        _ => false,
    }
}

/// The tasks that in one of these tables come before or after a task that a precedence pair of the patch names.
fn joined_to_precedences(tables: &[&Table], patch: &[Record]) -> BTreeSet<u16> {
    let pairs = patch.iter().filter(|record| record.kind() == PAIR);
    let precedences = pairs
        .map(Pair::read)
        .filter(|pair| pair.sort == PairSort::Precedence);
    let named: BTreeSet<u16> = precedences
        .flat_map(|pair| [pair.first, pair.second])
        .collect();
    let paths = tables.iter().map(|table| Paths::along(&table.pairs));
    let joined = |paths: Paths| named.iter().flat_map(move |id| paths.joined_to(*id));
    paths.flat_map(joined).collect()
}

/// The new map: cells between untouched tasks come from the base map, all others are decided anew.
fn carried_map(old: &Table, old_map: &[u64], new: &Table, touched: &BTreeSet<usize>) -> Map {
    let old_places: Vec<Option<usize>> = (0..new.tasks.len())
        .map(|place| match touched.contains(&place) {
            true => None,
            false => old.place_of(new.tasks[place].id),
        })
        .collect();
    let decider = Decider::of(new);
    map_from(new.tasks.len(), |row, cell| {
        match (old_places[row], old_places[cell]) {
            (Some(old_row), Some(old_cell)) => is_set(old_map, old_row, old_cell),
            _ => decider.sets(row, cell),
        }
    })
}
