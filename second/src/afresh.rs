//! A run of patches worked out afresh: the first records, less what each accepted patch took out,
//! plus what it put in, in turn, with the true map of those records. No patch call is made here.

use std::collections::BTreeSet;

use crate::blocks::{image_of, start_of_record, Form};
use crate::patch_call::{PatchRefusal, Patched};
use crate::preempt::{true_map, MAP_ROWS};
use crate::records::{
    Record, PAIR, PAIR_SORT_AT, PUT_IN, RECORD_BYTES, TAKEN_OUT, TASK, TRANSACTION,
};
use crate::stream::step::{Step, LENT_ROW};
use crate::table::Table;
use crate::verdict::{records_of_patch, records_of_table, Refusal, BAD_OUTCOME, TOO_SHORT};

/// A table's image with its map, as a run leaves them for its next step.
#[derive(Clone, PartialEq, Eq, Debug)]
pub struct Standing {
    pub image: Vec<u8>,
    pub map: Vec<u64>,
}

/// The records that a run has come to.
pub struct Afresh {
    records: Vec<Record>,
    /// The rows of the map beyond the 64, as they were lent.
    further_rows: Vec<u64>,
}

impl Afresh {
    /// The start of a run, if this is a valid table and the map is its true one.
    pub fn start(image: &[u8], map: &[u64]) -> Option<Afresh> {
        let started = Afresh {
            records: records_of_table(image).ok()?,
            further_rows: map.get(MAP_ROWS..)?.to_vec(),
        };
        (started.standing().map == map).then_some(started)
    }

    /// The image and the map of the records.
    pub fn standing(&self) -> Standing {
        let rows = true_map(&Table::read(&self.records)).into_iter();
        Standing {
            image: image_of(Form::Table, &self.records),
            map: rows.chain(self.further_rows.iter().copied()).collect(),
        }
    }

    /// Takes a step: a well-formed patch is accepted exactly when each record that it takes out stands
    /// among the records byte for byte, the outcome is a valid table, and what is lent suffices.
    pub fn step<'step>(&mut self, step: &'step Step) -> Result<Patched, PatchRefusal<'step>> {
        let patch = records_of_patch(&step.patch)?;
        let kept = self.without(&patch).map_err(|place| PatchRefusal {
            refusal: Refusal::new(9, place),
            offending: &step.patch[start_of_record(place)..][..RECORD_BYTES],
        })?;
        let records = with_put_in(kept, &patch);
        let image = image_of(Form::Table, &records);
        records_of_table(&image).map_err(|_| BAD_OUTCOME)?;
        if step.map_rows < MAP_ROWS || step.room_bytes < image.len() {
            return Err(TOO_SHORT.into());
        }
        self.further_rows = vec![LENT_ROW; step.map_rows - MAP_ROWS];
        let touched = touched_ids(&self.records, &records, &patch).len();
        self.records = records;
        Ok(Patched {
            touched,
            length: image.len(),
        })
    }

    /// The records less what the patch takes out, or the place of the first that does not stand here.
    fn without(&self, patch: &[Record]) -> Result<Vec<Record>, usize> {
        let mut kept = self.records.clone();
        for (place, record) in patch.iter().enumerate() {
            if record.way() == TAKEN_OUT {
                let at = kept.iter().position(|standing| standing == record);
                kept.remove(at.ok_or(place)?);
            }
        }
        Ok(kept)
    }
}

/// The records with what the patch puts in, each before the first that comes after it in table order.
fn with_put_in(mut records: Vec<Record>, patch: &[Record]) -> Vec<Record> {
    for record in patch.iter().filter(|record| record.way() == PUT_IN) {
        let at = records.partition_point(|standing| standing.key() < record.key());
        records.insert(at, record.with_way(0));
    }
    records
}

/// The ids of the outcome's tasks that have a record in the patch, are named in a pair of it, come before or
/// after a task that a precedence pair of it names, or whose transaction has a record in it.
pub fn touched_ids(base: &[Record], outcome: &[Record], patch: &[Record]) -> BTreeSet<u16> {
    let numbers_of = |kind: u8| {
        let of_kind = patch.iter().filter(move |record| record.kind() == kind);
        of_kind.map(Record::number).collect::<BTreeSet<u16>>()
    };
    let seconds = patch.iter().filter(|record| record.kind() == PAIR);
    let mut named: BTreeSet<u16> = seconds.map(Record::second).collect();
    named.extend(numbers_of(PAIR));
    named.extend(numbers_of(TASK));
    named.extend(along_paths(base, patch));
    named.extend(along_paths(outcome, patch));
    let transactions = numbers_of(TRANSACTION);
    let tasks = outcome.iter().filter(|record| record.kind() == TASK);
    tasks
        .filter(|task| named.contains(&task.number()) || transactions.contains(&task.second()))
        .map(Record::number)
        .collect()
}

/// The ids that the precedence pairs of the patch name, and those that come before or after one of them by
/// the precedence pairs of these records.
pub fn along_paths(records: &[Record], patch: &[Record]) -> BTreeSet<u16> {
    let links = precedences_in(records);
    let named = precedences_in(patch).into_iter();
    let named: BTreeSet<u16> = named.flat_map(|(first, second)| [first, second]).collect();
    let turned: Vec<Link> = links
        .iter()
        .map(|(first, second)| (*second, *first))
        .collect();
    let mut joined = grown_along(&links, named.clone());
    joined.extend(grown_along(&turned, named));
    joined
}

/// The first and the second task of a precedence pair.
type Link = (u16, u16);

fn precedences_in(records: &[Record]) -> Vec<Link> {
    let is_precedence = |record: &&Record| record.kind() == PAIR && record.0[PAIR_SORT_AT] == 1;
    let precedences = records.iter().filter(is_precedence);
    precedences
        .map(|record| (record.number(), record.second()))
        .collect()
}

/// These ids with the second of every link whose first is among them, until no link adds one.
fn grown_along(links: &[Link], mut ids: BTreeSet<u16>) -> BTreeSet<u16> {
    loop {
        let from_ids = links.iter().filter(|(first, _)| ids.contains(first));
        let reached: Vec<u16> = from_ids.map(|(_, second)| *second).collect();
        let before = ids.len();
        ids.extend(reached);
        if ids.len() == before {
            return ids;
        }
    }
}
