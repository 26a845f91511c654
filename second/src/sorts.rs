//! Which sorts of call a stream holds, so that a comparison can be seen to meet each of them.

mod circles;
mod limits;
mod patch_calls;
mod precedences;
mod reverses;
mod rooms_left;
mod round_trips;
mod runs;
mod slips;
mod tables;

use std::collections::{BTreeMap, BTreeSet};

use crate::records::Record;
use crate::stream::{Call, Case};

/// The name of a sort, and whether a call is of it.
type Told = (String, bool);

/// The name of a sort of such calls, and the test for it.
type Sort<Tried> = (&'static str, fn(&Tried) -> bool);

/// How many calls of each sort there were, by the call's letter and in the order of its sorts.
#[derive(Default)]
pub struct Sorts {
    counts: BTreeMap<(u8, usize), (String, usize)>,
}

impl Sorts {
    /// Counts the case for every sort that its call has.
    pub fn count(&mut self, case: &Case) {
        let told = match case.call {
            Call::TableVerdict => [tables::told(case), circles::told_of_table(case)].concat(),
            Call::PatchVerdict => circles::told_of_patch(case),
            Call::Map | Call::Reasons => tables::told(case),
            Call::Bound => Vec::new(),
            Call::Patch => patch_calls::told(case),
            Call::Run => runs::told(case),
            Call::Reverse => [reverses::told(case), circles::told_of_patch(case)].concat(),
            Call::RoundTrip => round_trips::told(case),
            Call::RoomLeft => rooms_left::told(case),
            Call::BoundWithin => limits::told(case),
        };
        for (rank, (name, holds)) in told.into_iter().enumerate() {
            let counted = self.counts.entry((case.call.letter(), rank));
            counted.or_insert((name, 0)).1 += usize::from(holds);
        }
    }

    /// A line for each sort with its number of calls, for the calls that there were.
    pub fn lines(&self) -> String {
        let counted = self.counts.values();
        counted
            .map(|(name, count)| format!("{count} {name}\n"))
            .collect()
    }
}

/// What these sorts say of one call.
fn told_by<Tried>(sorts: &[Sort<Tried>], call: &Tried) -> Vec<Told> {
    let told = |(name, holds): &Sort<Tried>| (String::from(*name), holds(call));
    sorts.iter().map(told).collect()
}

/// Whether a patch takes a record out and puts it in again as it was.
fn puts_back_unchanged(patch: &[Record]) -> bool {
    let as_listed = patch.iter().map(|record| record.with_way(0));
    as_listed.collect::<BTreeSet<Record>>().len() < patch.len()
}
