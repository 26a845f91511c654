//! The sorts of reverse call.

use std::collections::BTreeSet;

use crate::blocks::{start_of_record, Form, BLOCK_BYTES, FILL_AT};
use crate::records::{Record, TAKEN_OUT};
use crate::sorts::{puts_back_unchanged, told_by, Sort, Told};
use crate::stream::Case;
use crate::verdict::{records_of_patch, MOST_OF_KIND};

/// Every sort that a comparison is to meet. Where a sort says nothing of the room, it is long enough.
const SORTS: [Sort<Tried>; 17] = [
    ("a reverse of the empty patch", |call| {
        call.fits() && call.parts() == [0, 0]
    }),
    ("a reverse of records taken out alone", |call| {
        call.fits() && call.parts()[0] > 0 && call.parts()[1] == 0
    }),
    ("a reverse of records put in alone", |call| {
        call.fits() && call.parts()[0] == 0 && call.parts()[1] > 0
    }),
    ("a reverse of one record", |call| {
        call.fits() && call.patch.len() == 1
    }),
    ("a reverse of parts of unequal size", |call| {
        call.fits() && !call.parts().contains(&0) && call.parts()[0] != call.parts()[1]
    }),
    ("a reverse of every kind both ways", |call| {
        call.fits() && call.has_every_kind_both_ways()
    }),
    ("a reverse of a record put back unchanged", |call| {
        call.fits() && puts_back_unchanged(&call.patch)
    }),
    ("a reverse of more than one block", |call| {
        call.fits() && call.patch_bytes > BLOCK_BYTES
    }),
    ("a reverse of the most blocks", |call| {
        call.fits() && call.patch_bytes == Form::Patch.most_bytes()
    }),
    ("a reverse whose room leaves 0 bytes", |call| {
        call.fits() && call.room_bytes == call.patch_bytes
    }),
    ("a reverse whose room leaves 1 byte", |call| {
        call.fits() && call.room_bytes == call.patch_bytes + 1
    }),
    ("a reverse whose room leaves a block or more", |call| {
        call.fits() && call.room_bytes >= call.patch_bytes + BLOCK_BYTES
    }),
    ("a reverse whose room lacks 1 byte", |call| {
        call.is_sound && call.room_bytes + 1 == call.patch_bytes
    }),
    ("a reverse whose room lacks a block", |call| {
        call.is_sound && call.room_bytes + BLOCK_BYTES == call.patch_bytes && call.room_bytes > 0
    }),
    ("a reverse whose room lacks unused places alone", |call| {
        call.is_sound && call.lacks_unused_places_alone()
    }),
    ("a reverse without room", |call| {
        call.is_sound && call.room_bytes == 0
    }),
    ("a refused patch that has too little room", |call| {
        !call.is_sound && call.room_bytes < call.patch_bytes
    }),
];

/// What the sorts say of the call of this case.
pub fn told(case: &Case) -> Vec<Told> {
    told_by(&SORTS, &Tried::of(case))
}

/// A reverse call and what it is about.
struct Tried {
    patch_bytes: usize,
    room_bytes: usize,
    /// Whether the patch is well-formed.
    is_sound: bool,
    /// The records of a well-formed patch.
    patch: Vec<Record>,
}

impl Tried {
    fn of(case: &Case) -> Tried {
        let records = records_of_patch(&case.image);
        Tried {
            patch_bytes: case.image.len(),
            room_bytes: case.room.len(),
            is_sound: records.is_ok(),
            patch: records.unwrap_or_default(),
        }
    }

    /// Whether the call is accepted.
    fn fits(&self) -> bool {
        self.is_sound && self.room_bytes >= self.patch_bytes
    }

    /// How many records are taken out and put in.
    fn parts(&self) -> [usize; 2] {
        let is_taken_out = |record: &&Record| record.way() == TAKEN_OUT;
        let taken_out = self.patch.iter().filter(is_taken_out).count();
        [taken_out, self.patch.len() - taken_out]
    }

    fn has_every_kind_both_ways(&self) -> bool {
        let kinds = self
            .patch
            .iter()
            .map(|record| (record.way(), record.kind()));
        kinds.collect::<BTreeSet<(u8, u8)>>().len() == 2 * MOST_OF_KIND.len()
    }

    /// Whether the room ends behind the last record and before the last place does.
    fn lacks_unused_places_alone(&self) -> bool {
        let end_of_records = start_of_record(self.patch.len());
        let end_of_places = self.patch_bytes - (BLOCK_BYTES - FILL_AT);
        (end_of_records..end_of_places).contains(&self.room_bytes)
    }
}
