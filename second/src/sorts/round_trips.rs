//! The sorts of round trip.

use crate::afresh::Afresh;
use crate::blocks::{records_in, Form};
use crate::patch_call::Patched;
use crate::preempt::MAP_ROWS;
use crate::records::Record;
use crate::round_trip::RoundTrip;
use crate::sorts::precedences::{self, Change};
use crate::sorts::{puts_back_unchanged, told_by, Sort, Told};
use crate::stream::step::Step;
use crate::stream::Case;
use crate::verdict::{records_of_patch, MOST_OF_KIND};

/// Every sort that a comparison is to meet. What is called a round trip is accepted at each step, and a
/// way there that lacks something lacks nothing else.
const SORTS: [Sort<Tried>; 19] = [
    ("a round trip of some records", |trip| {
        trip.is_accepted() && !trip.patch.is_empty()
    }),
    ("a round trip of the empty patch", |trip| {
        trip.is_accepted() && trip.patch.is_empty()
    }),
    ("a round trip that empties a table", |trip| {
        trip.is_accepted() && !trip.base.is_empty() && trip.outcome.is_empty()
    }),
    ("a round trip that fills the empty table", |trip| {
        trip.is_accepted() && trip.base.is_empty() && !trip.outcome.is_empty()
    }),
    ("a round trip from a full table", |trip| {
        trip.is_accepted() && is_full(&trip.base) && !trip.patch.is_empty()
    }),
    ("a round trip of the most blocks", |trip| {
        trip.is_accepted() && trip.patch_bytes == Form::Patch.most_bytes()
    }),
    ("a round trip of a record put back unchanged", |trip| {
        trip.is_accepted() && puts_back_unchanged(&trip.patch)
    }),
    (
        "a round trip that touches more or fewer tasks going back",
        |trip| trip.is_accepted() && trip.there.touched != trip.back.touched,
    ),
    ("a round trip whose room leaves 0 bytes", |trip| {
        trip.is_accepted() && trip.room_bytes == trip.there.length.max(trip.back.length)
    }),
    ("a round trip with new maps of 64 rows", |trip| {
        trip.is_accepted() && trip.map_rows == MAP_ROWS
    }),
    ("a round trip with new maps of 70 rows", |trip| {
        trip.is_accepted() && trip.map_rows == 70
    }),
    ("a way there whose room lacks 1 byte", |trip| {
        trip.map_rows >= MAP_ROWS && trip.needed == Some(trip.room_bytes + 1)
    }),
    ("a way there whose new map lacks 1 row", |trip| {
        trip.map_rows + 1 == MAP_ROWS && trip.needed.is_some_and(|bytes| bytes <= trip.room_bytes)
    }),
    ("a way back whose room is too short", |trip| {
        trip.numbers[..2] == [0, 11]
    }),
    ("a patch refused with 9 whose reverse is made", |trip| {
        trip.numbers[0] == 9 && trip.reverse_is_made
    }),
    ("a patch refused with 10 whose reverse is made", |trip| {
        trip.numbers[0] == 10 && trip.reverse_is_made
    }),
    (
        "a patch refused with 9 and accepted behind its reverse",
        |trip| trip.numbers == [9, 0, 0],
    ),
    (
        "a patch refused with 10 and accepted behind its reverse",
        |trip| trip.numbers == [10, 0, 0],
    ),
    ("a patch whose reverse is refused", |trip| {
        !trip.reverse_is_made
    }),
];

/// What the sorts say of the round trip of this case.
pub fn told(case: &Case) -> Vec<Told> {
    let tried = Tried::of(case);
    let change = Change::of(&case.image, &case.patch);
    let change = change.filter(|change| tried.is_accepted() || change.has_circle);
    let on_the_way = |(name, holds)| (format!("a way there with {name}"), holds);
    let changes = precedences::told(change.as_ref()).into_iter();
    let told = told_by(&SORTS, &tried).into_iter();
    told.chain(changes.map(on_the_way)).collect()
}

/// A round trip and what it is about.
struct Tried {
    base: Vec<Record>,
    patch_bytes: usize,
    /// The records of a well-formed patch.
    patch: Vec<Record>,
    reverse_is_made: bool,
    /// The records that stand after the way there.
    outcome: Vec<Record>,
    /// The number of each step.
    numbers: [u32; 3],
    there: Patched,
    back: Patched,
    /// Bytes that the way there needs, if nothing refuses it but what is lent.
    needed: Option<usize>,
    map_rows: usize,
    room_bytes: usize,
}

impl Tried {
    fn of(case: &Case) -> Tried {
        let RoundTrip { reverse, steps } = RoundTrip::of(case);
        let mut run = start_of(case);
        let [there, back, again] = steps.each_ref().map(|step| {
            let given = run.step(step).map_err(|refused| refused.refusal.number);
            (given, run.standing().image)
        });
        let number = |given: Result<Patched, u32>| given.err().unwrap_or(0);
        Tried {
            base: records_in(&case.image),
            patch_bytes: case.patch.len(),
            patch: records_of_patch(&case.patch).unwrap_or_default(),
            reverse_is_made: reverse.is_ok(),
            outcome: records_in(&there.1),
            numbers: [there.0, back.0, again.0].map(number),
            there: there.0.unwrap_or_default(),
            back: back.0.unwrap_or_default(),
            needed: needed_bytes(case),
            map_rows: case.map_written.len(),
            room_bytes: case.room.len(),
        }
    }

    /// Whether each step is accepted.
    fn is_accepted(&self) -> bool {
        self.numbers == [0; 3]
    }
}

/// The start of the case's steps.
fn start_of(case: &Case) -> Afresh {
    let start = Afresh::start(&case.image, &case.map_read);
    start.expect("a round trip starts from a valid table and its true map")
}

/// Bytes of what the patch makes of the base, if it is accepted with enough map and room.
fn needed_bytes(case: &Case) -> Option<usize> {
    let roomy = Step {
        patch: case.patch.clone(),
        map_rows: MAP_ROWS,
        room_bytes: Form::Table.most_bytes(),
    };
    let given = start_of(case).step(&roomy).ok()?;
    Some(given.length)
}

/// Whether there are as many records as a table may have.
fn is_full(records: &[Record]) -> bool {
    records.len() == MOST_OF_KIND.iter().map(|(_, most)| most).sum()
}
