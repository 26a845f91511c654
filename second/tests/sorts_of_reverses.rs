//! The sorts of reverse call and of round trip that a comparison is to meet.

mod common;

use common::*;
use second::blocks::{patch_image, records_in};
use second::figure2::figure2;
use second::numbered_cases::patch_of;
use second::records::Record;
use second::stream::{Call, Case};
use second::table::Table;

/// A reverse call with a room of this length.
fn reverse_case(patch: Vec<u8>, room_bytes: usize) -> Case {
    Case {
        room: vec![0; room_bytes],
        ..Case::lending(Call::Reverse, patch)
    }
}

/// The sorts of the reverse of these records, in a room that leaves two bytes.
fn sorts_of_records(taken_out: &[Record], put_in: &[Record]) -> Vec<String> {
    let patch = patch_image(taken_out, put_in);
    let room_bytes = patch.len() + 2;
    sorts_of(&reverse_case(patch, room_bytes))
}

#[test]
fn reverses_are_told_by_their_parts() {
    let [first, second] = [1, 2].map(|id| task(id, 1, 0, 1).record());
    let pair = one_way(1, 2).record();
    assert_eq!(sorts_of_records(&[], &[]), ["a reverse of the empty patch"]);
    assert_eq!(
        sorts_of_records(&[first, pair], &[]),
        ["a reverse of records taken out alone"]
    );
    let alone = "a reverse of records put in alone";
    assert_eq!(sorts_of_records(&[], &[first, pair]), [alone]);
    let one = "a reverse of one record";
    assert_eq!(sorts_of_records(&[], &[pair]), [alone, one]);
    assert!(sorts_of_records(&[first], &[second]).is_empty());
    let unequal = "a reverse of parts of unequal size";
    assert_eq!(sorts_of_records(&[first], &[second, pair]), [unequal]);
    let put_back = "a reverse of a record put back unchanged";
    assert_eq!(sorts_of_records(&[first], &[first]), [put_back]);
}

#[test]
fn reverses_are_told_by_their_size() {
    let full = records_in(&full_table());
    let kinds = "a reverse of every kind both ways";
    let put_back = "a reverse of a record put back unchanged";
    let blocks = "a reverse of more than one block";
    let most = "a reverse of the most blocks";
    assert_eq!(
        sorts_of_records(&full, &full),
        [kinds, put_back, blocks, most]
    );
    let alone = "a reverse of records taken out alone";
    assert_eq!(sorts_of_records(&full, &[]), [alone, blocks]);
}

#[test]
fn reverses_are_told_by_their_room() {
    let patch = patch_image(&[task(1, 1, 0, 1).record()], &[task(2, 1, 0, 1).record()]);
    let with_room = |bytes| sorts_of(&reverse_case(patch.clone(), bytes));
    assert_eq!(with_room(512), ["a reverse whose room leaves 0 bytes"]);
    assert_eq!(with_room(513), ["a reverse whose room leaves 1 byte"]);
    assert!(with_room(1023).is_empty());
    let a_block = "a reverse whose room leaves a block or more";
    assert_eq!(with_room(1024), [a_block]);
    assert_eq!(with_room(511), ["a reverse whose room lacks 1 byte"]);
    let places = "a reverse whose room lacks unused places alone";
    assert_eq!(with_room(72), [places]);
    assert_eq!(with_room(487), [places]);
    assert!(with_room(71).is_empty() && with_room(488).is_empty());
    assert_eq!(with_room(0), ["a reverse without room"]);
    let longer = patch_image(&records_in(&full_table()), &[]);
    let lacking = reverse_case(longer, 22 * 512);
    assert_eq!(sorts_of(&lacking), ["a reverse whose room lacks a block"]);
    let refused = reverse_case(vec![0; 512], 511);
    let too_little = "a refused patch that has too little room";
    assert_eq!(sorts_of(&refused), [too_little]);
}

/// The sorts of a round trip with 80 rows for each new map and ample room.
fn sorts_of_trip(base: &Table, patch: Vec<u8>) -> Vec<String> {
    sorts_of(&round_trip(base, patch, 80, 12_800))
}

/// A round trip that is accepted at each step and not of the empty patch.
const SOME_RECORDS: &str = "a round trip of some records";
/// A round trip whose numbers of touched tasks differ.
const OTHER_TASKS: &str = "a round trip that touches more or fewer tasks going back";

#[test]
fn round_trips_are_told_by_their_tables() {
    let base = figure2();
    let empty_patch = patch_image(&[], &[]);
    let empty = "a round trip of the empty patch";
    assert_eq!(sorts_of_trip(&base, empty_patch), [empty]);
    let pair_put_in = patch_of(11).unwrap();
    assert_eq!(sorts_of_trip(&base, pair_put_in), [SOME_RECORDS]);
    let emptying = patch_image(&base.records(), &[]);
    let empties = "a round trip that empties a table";
    assert_eq!(
        sorts_of_trip(&base, emptying),
        [SOME_RECORDS, empties, OTHER_TASKS]
    );
    let filling = patch_image(&[], &base.records());
    let fills = "a round trip that fills the empty table";
    assert_eq!(
        sorts_of_trip(&Table::default(), filling),
        [SOME_RECORDS, fills, OTHER_TASKS]
    );
    let full = Table::read(&records_in(&full_table()));
    let exchange = patch_image(&full.records(), &full.records());
    let from_full = "a round trip from a full table";
    let most = "a round trip of the most blocks";
    let put_back = "a round trip of a record put back unchanged";
    assert_eq!(
        sorts_of_trip(&full, exchange),
        [SOME_RECORDS, from_full, most, put_back]
    );
}

#[test]
fn round_trips_are_told_by_what_is_lent() {
    let with = |map_rows, room_bytes| {
        let patch = patch_of(11).unwrap();
        sorts_of(&round_trip(&figure2(), patch, map_rows, room_bytes))
    };
    let exact = "a round trip whose room leaves 0 bytes";
    let rows = |rows| format!("a round trip with new maps of {rows} rows");
    assert_eq!(with(64, 512), [SOME_RECORDS, exact, &rows(64)]);
    assert_eq!(with(70, 513), [SOME_RECORDS, &rows(70)]);
    assert_eq!(with(64, 511), ["a way there whose room lacks 1 byte"]);
    assert_eq!(with(63, 512), ["a way there whose new map lacks 1 row"]);
    assert!(with(63, 511).is_empty() && with(64, 510).is_empty());
    let full = Table::read(&records_in(&full_table()));
    let emptying = patch_image(&full.records(), &[]);
    let cramped = round_trip(&full, emptying, 64, 512);
    assert_eq!(sorts_of(&cramped), ["a way back whose room is too short"]);
}

#[test]
fn round_trips_are_told_by_their_refusals() {
    let base = figure2();
    let last = base.tasks[5].record();
    let made = |number| format!("a patch refused with {number} whose reverse is made");
    let behind = |number| format!("a patch refused with {number} and accepted behind its reverse");
    let again = patch_image(&[], &[last]);
    assert_eq!(sorts_of_trip(&base, again), [made(10), behind(10)]);
    let absent = patch_image(&[task(99, 1, 0, 1).record()], &[]);
    assert_eq!(sorts_of_trip(&base, absent), [made(9), behind(9)]);
    let other_size = patch_of(13).unwrap();
    assert_eq!(sorts_of_trip(&base, other_size), [made(9)]);
    let refused = "a patch whose reverse is refused";
    assert_eq!(sorts_of_trip(&base, vec![]), [refused]);
}
