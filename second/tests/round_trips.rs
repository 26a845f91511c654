//! Round trips: a patch, its reverse and the patch again, as calls and worked out afresh.

mod common;

use std::collections::{BTreeMap, BTreeSet};

use common::streams::ROUND_TRIPS;
use common::*;
use second::answer::{answer, with_reverse};
use second::blocks::{patch_image, records_in};
use second::digest;
use second::figure2::figure2;
use second::generate::random::Random;
use second::numbered_cases::patch_of;
use second::preempt::true_map;
use second::round_trip::RoundTrip;
use second::stream::Case;
use second::table::Table;

/// A table and a patch that it accepts.
struct Trip {
    base: Vec<u8>,
    patch: Vec<u8>,
}

impl Trip {
    fn of(case: Case) -> Option<Trip> {
        apply(&case.image, &case.patch, &[0; 64]).ok()?;
        Some(Trip {
            base: case.image,
            patch: case.patch,
        })
    }

    /// What the way there and the way back leave, from this first map.
    fn there_and_back(&self, map: &[u64]) -> [Outcome; 2] {
        let there = apply(&self.base, &self.patch, map).expect("a patch that fits");
        let back = apply(&there.image, &reverse(&self.patch), &there.map);
        [there, back.expect("a reverse that is accepted")]
    }
}

/// The tables and patches of the compared stream that are accepted where map and room suffice.
fn trips() -> Vec<Trip> {
    let trips: Vec<Trip> = ROUND_TRIPS.cases().filter_map(Trip::of).collect();
    let tables: BTreeSet<&[u8]> = trips.iter().map(|trip| &trip.base[..]).collect();
    assert!(tables.len() >= 500);
    trips
}

/// The true map of a table by its image.
fn map_of(image: &[u8]) -> Vec<u64> {
    true_map(&Table::read(&records_in(image))).to_vec()
}

#[test]
fn the_way_back_gives_the_table_and_its_true_map_back() {
    for trip in trips() {
        let first_map = map_of(&trip.base);
        let [there, back] = trip.there_and_back(&first_map);
        assert_eq!(there.map, map_of(&there.image));
        assert_eq!((back.image, &back.map), (trip.base.clone(), &first_map));
        let again = apply(&trip.base, &trip.patch, &back.map).expect("a patch that fits");
        assert_eq!((again.image, again.map), (there.image, there.map));
    }
}

#[test]
fn the_way_back_gives_the_table_back_from_any_first_map() {
    let mut random = Random::from_seed(61);
    let mut other_maps = 0;
    for trip in trips() {
        let wrong: Vec<u64> = (0..64).map(|_| random.bits()).collect();
        let [_, back] = trip.there_and_back(&wrong);
        assert_eq!(back.image, trip.base);
        let tasks = Table::read(&records_in(&back.image)).tasks.len();
        let among_tasks = u64::MAX.checked_shr(64 - tasks as u32).unwrap_or(0);
        let was = wrong[..tasks].iter().map(|row| row & among_tasks);
        other_maps += usize::from(!was.eq(back.map[..tasks].iter().copied()));
    }
    assert!(other_maps >= 100);
}

#[test]
fn the_way_back_may_touch_another_number_of_tasks() {
    let base = figure2();
    let touched = |patch: Vec<u8>| {
        let base = table_image(&base);
        let trip = Trip { base, patch };
        let outcomes = trip.there_and_back(&true_map(&figure2()));
        outcomes.map(|outcome| outcome.patched.touched)
    };
    assert_eq!(touched(patch_of(11).unwrap()), [2, 2]);
    assert_eq!(touched(patch_of(12).unwrap()), [1, 0]);
    let last = base.tasks[5].record();
    assert_eq!(touched(patch_image(&[last], &[])), [0, 1]);
    assert_eq!(touched(patch_image(&base.records(), &[])), [0, 6]);
    assert_eq!(touched(patch_image(&[], &[])), [0, 0]);
}

/// A round trip from figure 2 with its true map, 64 rows and one block for each outcome.
fn from_figure2(patch: Vec<u8>) -> Case {
    round_trip(&figure2(), patch, 64, 512)
}

/// The parts of the line that answers a round trip, without its letter.
fn parts_of(mut case: Case) -> [String; 5] {
    let line = answer(&mut case);
    let numbers = line.strip_prefix("U ").expect("the letter");
    let parts: Vec<String> = numbers.split(" | ").map(String::from).collect();
    parts.try_into().expect("five parts")
}

#[test]
fn the_line_of_a_round_trip_has_five_parts() {
    let patch = patch_of(11).unwrap();
    let reversed = reverse(&patch);
    let [first, there, reverse, back, again] = parts_of(from_figure2(patch));
    let bounds = "0 0 6 8 10 9 10 3 11 12 23";
    assert!(first.contains(&format!(" {bounds} ")));
    assert!(there.starts_with("0 0 2 512 0 ") && there.contains(" 0 0 6 7 9 9 10 3 11 12 21 "));
    assert_eq!(reverse, format!("0 0 512 {}", digest::of_bytes(reversed)));
    assert_eq!(back, format!("0 0 2 512 0 {first}"));
    assert_eq!(again, there);
}

#[test]
fn a_patch_whose_reverse_is_refused_goes_back_without_bytes() {
    let mut patch = patch_of(11).unwrap();
    patch[510] ^= 1;
    let [first, there, reverse, back, again] = parts_of(from_figure2(patch));
    assert_eq!(there, format!("22 0 0 0 0 {first}"));
    assert_eq!(reverse, "22 0 0 1");
    assert_eq!(back, format!("21 0 0 0 0 {first}"));
    assert_eq!(again, there);
}

#[test]
fn a_patch_that_is_refused_may_be_accepted_behind_its_reverse() {
    let last = figure2().tasks[5].record();
    let [first, there, reverse, back, again] = parts_of(from_figure2(patch_image(&[], &[last])));
    assert_eq!(there, format!("10 0 0 0 0 {first}"));
    assert!(reverse.starts_with("0 0 512 "));
    assert!(back.starts_with("0 0 0 512 0 ") && back.contains(" 0 0 5 "));
    assert_eq!(again, format!("0 0 1 512 0 {first}"));
}

/// The numbers of the four calls in a round trip that empties a full table in rooms of this length.
fn numbers_of_emptying(room_bytes: usize) -> [u32; 4] {
    let base = Table::read(&records_in(&full_table()));
    let emptying = patch_image(&base.records(), &[]);
    let [_, calls @ ..] = parts_of(round_trip(&base, emptying, 64, room_bytes));
    calls.map(|part| first_number(&part))
}

#[test]
fn a_way_back_may_need_more_room_than_the_way_there() {
    assert_eq!(numbers_of_emptying(511), [11, 0, 10, 11]);
    assert_eq!(numbers_of_emptying(512), [0, 0, 11, 9]);
    assert_eq!(numbers_of_emptying(11_775), [0, 0, 11, 9]);
    assert_eq!(numbers_of_emptying(11_776), [0, 0, 0, 0]);
}

#[test]
fn calls_in_turn_give_what_working_it_out_afresh_gives() {
    for mut case in ROUND_TRIPS.cases() {
        let RoundTrip { reverse, steps } = RoundTrip::of(&case);
        let line = with_reverse(parts_of_calls(&case, &steps), &reverse);
        assert_eq!(line, answer(&mut case));
    }
}

#[test]
fn most_round_trips_are_accepted_and_each_way_meets_its_refusals() {
    let mut numbers = [(); 4].map(|()| BTreeMap::<u32, usize>::new());
    for case in ROUND_TRIPS.cases() {
        let [_, calls @ ..] = parts_of(case);
        for (counts, part) in numbers.iter_mut().zip(&calls) {
            *counts.entry(first_number(part)).or_insert(0) += 1;
        }
    }
    assert!(numbers.iter().all(|counts| counts[&0] >= 500));
    let [there, reverse, back, again] = numbers.map(|counts| counts.into_keys());
    let of_patch = || 21..=27;
    assert!(there.eq([0, 9, 10, 11].into_iter().chain(of_patch())));
    assert!(reverse.eq([0].into_iter().chain(of_patch())));
    assert!(back.eq([0, 9, 10, 11, 21]));
    assert!(again.eq([0, 9, 10, 11].into_iter().chain(of_patch())));
}

#[test]
fn a_stream_has_nothing_of_what_a_round_trip_lends_to_be_written() {
    for case in ROUND_TRIPS.cases().take(200) {
        let read = [case.image.len(), case.patch.len(), 8 * case.map_read.len()];
        assert_eq!(stream_of(&case).len(), 32 + read.iter().sum::<usize>());
        assert_eq!(read_again(&case).expect("a sound stream"), Some(case));
    }
}

#[test]
fn a_round_trip_starts_from_a_valid_table_and_its_true_map() {
    let case = from_figure2(patch_image(&[], &[]));
    assert!(read_again(&case).is_ok());
    let broken: [fn(&mut Case); 6] = [
        |case| case.map_read[0] ^= 2,
        |case| case.map_read.truncate(63),
        |case| case.image[510] ^= 1,
        |case| case.patch.resize(24_577, 0),
        |case| case.map_written.resize(81, u64::MAX),
        |case| case.room.resize(12_801, u8::MAX),
    ];
    for damage in broken {
        let mut damaged = case.clone();
        damage(&mut damaged);
        assert!(read_again(&damaged).is_err());
    }
}
