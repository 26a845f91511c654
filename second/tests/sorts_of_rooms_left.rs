//! The sorts of case that ask for room left, and for a chain through one task, that a comparison is to meet.

mod common;

use common::*;
use second::figure2::figure2;
use second::heaviest::heaviest;
use second::preempt::true_map;
use second::records::Task;
use second::stream::asked::Asked;
use second::stream::{Call, Case};
use second::table::Table;

/// A case on a table with its true map, rooms of 64 entries, and this reserve and id.
fn case_of(table: &Table, reserve: u32, id: u32) -> Case {
    Case {
        map_read: true_map(table).to_vec(),
        map_written: vec![0; 64],
        ids: vec![0; 64],
        asked: Asked { reserve, id },
        ..Case::lending(Call::RoomLeft, table_image(table))
    }
}

/// The sorts of a case on figure 2 with a reserve of 100,000, which no figure is near.
fn sorts_of_id(id: u32) -> Vec<String> {
    sorts_of(&case_of(&figure2(), 100_000, id))
}

const LARGE: &str = "a figure above 65,535";
const OUTSIDE: &str = "a task outside the shown chain";
const FIRST_OUTSIDE: &str = "a task outside the shown chain, first of several";
const LAST_OUTSIDE: &str = "a task outside the shown chain, last of several";

#[test]
fn cases_are_told_by_where_the_task_stands() {
    let first = "the first task of the shown chain";
    assert_eq!(sorts_of_id(11), [LARGE, first]);
    let between = "a task between others of the shown chain";
    assert_eq!(sorts_of_id(12), [LARGE, between]);
    let last = "the last task of the shown chain, of several";
    assert_eq!(sorts_of_id(23), [LARGE, last]);
    assert_eq!(sorts_of_id(22), [LARGE, OUTSIDE, FIRST_OUTSIDE]);
    assert_eq!(sorts_of_id(21), [LARGE, OUTSIDE, LAST_OUTSIDE]);
    assert_eq!(sorts_of_id(13), [LARGE, OUTSIDE, LAST_OUTSIDE]);
}

#[test]
fn ids_that_are_not_listed_are_told_apart() {
    assert_eq!(sorts_of_id(0), ["an id of 0", LARGE]);
    let unlisted = "an id that is not listed";
    assert_eq!(sorts_of_id(14), [unlisted, LARGE]);
    let past = "an id above 65,535 whose low half is listed";
    assert_eq!(sorts_of_id(65_536 + 11), [past, LARGE]);
    assert_eq!(sorts_of_id(65_536 + 14), [LARGE]);
    let short = Case {
        map_read: vec![0; 63],
        ids: vec![0; 63],
        ..case_of(&figure2(), 0, 14)
    };
    let expected = [
        unlisted,
        "an id that is not listed, and a short map",
        "an id that is not listed, and a short room for ids",
        "a map of 63 rows and a room of 64",
    ];
    assert_eq!(sorts_of(&short), expected);
}

/// The sorts of a case on figure 2 that asks for task 21 with this reserve, but for where the task stands.
fn sorts_of_reserve(reserve: u32) -> Vec<String> {
    let mut sorts = sorts_of(&case_of(&figure2(), reserve, 21));
    assert_eq!(sorts.split_off(sorts.len() - 2), [OUTSIDE, LAST_OUTSIDE]);
    sorts
}

#[test]
fn reserves_and_figures_are_told_by_the_chain_bound() {
    let (negative, zero) = ("a negative figure", "a figure of 0");
    let both = "figures below 0 and above it";
    let below_all = [
        "a negative figure",
        "no figure but negative ones",
        "a reserve of 0",
    ];
    assert_eq!(sorts_of_reserve(0), below_all);
    let below = "a reserve one below the chain bound";
    assert_eq!(sorts_of_reserve(7), [negative, zero, both, below]);
    assert_eq!(
        sorts_of_reserve(8),
        [zero, "the chain bound as the reserve"]
    );
    assert_eq!(sorts_of_reserve(9), ["a reserve one above the chain bound"]);
    assert_eq!(sorts_of_reserve(u32::MAX), [LARGE, "the largest reserve"]);
}

#[test]
fn short_and_long_lengths_are_told() {
    let with = |rows: usize, figures: usize, ids: usize| {
        sorts_of(&Case {
            map_read: vec![0; rows],
            map_written: vec![0; figures],
            ids: vec![0; ids],
            ..case_of(&figure2(), 100, 11)
        })
    };
    let both = "both calls refused for the map";
    assert_eq!(
        with(63, 64, 64),
        [both, "a map of 63 rows and a room of 64"]
    );
    assert_eq!(with(0, 0, 64), [both]);
    let has_sort = |sorts: Vec<String>, name: &str| sorts.iter().any(|sort| sort == name);
    assert!(has_sort(
        with(64, 63, 64),
        "a room for figures of 63, refused alone"
    ));
    assert!(has_sort(
        with(64, 0, 64),
        "a room for figures of 0, refused alone"
    ));
    assert!(has_sort(
        with(64, 64, 63),
        "a room for ids of 63, refused alone"
    ));
    assert!(has_sort(
        with(64, 64, 0),
        "a room for ids of 0, refused alone"
    ));
    assert!(has_sort(
        with(70, 64, 64),
        "a room or a map of more than 64"
    ));
}

#[test]
fn refused_tables_are_told_by_their_number() {
    let refused = Case {
        image: Vec::new(),
        map_read: vec![0; 63],
        ..case_of(&figure2(), 0, 0)
    };
    let expected = [
        "both calls refused with 1",
        "a refused table, and an id that no table lists",
        "a refused table, and a short map",
    ];
    assert_eq!(sorts_of(&refused), expected);
    let with_short_rooms = Case {
        image: Vec::new(),
        map_written: vec![0; 63],
        ids: vec![0; 63],
        ..case_of(&figure2(), 0, 11)
    };
    let expected = [
        "both calls refused with 1",
        "a refused table, and a short room for figures",
        "a refused table, and a short room for ids",
    ];
    assert_eq!(sorts_of(&with_short_rooms), expected);
}

/// The sorts of a case that asks for task 2 of four over a map with these first rows. Task 4 of 10 bytes is the shown
/// chain by itself; 1, 2 and 3 have a byte each, and these priorities.
fn sorts_beside_a_large_task(priorities: [u16; 3], rows: [u64; 3]) -> Vec<String> {
    let [low, named, high] = priorities;
    let large = Task {
        stack: 10,
        ..task(4, 1, 0, 0)
    };
    let small = [
        task(1, low, 0, 0),
        task(2, named, 0, 0),
        task(3, high, 0, 0),
    ];
    let tasks = [&small[..], &[large]].concat();
    let mut case = case_of(&table(&tasks, &[]), 100, 2);
    case.map_read = rows.to_vec();
    case.map_read.resize(64, 0);
    sorts_of(&case)
}

#[test]
fn tasks_outside_the_shown_chain_are_told_by_their_own() {
    let between = "a task outside the shown chain, between others";
    let sorts = sorts_beside_a_large_task([1, 2, 3], [0b110, 0b100, 0]);
    assert_eq!(sorts, [OUTSIDE, between]);
    let tie = "a tie that ids decide";
    let tie_outside = "a tie that ids decide outside the shown chain";
    let sorts = sorts_beside_a_large_task([2, 1, 2], [0, 0b101, 0]);
    assert_eq!(sorts, [OUTSIDE, FIRST_OUTSIDE, tie, tie_outside]);
}

#[test]
fn ties_lone_tasks_and_sizes_of_tables_are_told() {
    let lone = [task(1, 1, 0, 0), task(2, 1, 0, 0)];
    let sorts = sorts_of(&case_of(&table(&lone, &[]), 100, 2));
    assert_eq!(sorts, [OUTSIDE, "a task that nests with none, of several"]);
    let under_two = [
        Task {
            jitter: 1,
            ..task(1, 2, 0, 0)
        },
        Task {
            jitter: 1,
            ..task(2, 2, 0, 0)
        },
        task(3, 1, 0, 0),
    ];
    let sorts = sorts_of(&case_of(&table(&under_two, &[]), 100, 3));
    assert_eq!(
        sorts,
        ["the first task of the shown chain", "a tie that ids decide"]
    );
    let empty = table(&[], &[]);
    let sorts = sorts_of(&case_of(&empty, 100, 1));
    assert_eq!(sorts, ["an id that is not listed", "a table without tasks"]);
    let sorts = sorts_of(&case_of(&heaviest(), 1, 30));
    assert!(sorts.contains(&String::from("a table of 64 tasks")));
}
