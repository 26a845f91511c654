//! The sorts of bound call with a limit that a comparison is to meet.

mod common;

use common::*;
use second::figure2::figure2;
use second::heaviest::heaviest;
use second::preempt::true_map;
use second::records::Task;
use second::stream::{Call, Case};
use second::table::Table;

/// A case on a table with this map, a room of 64 entries and this limit.
fn case_of(table: &Table, map: &[u64], limit: u32) -> Case {
    Case {
        map_read: map.to_vec(),
        ids: vec![0; 64],
        limit,
        ..Case::lending(Call::BoundWithin, table_image(table))
    }
}

/// A case on figure 2 with its true map, which opens 12 chains.
fn on_figure_2(limit: u32) -> Case {
    case_of(&figure2(), &true_map(&figure2()), limit)
}

const DIFFER: &str = "bounds by path and transactions that differ, given up";

#[test]
fn limits_are_told_by_the_count_and_by_whose_the_map_is() {
    let given_up = |limit: u32| sorts_of(&on_figure_2(limit));
    assert_eq!(given_up(0), ["a limit of 0, the table's own map", DIFFER]);
    assert_eq!(given_up(1), ["a limit of 1, the table's own map", DIFFER]);
    assert_eq!(given_up(2), [DIFFER]);
    let below = "a limit one below the count, the table's own map";
    assert_eq!(given_up(11), [below, DIFFER]);
    let at = "the count as the limit, the table's own map";
    assert!(sorts_of(&on_figure_2(12)).contains(&at.into()));
    let above = ["a limit one above the count, the table's own map"];
    assert_eq!(sorts_of(&on_figure_2(13)), above);
    assert!(sorts_of(&on_figure_2(14)).is_empty());
    let largest = ["the largest limit, the table's own map"];
    assert_eq!(sorts_of(&on_figure_2(u32::MAX)), largest);
    let other_map = sorts_of(&case_of(&figure2(), &[0; 64], u32::MAX));
    assert_eq!(other_map, ["the largest limit, another map"]);
}

#[test]
fn short_and_long_lengths_are_told() {
    let with = |limit: u32, rows: usize, ids: usize| {
        let mut case = on_figure_2(limit);
        case.map_read.resize(rows, 0);
        case.ids.resize(ids, 0);
        sorts_of(&case)
    };
    let no_limit = "a limit of 0, and a short map";
    assert_eq!(with(0, 63, 64), [no_limit, "a map of 63 rows"]);
    assert_eq!(with(5, 0, 65), ["a map of no rows"]);
    let no_limit = "a limit of 0, and a short room for ids";
    assert_eq!(with(0, 64, 63), [no_limit, "a room for ids of 63"]);
    assert_eq!(with(5, 64, 0), ["a room for ids of 0"]);
    let largest = "the largest limit, and a short map or room";
    assert_eq!(with(u32::MAX, 63, 63), [largest]);
    let long = "more than 64 rows and entries, accepted";
    assert_eq!(with(14, 65, 70), [long]);
    let long = "more than 64 rows or entries, given up";
    assert_eq!(with(5, 64, 70), [long, DIFFER]);
}

#[test]
fn refused_tables_are_told_by_their_number() {
    let refused = |limit: u32, rows: usize| {
        let mut case = on_figure_2(limit);
        case.image.clear();
        case.map_read.resize(rows, 0);
        sorts_of(&case)
    };
    let number = "a call refused with 1";
    let no_limit = "a refused table, and a limit of 0";
    let short = "a refused table, and a short map or room";
    assert_eq!(refused(0, 63), [number, no_limit, short]);
    let largest = "a refused table, and the largest limit";
    assert_eq!(refused(u32::MAX, 64), [number, largest]);
}

#[test]
fn sizes_of_tables_and_counts_are_told() {
    let none = table(&[], &[]);
    let without = |limit| sorts_of(&case_of(&none, &[0; 64], limit));
    assert_eq!(without(0), ["a table without tasks, given up"]);
    assert_eq!(without(1), ["a table without tasks, and a limit of 1"]);
    let one = table(&[task(1, 1, 0, 0)], &[]);
    let sorts = sorts_of(&case_of(&one, &[0; 64], 2));
    assert_eq!(sorts, ["a table of one task, and a limit of 2"]);
    let sorts = sorts_of(&case_of(&heaviest(), &true_map(&heaviest()), 2081));
    for name in [
        "a count above 1,000 as the limit",
        "64 tasks, and the count as the limit",
    ] {
        assert!(sorts.contains(&name.into()), "{name}");
    }
}

/// Tasks of these priorities and sizes, with ids from 1 on.
fn tasks_of(priorities_and_sizes: &[(u16, u16)]) -> Table {
    let tasks: Vec<Task> = (1..)
        .zip(priorities_and_sizes)
        .map(|(id, (priority, stack))| Task {
            stack: *stack,
            ..task(id, *priority, 0, 0)
        })
        .collect();
    table(&tasks, &[])
}

/// What the count of these tasks tells, each of two that are of different priorities being able to nest.
fn told_by_count(priorities_and_sizes: &[(u16, u16)], count: u32) -> Vec<String> {
    let case = case_of(&tasks_of(priorities_and_sizes), &[u64::MAX; 64], count);
    let sorts = sorts_of(&case);
    assert_eq!(sorts[0], "the count as the limit, another map");
    let told = sorts.iter();
    told.filter_map(|sort| sort.strip_prefix("a count that would be another if "))
        .map(String::from)
        .collect()
}

#[test]
fn counts_are_told_that_tell_a_slip() {
    let anew = "it were asked anew before each extension";
    let of_extension = "it were asked of each extension";
    let unasked = "no bound were asked";
    let of_all = "the path bound were of all tasks";
    let by_priority = "extensions came in order of priority";
    assert_eq!(told_by_count(&[(1, 5), (1, 1)], 3), [anew, of_extension]);
    assert_eq!(told_by_count(&[(1, 1), (2, 2)], 4), [anew, of_extension]);
    assert!(told_by_count(&[(2, 1), (1, 2)], 4).is_empty());
    let ties = "a bound as heavy as the best were enough";
    let with_tie = told_by_count(&[(1, 2), (2, 2), (1, 2)], 5);
    for name in [ties, unasked, of_all] {
        assert!(with_tie.contains(&name.into()), "{name}");
    }
    let deepest_last = told_by_count(&[(2, 1), (3, 1), (1, 1)], 8);
    assert!(deepest_last.contains(&by_priority.into()));
}
