//! Preemption thresholds: their range, the decision and the cells of lent maps by them, and patches that change one.

mod common;

use common::*;
use second::blocks::{image_of, patch_image, Form};
use second::figure2::figure2;
use second::preempt::{is_set, reason_for, true_map};
use second::reasons::Reason;
use second::records::{Pair, Record, Task, THRESHOLD_AT};
use second::table::Table;
use second::verdict::Refusal;

/// Number and place of a table whose third record, its only task, has this priority and this threshold.
fn verdict_of(priority: u16, threshold: u8) -> (u32, usize) {
    let only = with_threshold(threshold, task(1, priority, 0, 9));
    as_table(&table_image(&table(&[only], &[])))
}

#[test]
fn a_threshold_is_0_or_from_the_priority_to_255() {
    for priority in 1..=255u8 {
        let verdict = |threshold: u8| verdict_of(u16::from(priority), threshold);
        assert_eq!([0, priority, 255].map(verdict), [(0, 0); 3]);
        if priority > 1 {
            assert_eq!([1, priority - 1].map(verdict), [(6, 2); 2]);
        }
    }
    assert_eq!(verdict_of(2, 1), (6, 2));
    assert_eq!(verdict_of(1, 1), (0, 0));
    assert_eq!(verdict_of(254, 255), (0, 0));
}

/// Number and place of the patch that takes out or puts in this record alone.
fn verdicts_in_patches(record: Record) -> [(u32, usize); 2] {
    let taken_out = patch_image(&[record], &[]);
    let put_in = patch_image(&[], &[record]);
    [as_patch(&taken_out), as_patch(&put_in)]
}

#[test]
fn a_patch_refuses_thresholds_of_records_taken_out_and_put_in() {
    let with =
        |threshold| verdicts_in_patches(with_threshold(threshold, task(1, 9, 0, 9)).record());
    for threshold in [1, 8] {
        assert_eq!(with(threshold), [(26, 0); 2]);
    }
    for threshold in [0, 9, 10, 255] {
        assert_eq!(with(threshold), [(0, 0); 2]);
    }
    let absent = with_threshold(1, task(2, 2, 0, 9));
    let refused = Some(Refusal::new(26, 0));
    assert_eq!(refusal_of_taking_out(absent, task(2, 2, 0, 9)), refused);
}

#[test]
fn a_threshold_out_of_range_is_told_before_too_many_tasks_and_unlisted_ones() {
    let below = with_threshold(1, task(99, 2, 0, 9));
    let mut tasks: Vec<Task> = (1..=64).map(|id| task(id, 1, 0, 9)).collect();
    tasks.push(below);
    assert_eq!(as_table(&table_image(&table(&tasks, &[]))), (6, 66));
    let unlisted = Task {
        transaction: 3,
        ..task(1, 1, 0, 9)
    };
    let asked = table(&[unlisted, below], &[]);
    assert_eq!(as_table(&table_image(&asked)), (6, 3));
}

#[test]
fn byte_22_of_others_and_byte_23_of_a_task_are_said_to_be_0() {
    let records = table(&[task(1, 1, 0, 9), task(2, 2, 0, 9)], &[one_way(1, 2)]).records();
    for (rank, at) in [(0, THRESHOLD_AT), (4, THRESHOLD_AT), (2, THRESHOLD_AT + 1)] {
        let mut stray = records.clone();
        stray[rank].0[at] = 255;
        assert_eq!(as_table(&image_of(Form::Table, &stray)), (4, rank));
        assert_eq!(as_patch(&image_of(Form::Patch, &stray)), (24, rank));
    }
}

/// Why a task of priority 2 with this threshold may or may not be preempted by one of another transaction.
fn reason_above(threshold: u8, upper_priority: u16) -> Reason {
    let lower = with_threshold(threshold, task(1, 2, 0, 9));
    let upper = Task {
        transaction: 2,
        ..task(2, upper_priority, 0, 9)
    };
    reason_for(&table(&[lower, upper], &[]), &lower, &upper)
}

#[test]
fn only_a_priority_above_the_threshold_preempts() {
    for threshold in [0, 2] {
        assert_eq!(reason_above(threshold, 2), Reason::Priority);
        assert_eq!(reason_above(threshold, 3), Reason::Transaction);
    }
    for threshold in 3..=254 {
        let [at, above] = [0, 1].map(|more| u16::from(threshold) + more);
        assert_eq!(reason_above(threshold, 3), Reason::Priority);
        assert_eq!(reason_above(threshold, at), Reason::Priority);
        assert_eq!(reason_above(threshold, above), Reason::Transaction);
    }
    assert_eq!(reason_above(255, 255), Reason::Priority);
}

#[test]
fn the_threshold_of_the_preempting_task_is_not_asked() {
    let lower = with_threshold(4, task(1, 2, 0, 9));
    for threshold in [0, 4, 5, 255] {
        let below = with_threshold(threshold, unmeasured(2, 4, 0));
        assert_eq!(reason_of_two(lower, below, &[]), Reason::Priority);
    }
    for threshold in [0, 5, 6, 255] {
        let above = with_threshold(threshold, unmeasured(2, 5, 0));
        assert_eq!(reason_of_two(lower, above, &[]), Reason::Jitter);
    }
}

/// Why the first of two tasks may or may not be preempted by the second, in a table with these pairs.
fn reason_of_two(lower: Task, upper: Task, pairs: &[Pair]) -> Reason {
    reason_for(&table(&[lower, upper], pairs), &lower, &upper)
}

#[test]
fn a_threshold_that_forbids_is_named_before_a_pair_and_before_times() {
    let plain = task(1, 1, 0, 2 * PERIOD);
    let (upper, late) = (task(2, 2, 0, 9), unmeasured(2, 2, 0));
    assert_eq!(reason_of_two(plain, upper, &[]), Reason::Response);
    assert_eq!(reason_of_two(plain, late, &[]), Reason::Jitter);
    let forbidding = with_threshold(2, plain);
    for pairs in [&[][..], &[one_way(1, 2)], &[precedence(2, 1)]] {
        assert_eq!(reason_of_two(forbidding, upper, pairs), Reason::Priority);
        assert_eq!(reason_of_two(forbidding, late, pairs), Reason::Priority);
    }
    let just_below = with_threshold(1, plain);
    assert_eq!(
        reason_of_two(just_below, upper, &[one_way(1, 2)]),
        Reason::Pair
    );
}

/// Tasks of priorities 1 to 5 with sizes 1, 2, 4, 8 and 16, that nest in all of lower priority, with these thresholds.
fn nesting(thresholds: [u8; 5]) -> Table {
    let ranked = (1..=5).zip(thresholds);
    let tasks = ranked.map(|(rank, threshold)| Task {
        stack: 1 << (rank - 1),
        ..with_threshold(threshold, unmeasured(rank, rank, 0))
    });
    table(&tasks.collect::<Vec<Task>>(), &[])
}

#[test]
fn the_map_has_no_cell_that_a_threshold_forbids() {
    let rows = |thresholds| true_map(&nesting(thresholds))[..5].to_vec();
    let all = [0b11110, 0b11100, 0b11000, 0b10000, 0];
    assert_eq!(rows([0, 0, 0, 0, 0]), all);
    assert_eq!(rows([1, 2, 3, 4, 5]), all);
    assert_eq!(rows([2, 4, 0, 255, 0]), [0b11100, 0b10000, 0b11000, 0, 0]);
    assert_eq!(rows([255; 5]), [0; 5]);
}

/// The four bounds of a table with this map: chain, path, transactions and levels; and the chain's ids.
fn found(table: &Table, map: &[u64]) -> ([u64; 4], Vec<u16>) {
    let (bounds, ids) = bounds_with(table, map);
    let found = [
        bounds.chain,
        bounds.path,
        bounds.transactions,
        bounds.levels,
    ];
    (found, ids)
}

#[test]
fn a_set_cell_of_a_lent_map_does_not_count_where_the_threshold_alone_forbids_it() {
    let full = [u64::MAX; 64];
    let free = nesting([0; 5]);
    assert_eq!(found(&free, &full), ([31; 4], vec![1, 2, 3, 4, 5]));
    let held = nesting([0, 4, 0, 0, 0]);
    assert_eq!(found(&held, &full), ([29, 29, 29, 31], vec![1, 3, 4, 5]));
    assert_eq!(found(&held, &full), found(&held, &true_map(&held)));
    let last_held = nesting([0, 0, 0, 255, 0]);
    let without_one_cell = ([23, 23, 23, 31], vec![1, 2, 3, 5]);
    assert_eq!(found(&last_held, &full), without_one_cell);
    assert_eq!(
        found(&nesting([255; 5]), &full),
        ([16, 16, 16, 31], vec![5])
    );
}

#[test]
fn levels_are_those_of_the_priorities() {
    let alike = [task(1, 1, 0, 9), task(2, 1, 0, 9), task(3, 2, 0, 9)];
    for thresholds in [[0, 0, 0], [1, 7, 7], [2, 2, 2], [255, 9, 3]] {
        let ranked = alike.into_iter().zip(thresholds);
        let tasks = ranked.map(|(task, threshold)| with_threshold(threshold, task));
        let (bounds, _) = own_bounds(&table(&tasks.collect::<Vec<Task>>(), &[]));
        assert_eq!(bounds.levels, 2);
    }
}

#[test]
fn refusal_9_tells_a_threshold_of_0_from_its_priority_written() {
    let plain = task(2, 7, 0, 9);
    let written = with_threshold(7, plain);
    assert_eq!(refusal_of_taking_out(plain, plain), None);
    assert_eq!(refusal_of_taking_out(written, written), None);
    let absent = Some(Refusal::new(9, 0));
    assert_eq!(refusal_of_taking_out(written, plain), absent);
    assert_eq!(refusal_of_taking_out(plain, written), absent);
    assert_eq!(
        refusal_of_taking_out(with_threshold(8, plain), written),
        absent
    );
}

/// The patch that changes the threshold of the task at this place and nothing else, and the table that it leads to.
fn to_threshold(base: &Table, place: usize, threshold: u8) -> (Vec<u8>, Table) {
    let mut target = base.clone();
    target.tasks[place].threshold = threshold;
    let [old, new] = [base, &target].map(|table| [table.tasks[place].record()]);
    (patch_image(&old, &new), target)
}

#[test]
fn a_changed_threshold_touches_its_task_and_no_other() {
    let base = figure2();
    for (threshold, row) in [(0, 0b101000), (2, 0b101000), (3, 0), (255, 0)] {
        let (patch, target) = to_threshold(&base, 1, threshold);
        let outcome = apply(&table_image(&base), &patch, &true_map(&base)).unwrap();
        assert_eq!(outcome.patched.touched, 1);
        assert_eq!(outcome.image, table_image(&target));
        assert_eq!(outcome.map, true_map(&target));
        assert_eq!(outcome.map[1], row);
    }
}

#[test]
fn cells_between_other_tasks_are_carried_where_a_threshold_changes() {
    let base = figure2();
    let (patch, target) = to_threshold(&base, 1, 3);
    let outcome = apply(&table_image(&base), &patch, &[u64::MAX; 64]).unwrap();
    let decided = true_map(&target);
    for (row, cell) in (0..6).flat_map(|row| (0..6).map(move |cell| (row, cell))) {
        let expected = row != 1 && cell != 1 || is_set(&decided, row, cell);
        assert_eq!(is_set(&outcome.map, row, cell), expected);
    }
}

#[test]
fn an_outcome_keeps_the_byte_that_a_threshold_is_written_in() {
    let plain = figure2();
    let (exchange, written) = to_threshold(&plain, 1, 2);
    let (back, _) = to_threshold(&written, 1, 0);
    assert_eq!(true_map(&plain), true_map(&written));
    let images = [&plain, &written].map(table_image);
    assert_ne!(images[0], images[1]);
    let there = apply(&images[0], &exchange, &true_map(&plain)).unwrap();
    assert_eq!((&there.image, there.patched.touched), (&images[1], 1));
    let again = apply(&there.image, &back, &there.map).unwrap();
    assert_eq!((again.image, again.map), (images[0].clone(), there.map));
    assert_eq!(own_bounds(&plain), own_bounds(&written));
}
