//! The known traps: each test fails for a program that falls into one.

mod common;

use common::*;
use second::blocks::{patch_image, records_in};
use second::figure2::figure2;
use second::preempt::{distance, is_set, may_be_preempted, true_map};
use second::records::{Task, Transaction};
use second::table::Table;

#[test]
fn response_is_counted_from_the_activation() {
    let (lower, upper) = (task(1, 1, 617, 2588), task(2, 2, 2588, 2588));
    assert!(!may_be_preempted(
        &table(&[lower, upper], &[]),
        &lower,
        &upper
    ));
}

#[test]
fn the_distance_never_goes_negative() {
    assert_eq!(distance(2588, 617, 10_000), 8029);
    assert_eq!(distance(617, 2588, 10_000), 1971);
    assert_eq!(distance(999_999_999, 0, 1_000_000_000), 1);
    let lower = task(1, 1, 617, 700);
    let upper = Task {
        jitter: 8029,
        ..task(2, 2, 2588, 2600)
    };
    let asked = table(&[lower, upper], &[]);
    assert!(!may_be_preempted(&asked, &lower, &upper));
}

#[test]
fn the_distance_is_that_of_the_two_cases_of_the_paper() {
    let period = 12;
    for to in 0..period {
        for from in 0..period {
            let psi = if to < from {
                period + to - from
            } else {
                to - from
            };
            assert_eq!(distance(from, to, period), u64::from(psi));
        }
    }
}

#[test]
fn a_path_is_no_chain() {
    let (bounds, _) = own_bounds(&figure2());
    assert_eq!((bounds.chain, bounds.path), (8, 10));
}

#[test]
fn a_patch_moves_rows_and_columns() {
    let base = figure2();
    let base_map = true_map(&base);
    let patch = patch_image(&[base.tasks[0].record()], &[]);
    let outcome = apply(&table_image(&base), &patch, &base_map).unwrap();
    for row in 0..5 {
        for cell in 0..5 {
            assert_eq!(
                is_set(&outcome.map, row, cell),
                is_set(&base_map, row + 1, cell + 1)
            );
        }
    }
}

#[test]
fn a_changed_period_touches_the_tasks_of_its_transaction() {
    let (lower, upper) = (task(1, 1, 0, 5001), task(2, 2, 0, 100));
    let base = table(&[lower, upper], &[]);
    assert!(!is_set(&true_map(&base), 0, 1));
    let shorter = Transaction {
        number: 1,
        period: 5000,
    };
    let patch = patch_image(&[base.transactions[0].record()], &[shorter.record()]);
    let outcome = apply(&table_image(&base), &patch, &true_map(&base)).unwrap();
    assert_eq!(outcome.patched.touched, 2);
    assert!(is_set(&outcome.map, 0, 1));
    let new = Table::read(&records_in(&outcome.image));
    assert_eq!(outcome.map, true_map(&new));
}

#[test]
fn a_missing_jitter_is_no_zero_and_kept_as_written() {
    let base = table(&[task(1, 1, 617, 617), unmeasured(2, 2, 0)], &[]);
    assert_eq!(true_map(&base)[..2], [0b10, 0]);
    let image = table_image(&base);
    let jitter_at = 8 + 3 * 32 + 12;
    assert_eq!(image[jitter_at..][..4], [255; 4]);
    let outcome = apply(&image, &patch_image(&[], &[]), &[0; 64]).unwrap();
    assert_eq!(outcome.image, image);
}

#[test]
fn two_tasks_before_a_third_may_nest() {
    let tasks = [task(1, 1, 0, 9), task(2, 2, 0, 9), task(3, 3, 0, 9)];
    let mut asked = table(&tasks, &[precedence(1, 2), precedence(3, 2)]);
    asked.tasks[0].transaction = 2;
    let map = true_map(&asked);
    assert!(!is_set(&map, 0, 1) && !is_set(&map, 1, 2));
    assert!(is_set(&map, 0, 2));
}
