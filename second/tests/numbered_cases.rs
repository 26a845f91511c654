//! The cases with numbers 1 to 14.

mod common;

use common::*;
use second::answer::answer;
use second::blocks::{records_in, right_check};
use second::figure2::figure2;
use second::numbered_cases::{patch_of, runs_of};
use second::preempt::{is_set, reason_for, true_map};
use second::reasons::Reason;
use second::records::Task;
use second::table::Table;
use second::verdict::Refusal;

/// Why the first of two tasks may or may not be preempted by the second.
fn answers(lower: Task, upper: Task) -> Reason {
    reason_for(&table(&[lower, upper], &[]), &lower, &upper)
}

#[test]
fn cases_1_and_2_response_reaches_the_next_activation() {
    let upper = task(2, 2, 2588, 3000);
    assert_eq!(answers(task(1, 1, 617, 2588), upper), Reason::Timing);
    assert_eq!(answers(task(1, 1, 617, 2589), upper), Reason::Response);
}

#[test]
fn cases_3_and_4_jitter_passes_the_distance() {
    let lower = task(1, 1, 617, 617);
    let upper = |jitter| Task {
        jitter,
        ..task(2, 2, 0, 100)
    };
    assert_eq!(answers(lower, upper(617)), Reason::Timing);
    assert_eq!(answers(lower, upper(618)), Reason::Jitter);
}

#[test]
fn cases_5_and_6_response_passes_the_period() {
    let upper = task(2, 2, 0, 100);
    assert_eq!(answers(task(1, 1, 0, 10_000), upper), Reason::Timing);
    assert_eq!(answers(task(1, 1, 0, 10_001), upper), Reason::Response);
}

#[test]
fn cases_7_to_10_two_transactions_and_pairs() {
    let upper = Task {
        transaction: 2,
        ..task(2, 2, 0, 100)
    };
    let equal = task(1, 2, 0, 100);
    let lower = task(1, 1, 0, 100);
    assert_eq!(answers(equal, upper), Reason::Priority);
    assert_eq!(answers(lower, upper), Reason::Transaction);
    let with = |pair| reason_for(&table(&[lower, upper], &[pair]), &lower, &upper);
    assert_eq!(with(one_way(2, 1)), Reason::Transaction);
    assert_eq!(with(one_way(1, 2)), Reason::Pair);
    assert_eq!(with(precedence(2, 1)), Reason::Pair);
    assert_eq!(with(precedence(1, 2)), Reason::Pair);
}

#[test]
fn case_11_a_one_way_pair_is_put_in() {
    let base = figure2();
    let outcome = apply(
        &table_image(&base),
        &patch_of(11).unwrap(),
        &true_map(&base),
    )
    .unwrap();
    assert_eq!(outcome.patched.touched, 2);
    let (bounds, chain) = bounds_with(&Table::read(&records_in(&outcome.image)), &outcome.map);
    assert_eq!((bounds.chain, chain), (7, vec![11, 12, 21]));
    assert_eq!(
        (bounds.path, bounds.transactions, bounds.levels),
        (9, 9, 10)
    );
}

#[test]
fn case_12_a_task_before_all_others_is_put_in() {
    let base = figure2();
    let base_map = true_map(&base);
    assert!(is_set(&base_map, 0, 1));
    let outcome = apply(&table_image(&base), &patch_of(12).unwrap(), &base_map).unwrap();
    assert!(is_set(&outcome.map, 1, 2));
    assert_eq!(outcome.patched.touched, 1);
    let (bounds, _) = bounds_with(&Table::read(&records_in(&outcome.image)), &outcome.map);
    assert_eq!(bounds.tasks, 7);
    assert_eq!(bounds.chain, 8);
}

#[test]
fn case_13_the_same_patch_again_and_a_task_with_another_size() {
    let base = figure2();
    let first = apply(
        &table_image(&base),
        &patch_of(12).unwrap(),
        &true_map(&base),
    )
    .unwrap();
    let again = apply(&first.image, &patch_of(12).unwrap(), &first.map);
    assert_eq!(again.err(), Some(Refusal::new(10, 0)));
    let absent = apply(
        &table_image(&base),
        &patch_of(13).unwrap(),
        &true_map(&base),
    );
    assert_eq!(absent.err(), Some(Refusal::new(9, 0)));
}

/// The numbers of each step in the runs of a case, without the digests.
fn steps_of(number: u32) -> Vec<Vec<u64>> {
    let runs = runs_of(number).unwrap().into_iter();
    let lines: Vec<String> = runs.map(|mut run| answer(&mut run)).collect();
    let steps = lines.iter().flat_map(|line| line.split(" | ").skip(1));
    let numbers =
        |step: &str| -> Vec<u64> { step.split(' ').map(|n| n.parse().unwrap()).collect() };
    let without_digests = |mut step: Vec<u64>| {
        let digests = 5 + step[4] as usize;
        step.drain(digests..digests + 2);
        step
    };
    steps.map(|step| without_digests(numbers(step))).collect()
}

#[test]
fn runs_of_the_cases_show_their_numbers() {
    let case_11 = [0, 0, 2, 512, 0, 0, 0, 6, 7, 9, 9, 10, 3, 11, 12, 21];
    assert_eq!(steps_of(11)[0][..16], case_11);
    let case_12 = [0, 0, 1, 512, 0, 0, 0, 7, 8, 12, 9, 12, 3, 11, 12, 23];
    assert_eq!(steps_of(12)[0][..16], case_12);
    let row_of_11 = steps_of(12)[0][17];
    assert_eq!(row_of_11, 0b101_0101);
    let case_13 = steps_of(13);
    assert_eq!(case_13[0], steps_of(12)[0]);
    assert_eq!(case_13[1][..5], [10, 0, 0, 0, 0]);
    assert_eq!(case_13[1][5..], case_13[0][5..]);
    assert_eq!(case_13[2][..5], [9, 0, 0, 0, 32]);
    let patch = patch_of(13).unwrap();
    let taken_out: Vec<u64> = patch[8..40].iter().copied().map(u64::from).collect();
    assert_eq!(case_13[2][5..37], taken_out);
}

#[test]
fn case_14_the_check_of_the_empty_table() {
    assert_eq!(right_check(&table_image(&Table::default())), 220);
}
