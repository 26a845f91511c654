//! The sorts that are about precedence: each is told of a small case that has it, and not of one that lacks it.

mod common;

use common::*;
use second::blocks::{image_of, patch_image, Form};
use second::preempt::true_map;
use second::records::{Pair, Record, Task};
use second::stream::step::Step;
use second::stream::{Call, Case};
use second::table::Table;

/// Tasks 1 to 5, each more urgent than the one before and all free to nest, with these pairs.
fn base(pairs: &[Pair]) -> Table {
    let tasks: Vec<Task> = (1..=5)
        .map(|id| Task {
            transaction: 1 + id % 2,
            ..unmeasured(id, id, 0)
        })
        .collect();
    table(&tasks, pairs)
}

fn records(pairs: &[Pair]) -> Vec<Record> {
    pairs.iter().map(Pair::record).collect()
}

/// The sorts about pairs that the patch call of these changes is of.
fn sorts_of_change(listed: &[Pair], taken_out: &[Pair], put_in: &[Pair]) -> Vec<String> {
    let base = base(listed);
    let case = Case {
        patch: patch_image(&records(taken_out), &records(put_in)),
        map_read: true_map(&base).to_vec(),
        map_written: vec![0; 65],
        room: vec![0; 600],
        ..Case::lending(Call::Patch, table_image(&base))
    };
    let mut sorts = sorts_of(&case);
    sorts.retain(|name| !name.contains("rows") && !name.starts_with("a pair "));
    sorts
}

const PUT_IN: &str = "a precedence pair put in";
const TAKEN_OUT: &str = "a precedence pair taken out";
const TURNED: &str = "a precedence pair turned round";
const TO_ONE_WAY: &str = "a precedence pair exchanged for a one-way pair";
const TO_PRECEDENCE: &str = "a one-way pair exchanged for a precedence pair";
const PUT_BACK: &str = "nothing but a precedence pair put back, and a task touched along a path";
const FREED: &str = "a cell freed between tasks that are touched along a path alone";
const BARRED: &str = "a cell barred between tasks that are touched along a path alone";
const ONE_WAY: &str = "nothing but a one-way pair of a task on a path changed";
const CIRCLE: &str = "an outcome refused for a circle alone";

#[test]
fn changes_of_precedence_pairs_are_told() {
    let path = [precedence(1, 2), precedence(2, 3), precedence(3, 4)];
    let ends = [path[0], path[2]];
    assert_eq!(sorts_of_change(&path, &[path[1]], &[]), [TAKEN_OUT, FREED]);
    assert_eq!(sorts_of_change(&ends, &[], &[path[1]]), [PUT_IN, BARRED]);
    assert_eq!(sorts_of_change(&path, &[path[0]], &[]), [TAKEN_OUT]);
    let turned = [precedence(3, 2)];
    assert_eq!(sorts_of_change(&path, &[path[1]], &turned), [TURNED, FREED]);
    let one_way = [one_way(2, 3)];
    assert_eq!(
        sorts_of_change(&path, &[path[1]], &one_way),
        [TO_ONE_WAY, FREED]
    );
    let broken = [path[0], one_way[0], path[2]];
    assert_eq!(
        sorts_of_change(&broken, &one_way, &[path[1]]),
        [TO_PRECEDENCE, BARRED]
    );
}

#[test]
fn pairs_that_change_nothing_or_touch_nothing_more_are_told() {
    let path = [precedence(1, 2), precedence(2, 3)];
    let unchanged = "an unchanged record put back";
    assert_eq!(
        sorts_of_change(&path, &[path[0]], &[path[0]]),
        [unchanged, PUT_BACK]
    );
    let alone = [path[0]];
    assert_eq!(sorts_of_change(&alone, &alone, &alone), [unchanged]);
    assert_eq!(sorts_of_change(&path, &[], &[one_way(3, 4)]), [ONE_WAY]);
    assert!(sorts_of_change(&path, &[], &[one_way(4, 5)]).is_empty());
}

#[test]
fn an_outcome_is_told_that_a_circle_alone_speaks_against() {
    let path = [precedence(1, 2), precedence(2, 3)];
    assert_eq!(sorts_of_change(&path, &[], &[precedence(3, 1)]), [CIRCLE]);
    let and_unlisted = [precedence(3, 1), one_way(3, 9)];
    assert!(sorts_of_change(&path, &[], &and_unlisted).is_empty());
    assert!(sorts_of_change(&path, &[precedence(4, 5)], &[precedence(3, 1)]).is_empty());
}

/// The sorts of the verdict of a table with these pairs.
fn sorts_of_table(pairs: &[Pair]) -> Vec<String> {
    sorts_of(&Case::lending(
        Call::TableVerdict,
        table_image(&base(pairs)),
    ))
}

#[test]
fn circles_are_told_by_their_length_and_their_tails() {
    let circle = [precedence(2, 3), precedence(3, 4), precedence(4, 2)];
    assert_eq!(sorts_of_table(&circle), ["a circle of 3 tasks"]);
    let with = |pair: Pair| sorts_of_table(&[&circle[..], &[pair]].concat());
    let lower = [
        "a circle with a lower id that leads into it",
        "a circle with a lower id behind it",
    ];
    assert_eq!(with(precedence(1, 3)), ["a circle of 3 tasks", lower[0]]);
    assert_eq!(with(precedence(3, 1)), ["a circle of 3 tasks", lower[1]]);
    assert_eq!(with(precedence(5, 3)), ["a circle of 3 tasks"]);
    assert_eq!(with(precedence(3, 2)), ["a circle of 2 tasks"]);
    assert_eq!(with(one_way(5, 9)), ["a circle behind another refusal"]);
    let two = [
        precedence(1, 2),
        precedence(2, 1),
        precedence(4, 5),
        precedence(5, 4),
    ];
    let apart = "circles that no path joins";
    assert_eq!(sorts_of_table(&two), ["a circle of 2 tasks", apart]);
    let joined = [&two[..], &[precedence(2, 4)]].concat();
    assert_eq!(sorts_of_table(&joined), ["a circle of 2 tasks"]);
}

#[test]
fn accepted_tables_are_told_by_what_their_paths_do() {
    let apart = "tasks kept apart by nothing but a path through a third task";
    assert_eq!(
        sorts_of_table(&[precedence(1, 2), precedence(2, 3)]),
        [apart]
    );
    assert!(sorts_of_table(&[precedence(1, 2), precedence(3, 4)]).is_empty());
    let before = "tasks before one task that may nest";
    assert_eq!(
        sorts_of_table(&[precedence(1, 3), precedence(2, 3)]),
        [before]
    );
    let after = "tasks after one task that may nest";
    assert_eq!(
        sorts_of_table(&[precedence(1, 2), precedence(1, 3)]),
        [after]
    );
    let past = "tasks that may nest because a one-way pair is no part of a path";
    assert_eq!(sorts_of_table(&[precedence(1, 2), one_way(2, 3)]), [past]);
    let back = "a one-way pair that leads back along a path";
    assert_eq!(sorts_of_table(&[precedence(1, 2), one_way(2, 1)]), [back]);
    let against = "a path across transactions and against priorities";
    assert_eq!(sorts_of_table(&[precedence(2, 1)]), [against]);
}

#[test]
fn circles_in_patches_are_told() {
    let circle = records(&[precedence(1, 2), precedence(2, 1)]);
    let sorts = |patch| sorts_of(&Case::lending(Call::PatchVerdict, patch));
    let put_in = sorts(patch_image(&[], &circle));
    assert_eq!(put_in, ["a patch that puts in a circle"]);
    let taken_out = sorts(patch_image(&circle, &[]));
    assert_eq!(taken_out, ["a patch that takes out a circle"]);
    assert!(sorts(patch_image(&circle[..1], &circle[1..])).is_empty());
    assert!(sorts(image_of(Form::Table, &circle)).is_empty());
}

#[test]
fn a_run_is_of_the_sorts_of_its_steps() {
    let base = base(&[precedence(1, 2)]);
    let step = |taken_out: &[Pair], put_in: &[Pair]| Step {
        patch: patch_image(&records(taken_out), &records(put_in)),
        map_rows: 64,
        room_bytes: 600,
    };
    let steps = vec![
        step(&[precedence(1, 2)], &[precedence(2, 1)]),
        step(&[], &[precedence(1, 2)]),
        step(&[], &[precedence(4, 5)]),
        step(&[precedence(2, 1)], &[]),
    ];
    let run = |steps: &[Step]| {
        sorts_of(&Case {
            map_read: true_map(&base).to_vec(),
            steps: steps.to_vec(),
            ..Case::lending(Call::Run, table_image(&base))
        })
    };
    let names = [PUT_IN, TAKEN_OUT, TURNED, CIRCLE].map(|name| format!("a run with {name}"));
    let all_three = "a run with precedence pairs put in, taken out and turned round";
    assert_eq!(run(&steps), [&names[..], &[all_three.into()]].concat());
    assert_eq!(run(&steps[..2]), [&names[2..3], &names[3..]].concat());
}
