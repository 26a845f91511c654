//! Patch calls: refusals, what is touched and what is kept.

mod common;

use common::*;
use second::blocks::{patch_image, records_in};
use second::figure2::figure2;
use second::generate::Generator;
use second::patch_call::patch_call;
use second::preempt::{is_set, true_map};
use second::records::{Record, Task, Transaction};
use second::stream::Call;
use second::table::Table;
use second::verdict::Refusal;

#[test]
fn the_generator_carries_image_and_map_along_its_runs() {
    let mut generator = Generator::from_seed(32);
    let mut carried = 0;
    let mut left: Option<(Vec<u8>, Vec<u64>)> = None;
    for _ in 0..300 {
        let mut case = generator.next_case(Call::Patch);
        if let Some((image, map)) = &left {
            carried += usize::from(*image == case.image && case.map_read.starts_with(map));
        }
        let answer = patch_call(
            &case.image,
            &case.patch,
            &case.map_read,
            &mut case.room,
            &mut case.map_written,
        );
        if let Ok(patched) = answer {
            case.room.truncate(patched.length);
            case.map_written.truncate(64);
            left = Some((case.room, case.map_written));
        }
    }
    assert!(carried > 150);
}

/// The number and place with which figure 2 refuses these records.
fn refusal_of(taken_out: &[Record], put_in: &[Record]) -> Option<Refusal> {
    let base = figure2();
    let patch = patch_image(taken_out, put_in);
    apply(&table_image(&base), &patch, &true_map(&base)).err()
}

#[test]
fn refusal_9_hands_back_a_part_of_the_patch() {
    let base = figure2();
    let changed = Task {
        jitter: u32::MAX,
        ..base.tasks[5]
    };
    let mut taken_out = base.records();
    taken_out[7] = changed.record();
    let patch = patch_image(&taken_out, &[]);
    let mut room = [9; 512];
    let mut map = [9; 64];
    let answer = patch_call(&table_image(&base), &patch, &[], &mut room, &mut map);
    let refused = answer.unwrap_err();
    assert_eq!(refused.refusal, Refusal::new(9, 7));
    assert_eq!(refused.offending, changed.record().0);
    assert_eq!(refused.offending.as_ptr(), patch[8 + 7 * 32..].as_ptr());
    assert_eq!((room, map), ([9; 512], [9; 64]));
}

#[test]
fn refusal_9_tells_a_missing_jitter_from_its_period_written() {
    let missing = unmeasured(2, 2, 0);
    let written = Task {
        jitter: PERIOD,
        ..missing
    };
    assert_eq!(refusal_of_taking_out(missing, missing), None);
    assert_eq!(refusal_of_taking_out(written, written), None);
    let absent = Some(Refusal::new(9, 0));
    assert_eq!(refusal_of_taking_out(written, missing), absent);
    assert_eq!(refusal_of_taking_out(missing, written), absent);
}

#[test]
fn refusal_10_is_for_an_outcome_that_is_no_table() {
    let base = figure2();
    let bad_outcome = Some(Refusal::new(10, 0));
    assert_eq!(refusal_of(&[], &[base.tasks[0].record()]), bad_outcome);
    assert_eq!(
        refusal_of(&[base.transactions[0].record()], &[]),
        bad_outcome
    );
    assert_eq!(refusal_of(&[], &[one_way(11, 99).record()]), bad_outcome);
    let shorter = Transaction {
        number: 2,
        period: 2588,
    };
    let old = base.transactions[1].record();
    assert_eq!(refusal_of(&[old], &[shorter.record()]), bad_outcome);
    let many: Vec<Record> = (101..160).map(|id| task(id, 1, 0, 1).record()).collect();
    assert_eq!(refusal_of(&[], &many), bad_outcome);
    assert_eq!(refusal_of(&[], &many[1..]), None);
}

#[test]
fn refusal_11_is_for_each_lent_map_and_the_room() {
    let base = table_image(&figure2());
    let patch = patch_image(&[], &[]);
    let call = |base_rows: usize, new_rows: usize, room: usize| {
        let (base_map, mut room) = (vec![0; base_rows], vec![7; room]);
        let mut new_map = vec![7; new_rows];
        let answer = patch_call(&base, &patch, &base_map, &mut room, &mut new_map);
        let number = answer.map_or_else(|refused| refused.refusal.number, |_| 0);
        let untouched = room.iter().all(|b| *b == 7) && new_map.iter().all(|row| *row == 7);
        (number, untouched)
    };
    assert_eq!(call(63, 64, 512), (11, true));
    assert_eq!(call(64, 63, 512), (11, true));
    assert_eq!(call(64, 64, 511), (11, true));
    assert_eq!(call(64, 64, 512), (0, false));
}

#[test]
fn a_bad_base_hides_a_bad_patch() {
    let base = table_image(&figure2());
    assert_eq!(apply(&[], &[], &[]).err(), Some(Refusal::new(1, 0)));
    assert_eq!(apply(&base, &[], &[]).err(), Some(Refusal::new(21, 0)));
}

#[test]
fn the_empty_patch_keeps_cells_among_tasks_and_clears_others() {
    let base = table_image(&figure2());
    let outcome = apply(&base, &patch_image(&[], &[]), &[u64::MAX; 64]).unwrap();
    assert_eq!((outcome.patched.touched, &outcome.image), (0, &base));
    assert_eq!(outcome.map[..6], [0b11_1111; 6]);
    assert_eq!(outcome.map[6..], [0; 58]);
}

#[test]
fn bytes_and_rows_beyond_the_outcome_keep_their_values() {
    let base = figure2();
    let patch = patch_image(&base.records(), &[]);
    let mut room = [3; 600];
    let mut map = [3; 70];
    let answer = patch_call(
        &table_image(&base),
        &patch,
        &[u64::MAX; 64],
        &mut room,
        &mut map,
    );
    let patched = answer.unwrap();
    assert_eq!((patched.touched, patched.length), (0, 512));
    assert_eq!(room[..512], table_image(&Table::default()));
    assert_eq!(room[512..], [3; 88]);
    assert_eq!(map[..64], [0; 64]);
    assert_eq!(map[64..], [3; 6]);
}

#[test]
fn untouched_cells_are_copied_whatever_they_say() {
    let base = figure2();
    let patch = patch_image(&[base.tasks[0].record()], &[]);
    let outcome = apply(&table_image(&base), &patch, &[u64::MAX; 64]).unwrap();
    assert_eq!(records_in(&outcome.image).len(), 7);
    assert_eq!(outcome.map[..5], [0b1_1111; 5]);
    let none_set = apply(&table_image(&base), &patch, &[0; 64]).unwrap();
    assert_eq!(none_set.map, [0; 64]);
}

#[test]
fn putting_back_and_pairs_taken_out_touch() {
    let mut base = figure2();
    base.pairs = vec![precedence(12, 23)];
    let touched = |taken_out: &[Record], put_in: &[Record]| {
        let patch = patch_image(taken_out, put_in);
        let outcome = apply(&table_image(&base), &patch, &[0; 64]).unwrap();
        (outcome.patched.touched, outcome.map)
    };
    let pair = base.pairs[0].record();
    let (count, map) = touched(&[pair], &[]);
    assert_eq!(count, 2);
    assert!(is_set(&map, 1, 5));
    let same = base.transactions[1].record();
    assert_eq!(touched(&[same], &[same]).0, 3);
    let same = base.tasks[2].record();
    assert_eq!(touched(&[same], &[same]).0, 1);
}

#[test]
fn a_period_alone_changes_what_a_missing_jitter_is_read_as() {
    let (lower, upper) = (task(1, 1, 0, 0), unmeasured(2, 2, 1));
    let elsewhere = Task {
        transaction: 2,
        ..task(3, 3, 0, 0)
    };
    let mut base = table(&[lower, upper, elsewhere], &[]);
    base.transactions[0].period = 10;
    let mut longer = base.clone();
    longer.transactions[0].period = PERIOD;
    let records = [&base, &longer].map(|table| [table.transactions[0].record()]);
    let patch = patch_image(&records[0], &records[1]);
    for base_map in [true_map(&base), [0; 64]] {
        let outcome = apply(&table_image(&base), &patch, &base_map).unwrap();
        assert_eq!(outcome.patched.touched, 2);
        assert_eq!(outcome.image, table_image(&longer));
        assert_eq!(outcome.map, true_map(&longer));
        assert_eq!(outcome.map[..3], [0b110, 0b100, 0]);
    }
}
