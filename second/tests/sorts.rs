//! The sorts of call that a comparison is to meet.

mod common;

use common::*;
use second::blocks::patch_image;
use second::figure2::figure2;
use second::generate::Generator;
use second::numbered_cases::patch_of;
use second::preempt::true_map;
use second::records::{Record, Task, Transaction};
use second::sorts::Sorts;
use second::stream::{Call, Case};
use second::table::Table;

/// A patch call on a table with its true map, 70 rows for the new map and more room than any outcome needs.
fn call(base: &Table, patch: Vec<u8>) -> Case {
    Case {
        patch,
        map_read: true_map(base).to_vec(),
        map_written: vec![0; 70],
        room: vec![0; 12_000],
        ..Case::lending(Call::Patch, table_image(base))
    }
}

/// What every call above is of.
const MAPS: [&str; 2] = ["a base map of 64 rows", "a new map of 70 rows"];

/// Sees that this many sorts are met, each often enough, by cases of this call.
fn assert_sorts_are_met(call: Call, cases: usize, sort_count: usize) {
    let mut generator = Generator::from_seed(51);
    let mut sorts = Sorts::default();
    assert_eq!(sorts.lines(), "");
    (0..cases).for_each(|_| sorts.count(&generator.next_case(call)));
    let lines = sorts.lines();
    assert_eq!(lines.lines().count(), sort_count);
    for line in lines.lines() {
        let count: usize = line.split(' ').next().unwrap().parse().unwrap();
        assert!(count >= 5, "{line}");
    }
}

#[test]
fn every_sort_is_met_by_the_generator() {
    assert_sorts_are_met(Call::TableVerdict, 2000, 16);
    assert_sorts_are_met(Call::PatchVerdict, 2000, 2);
    assert_sorts_are_met(Call::Map, 2000, 7);
    assert_sorts_are_met(Call::Patch, 3000, 31);
    assert_sorts_are_met(Call::Run, 400, 11);
    assert_sorts_are_met(Call::Reasons, 1200, 7);
    assert_sorts_are_met(Call::Reverse, 1500, 19);
    assert_sorts_are_met(Call::RoundTrip, 1000, 29);
    assert_sorts_are_met(Call::RoomLeft, 2000, 47);
    assert_sorts_are_met(Call::BoundWithin, 7200, 55);
}

/// A patch in which a missing jitter is read as another period than before.
const PERIOD_CHANGED: &str = "nothing but a period changed under a missing jitter";
/// A patch in which a missing jitter is written out, or a written one left out, and read as before.
const JITTER_REWRITTEN: &str = "a missing jitter and the period written for it exchanged";
/// A patch in which the threshold of a task is read as another than before, and that is all.
const THRESHOLD_CHANGED: &str = "nothing but a threshold changed";
/// A patch in which a threshold of 0 is written out, or a written one made 0, and read as before.
const THRESHOLD_REWRITTEN: &str = "a threshold of 0 and the priority written for it exchanged";

#[test]
fn patches_of_jitters_and_thresholds_are_met_often_where_the_library_is_compared() {
    let mut generator = Generator::from_seed(4);
    let mut sorts = Sorts::default();
    (0..3000).for_each(|_| sorts.count(&generator.next_case(Call::Patch)));
    let lines = sorts.lines();
    let names = [
        PERIOD_CHANGED,
        JITTER_REWRITTEN,
        THRESHOLD_CHANGED,
        THRESHOLD_REWRITTEN,
    ];
    for name in names {
        let count = lines.lines().find_map(|line| line.strip_suffix(name));
        let count: usize = count.unwrap().trim_end().parse().unwrap();
        assert!(count >= 20, "{count} {name}");
    }
}

#[test]
fn a_task_put_in_before_others_moves_them_and_their_cells() {
    let case = call(&figure2(), patch_of(12).unwrap());
    let moved = [
        "a task moved by another's coming",
        "a set cell moved in row and column",
    ];
    assert_eq!(sorts_of(&case), [moved, MAPS].concat());
}

#[test]
fn pairs_and_records_put_back_are_told() {
    let mut base = figure2();
    let pair = one_way(12, 23);
    let put_in = call(&base, patch_of(11).unwrap());
    assert_eq!(sorts_of(&put_in), [&["a pair put in"], &MAPS[..]].concat());
    base.pairs.push(pair);
    let taken_out = call(&base, patch_image(&[pair.record()], &[]));
    assert_eq!(
        sorts_of(&taken_out),
        [&["a pair taken out"], &MAPS[..]].concat()
    );
    let put_back = call(&base, patch_image(&[pair.record()], &[pair.record()]));
    assert_eq!(
        sorts_of(&put_back),
        [&["an unchanged record put back"], &MAPS[..]].concat()
    );
}

#[test]
fn a_period_changes_cells_or_not() {
    let base = table(&[task(1, 1, 0, 5001), task(2, 2, 0, 100)], &[]);
    let with_period = |period| {
        let changed = Transaction { number: 1, period };
        let patch = patch_image(&[base.transactions[0].record()], &[changed.record()]);
        sorts_of(&call(&base, patch))
    };
    let changed = "a period changed under a task";
    assert_eq!(with_period(9999), [&[changed], &MAPS[..]].concat());
    let cell = "a cell changed by a period alone";
    assert_eq!(with_period(5000), [&[changed, cell], &MAPS[..]].concat());
}

#[test]
fn a_period_under_a_missing_jitter_is_told_where_nothing_else_changes() {
    let base = table(&[task(1, 1, 0, 0), unmeasured(2, 2, 0)], &[]);
    let old = base.transactions[0].record();
    let longer = Transaction {
        number: 1,
        period: PERIOD + 1,
    };
    let with_more = |more: &[Record]| {
        let put_in = [&[longer.record()], more].concat();
        sorts_of(&call(&base, patch_image(&[old], &put_in)))
    };
    let changed = "a period changed under a task";
    assert_eq!(
        with_more(&[]),
        [&[changed, PERIOD_CHANGED], &MAPS[..]].concat()
    );
    let further_task = unmeasured(3, 3, 0).record();
    assert_eq!(with_more(&[further_task]), [&[changed], &MAPS[..]].concat());
}

/// The sorts of the call that changes the second task of a table.
fn from_to(old: Task, new: Task) -> Vec<String> {
    let base = table(&[task(1, 1, 0, 0), old], &[]);
    sorts_of(&call(&base, patch_image(&[old.record()], &[new.record()])))
}

#[test]
fn a_jitter_is_told_that_is_written_otherwise_and_read_alike() {
    let missing = unmeasured(2, 2, 0);
    let with_jitter = |jitter| Task { jitter, ..missing };
    let told = [&[JITTER_REWRITTEN], &MAPS[..]].concat();
    let written = with_jitter(PERIOD);
    assert_eq!(from_to(missing, written), told);
    assert_eq!(from_to(written, missing), told);
    assert_eq!(from_to(missing, with_jitter(PERIOD - 1)), MAPS);
    assert_eq!(from_to(with_jitter(0), missing), MAPS);
    let larger = Task {
        stack: 2,
        ..written
    };
    assert_eq!(from_to(missing, larger), MAPS);
}

#[test]
fn a_jitter_written_as_the_period_that_was_is_not_read_alike() {
    let missing = unmeasured(2, 2, 0);
    let written = Task {
        jitter: PERIOD,
        ..missing
    };
    let longer = Transaction {
        number: 1,
        period: PERIOD + 1,
    };
    let base = table(&[missing], &[]);
    let taken_out = [base.transactions[0].record(), missing.record()];
    let patch = patch_image(&taken_out, &[longer.record(), written.record()]);
    assert_eq!(sorts_of(&call(&base, patch)), MAPS);
}

#[test]
fn a_threshold_is_told_that_is_written_otherwise_and_read_alike() {
    let plain = task(2, 7, 0, 0);
    let written = with_threshold(7, plain);
    let told = [&[THRESHOLD_REWRITTEN], &MAPS[..]].concat();
    assert_eq!(from_to(plain, written), told);
    assert_eq!(from_to(written, plain), told);
    let larger = Task {
        stack: 2,
        ..written
    };
    assert_eq!(from_to(plain, larger), MAPS);
    let more_urgent = Task {
        priority: 8,
        ..with_threshold(8, plain)
    };
    assert_eq!(from_to(plain, more_urgent), MAPS);
}

#[test]
fn a_threshold_is_told_that_is_read_as_another_where_nothing_else_changes() {
    let [plain, written, higher] =
        [0, 7, 8].map(|threshold| with_threshold(threshold, task(2, 7, 0, 0)));
    let told = [&[THRESHOLD_CHANGED], &MAPS[..]].concat();
    for old in [plain, written] {
        assert_eq!(from_to(old, higher), told);
        assert_eq!(from_to(higher, old), told);
    }
    assert_eq!(from_to(higher, with_threshold(255, plain)), told);
    let larger = Task { stack: 2, ..higher };
    assert_eq!(from_to(plain, larger), MAPS);
    let base = table(&[plain], &[]);
    let further_task = task(3, 3, 0, 0).record();
    let patch = patch_image(&[plain.record()], &[higher.record(), further_task]);
    assert_eq!(sorts_of(&call(&base, patch)), MAPS);
}

#[test]
fn what_is_too_short_is_told_where_it_alone_is() {
    let roomy = call(&figure2(), patch_image(&[], &[]));
    let with = |rows_read: usize, rows_written: usize, room: usize| {
        let mut case = roomy.clone();
        case.map_read.resize(rows_read, 0);
        case.map_written.resize(rows_written, 0);
        case.room.resize(room, 0);
        sorts_of(&case)
    };
    assert_eq!(with(63, 64, 512), ["a base map of 63 rows"]);
    assert_eq!(with(64, 63, 512), ["a new map of 63 rows"]);
    assert_eq!(with(64, 64, 511), ["a room that lacks 1 byte"]);
    assert!(with(63, 63, 512).is_empty());
    let all = [
        "a room that leaves 0 bytes",
        "a base map of 70 rows",
        "a new map of 64 rows",
    ];
    assert_eq!(with(70, 64, 512), all);
}

#[test]
fn a_cell_that_is_not_as_the_base_decides_is_wrong_where_it_is_carried() {
    let mut case = call(&figure2(), patch_of(11).unwrap());
    let pair = "a pair put in";
    case.map_read[1] ^= 1 << 5;
    assert_eq!(sorts_of(&case), [&[pair], &MAPS[..]].concat());
    case.map_read[0] ^= 1 << 3;
    let wrong = "a wrong cell carried";
    assert_eq!(sorts_of(&case), [&[pair, wrong], &MAPS[..]].concat());
}
