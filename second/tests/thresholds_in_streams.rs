//! Thresholds in the compared streams: written in every way, at the edges of the first condition, out of
//! range at both ends, and in calls that tell how they are read.

mod common;

use std::collections::BTreeMap;

use common::streams::{absent_record, Stream, BOUND_CALLS, COMPARED, OF_IMAGES, PATCH_CALLS};
use common::{bounds_with, pairs_of_tasks};
use second::blocks::{records_in, start_of_record};
use second::records::{Record, Task, PAIR, TASK, THRESHOLD_AT, TRANSACTION};
use second::stream::{Call, Case};
use second::table::Table;
use second::verdict::{records_of_patch, records_of_table, Refusal};

/// How the threshold of a task is written.
#[derive(Clone, Copy, PartialEq, Eq, Debug)]
enum Written {
    Zero,
    Priority,
    Between,
    Most,
}

fn written(task: &Task) -> Written {
    match u16::from(task.threshold) {
        0 => Written::Zero,
        threshold if threshold == task.priority => Written::Priority,
        255 => Written::Most,
        _ => Written::Between,
    }
}

#[test]
fn thresholds_of_each_letter_are_written_in_every_way() {
    let one_in_at_most = [
        (Written::Priority, 8),
        (Written::Between, 10),
        (Written::Most, 20),
    ];
    for stream in COMPARED {
        let tasks: Vec<Task> = stream.tables().flat_map(|table| table.tasks).collect();
        let count = |way| tasks.iter().filter(|task| written(task) == way).count();
        assert!(5 * count(Written::Zero) >= 2 * tasks.len());
        for (way, most) in one_in_at_most {
            assert!(most * count(way) >= tasks.len(), "{way:?}");
        }
    }
}

/// Whether a task of the table has a threshold that is not 0.
fn has_thresholds(table: &Table) -> bool {
    table.tasks.iter().any(|task| task.threshold != 0)
}

#[test]
fn every_fourth_table_that_no_patch_made_is_without_thresholds() {
    let drawn = |stream: &Stream| !["A", "R", "U"].contains(&stream.letters);
    for stream in COMPARED.into_iter().filter(drawn) {
        let several_tasks = |table: &Table| table.tasks.len() > 1;
        let tables: Vec<Table> = stream.tables().filter(several_tasks).collect();
        let without = tables.iter().filter(|table| !has_thresholds(table));
        assert!(4 * without.count() >= tables.len());
    }
}

/// How many pairs of a table's tasks have a written threshold this much below the upper priority, and
/// above the lower one.
fn pairs_with_threshold_below(table: &Table, by: u16) -> usize {
    let stands = |(lower, upper): &(&Task, &Task)| {
        let threshold = u16::from(lower.threshold);
        threshold > lower.priority && threshold + by == upper.priority
    };
    pairs_of_tasks(table).filter(stands).count()
}

#[test]
fn thresholds_of_each_letter_stand_at_both_edges_of_the_first_condition() {
    for stream in COMPARED {
        let tables: Vec<Table> = stream.tables().collect();
        for by in [0, 1] {
            let pairs = tables
                .iter()
                .map(|table| pairs_with_threshold_below(table, by));
            assert!(pairs.sum::<usize>() >= 1000);
        }
    }
}

/// The table and the map of a bound call that is not refused.
fn table_and_map(case: &Case) -> Option<(Table, &[u64])> {
    let table = Table::read(&records_of_table(&case.image).ok()?);
    let map = case.map_read.get(..64)?;
    Some((table, map))
}

#[test]
fn chains_of_several_tasks_are_met_among_thresholds() {
    let is_long = |case: &Case| {
        let found = table_and_map(case).filter(|(table, _)| has_thresholds(table));
        found.is_some_and(|(table, map)| bounds_with(&table, map).0.length >= 4)
    };
    assert!(BOUND_CALLS.cases().filter(is_long).count() >= 100);
}

/// Whether the bounds of a call are others where its cells are tested by priorities alone.
fn tells_thresholds_from_priorities(case: &Case) -> bool {
    table_and_map(case).is_some_and(|(table, map)| {
        let mut freed = table.clone();
        freed.tasks.iter_mut().for_each(|task| task.threshold = 0);
        bounds_with(&freed, map) != bounds_with(&table, map)
    })
}

#[test]
fn lent_maps_tell_cells_that_thresholds_alone_forbid() {
    let told = BOUND_CALLS.cases().filter(tells_thresholds_from_priorities);
    assert!(told.count() >= 200);
}

/// An image and its refusal as a table, if it has one.
fn refused_table(image: &[u8]) -> Option<(&[u8], Refusal)> {
    Some((image, records_of_table(image).err()?))
}

/// An image and its refusal as a patch, if it has one.
fn refused_patch(image: &[u8]) -> Option<(&[u8], Refusal)> {
    Some((image, records_of_patch(image).err()?))
}

/// The images for which a case or its steps are refused, each with its refusal.
fn refused_images(case: &Case) -> Vec<(&[u8], Refusal)> {
    let steps = case.steps.iter();
    let refused = match case.call {
        Call::PatchVerdict | Call::Reverse => refused_patch(&case.image),
        Call::Patch | Call::RoundTrip => {
            refused_table(&case.image).or_else(|| refused_patch(&case.patch))
        }
        _ => refused_table(&case.image),
    };
    steps
        .filter_map(|step| refused_patch(&step.patch))
        .chain(refused)
        .collect()
}

/// A letter of a stream, and a number that calls of it are refused with.
type Refused = (char, u32);

/// The records for which a case or its steps are refused with one of these numbers.
fn refused_records(case: &Case, numbers: [u32; 2]) -> Vec<(Refused, Record)> {
    let letter = char::from(case.call.letter());
    let wanted = |(_, refusal): &(&[u8], Refusal)| numbers.contains(&refusal.number);
    let record_of = |(image, refusal): (&[u8], Refusal)| {
        let record = Record::starting_at(image, start_of_record(refusal.place));
        ((letter, refusal.number), record)
    };
    let refused = refused_images(case).into_iter().filter(wanted);
    refused.map(record_of).collect()
}

/// How often calls of each letter are refused with each of these numbers for a record as asked.
fn refusals_for(numbers: [u32; 2], asked: impl Fn(&Record) -> bool) -> BTreeMap<Refused, usize> {
    let streams = COMPARED.into_iter().chain(OF_IMAGES);
    let cases = streams.flat_map(Stream::cases);
    let records = cases.flat_map(|case| refused_records(&case, numbers));
    let mut counts = BTreeMap::new();
    for (refused, _) in records.filter(|(_, record)| asked(record)) {
        *counts.entry(refused).or_insert(0) += 1;
    }
    counts
}

#[test]
fn thresholds_out_of_range_are_refused_at_both_ends_for_each_letter() {
    let ends: [fn(&Task) -> u16; 2] = [|_| 1, |task| task.priority - 1];
    for end in ends {
        let counts = refusals_for([6, 26], |record| {
            let task = Task::read(record);
            let is_task = record.kind() == TASK && task.priority > 2;
            is_task && u16::from(task.threshold) == end(&task)
        });
        let in_tables = ['T', 'M', 'B', 'A', 'W', 'G'].map(|letter| (letter, 6));
        let in_patches = ['P', 'A', 'R', 'V', 'U'].map(|letter| (letter, 26));
        for wanted in in_tables.iter().chain(&in_patches) {
            assert!(counts[wanted] >= 3);
        }
        assert!(counts[&('H', 6)] >= 3);
    }
}

#[test]
fn stray_bytes_near_thresholds_are_refused_in_tables_and_patches() {
    for kind in [TRANSACTION, TASK, PAIR] {
        let at = THRESHOLD_AT + usize::from(kind == TASK);
        let counts = refusals_for([4, 24], |record| record.kind() == kind && record.0[at] != 0);
        for number in [4, 24] {
            let with_number = counts.iter().filter(|((_, given), _)| *given == number);
            assert!(with_number.map(|(_, count)| count).sum::<usize>() >= 10);
        }
    }
}

/// The threshold of a task that a patch takes out, where refusal 9 is for its byte alone and it is read alike.
fn threshold_told_apart(case: &Case) -> Option<u8> {
    let absent = absent_record(case).filter(|record| record.kind() == TASK)?;
    let taken_out = Task::read(&absent);
    let base = Table::read(&records_in(&case.image));
    let is_rewritten = base.thresholds_rewritten().contains(&taken_out);
    is_rewritten.then_some(taken_out.threshold)
}

#[test]
fn refusal_9_tells_thresholds_of_0_and_written_priorities_apart_often() {
    let cases = PATCH_CALLS.cases();
    let told: Vec<u8> = cases
        .filter_map(|case| threshold_told_apart(&case))
        .collect();
    let zero_in_patch = told.iter().filter(|threshold| **threshold == 0).count();
    assert!(told.len() >= 20 && zero_in_patch >= 5 && told.len() - zero_in_patch >= 5);
}
