//! Missing jitters in the compared streams: in a third of the tasks, and in patches that tell how they are read.

mod common;

use common::streams::{absent_record, outcome_of, Stream, COMPARED, OF_IMAGES, PATCH_CALLS};
use second::blocks::records_in;
use second::preempt::true_map;
use second::records::{Task, MISSING_JITTER, TASK};
use second::stream::Case;
use second::table::Table;

#[test]
fn the_gate_compares_these_streams() {
    let gate = include_str!("../../.ci/run");
    let compares = |stream: &Stream| {
        let (seed, letters, count) = (stream.seed, stream.letters, stream.count);
        gate.contains(&format!("\n.ci/compare {seed} {letters} {count} "))
    };
    assert!(COMPARED.iter().chain(&OF_IMAGES).all(compares));
}

#[test]
fn a_third_of_the_tasks_of_each_letter_have_no_jitter() {
    for stream in COMPARED {
        let tasks: Vec<Task> = stream.tables().flat_map(|table| table.tasks).collect();
        let missing = tasks.iter().filter(|task| task.jitter == MISSING_JITTER);
        assert!(3 * missing.count() >= tasks.len(), "{}", stream.letters);
    }
}

/// The jitters in a patch and in its base, where refusal 9 is for them alone and they are read alike.
fn jitters_told_apart(case: &Case) -> Option<[u32; 2]> {
    let absent = absent_record(case).filter(|record| record.kind() == TASK)?;
    let taken_out = Task::read(&absent);
    let base = Table::read(&records_in(&case.image));
    let listed = base.tasks[base.place_of(taken_out.id)?];
    let period = base.period_of(listed.transaction)?;
    let with_its_jitter = Task {
        jitter: listed.jitter,
        ..taken_out
    };
    let is_read_alike = listed.read_jitter(period) == taken_out.read_jitter(period);
    (is_read_alike && with_its_jitter == listed).then_some([taken_out.jitter, listed.jitter])
}

#[test]
fn refusal_9_tells_missing_jitters_and_written_periods_apart_often() {
    let cases = PATCH_CALLS.cases();
    let told: Vec<[u32; 2]> = cases.filter_map(|case| jitters_told_apart(&case)).collect();
    let missing_in = |side: usize| told.iter().filter(move |told| told[side] == MISSING_JITTER);
    let (in_patch, in_base) = (missing_in(0).count(), missing_in(1).count());
    assert_eq!(in_patch + in_base, told.len());
    assert!(told.len() >= 20 && in_patch >= 5 && in_base >= 5);
}

/// Whether a patch call is accepted and has another map where missing jitters stay at the base's periods.
fn tells_old_periods(case: &Case) -> bool {
    let Some(image) = outcome_of(case) else {
        return false;
    };
    let [base, outcome] = [&case.image, &image].map(|image| Table::read(&records_in(image)));
    let with_old_period = |task: &Task| Task {
        jitter: match base.period_of(task.transaction) {
            Some(old) => task.read_jitter(old),
            None => task.jitter,
        },
        ..*task
    };
    let stale = Table {
        tasks: outcome.tasks.iter().map(with_old_period).collect(),
        ..outcome.clone()
    };
    true_map(&stale) != true_map(&outcome)
}

#[test]
fn patches_tell_missing_jitters_that_stay_at_old_periods() {
    let told = PATCH_CALLS.cases().filter(tells_old_periods);
    assert!(told.count() >= 10);
}
