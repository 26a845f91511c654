//! The answers that were stored before there were thresholds: cases that nothing new matters to have them still.

use std::collections::BTreeSet;

use second::answer::answer;
use second::blocks::{start_of_record, BLOCK_BYTES, RECORDS_PER_BLOCK};
use second::records::{Record, TASK, THRESHOLD_AT};
use second::stream::Case;

const ANSWERS: &str = include_str!("stored/before_thresholds.answers");

fn stored_cases() -> Vec<Case> {
    let mut stream = &include_bytes!("stored/before_thresholds.stream")[..];
    let next_case = || Case::read(&mut stream).expect("a sound stream");
    std::iter::from_fn(next_case).collect()
}

#[test]
fn the_stored_cases_have_the_answers_that_they_had() {
    assert_eq!(stored_cases().len(), 49);
    let answers = stored_cases()
        .into_iter()
        .map(|mut case| answer(&mut case) + "\n");
    assert_eq!(answers.collect::<String>(), ANSWERS);
}

/// What stands in each place for a record, whatever the blocks say of their number.
fn places_in(image: &[u8]) -> impl Iterator<Item = Record> + '_ {
    let places_of = |block| {
        let starts = (0..RECORDS_PER_BLOCK).map(start_of_record);
        starts.map(move |start| Record::starting_at(block, start))
    };
    image.chunks_exact(BLOCK_BYTES).flat_map(places_of)
}

#[test]
fn no_task_of_a_stored_case_has_a_threshold() {
    let has_threshold = |record: &Record| record.kind() == TASK && record.0[THRESHOLD_AT] != 0;
    for case in stored_cases() {
        let patches = case.steps.iter().map(|step| &step.patch);
        let images = patches.chain([&case.image, &case.patch]);
        assert!(!images
            .flat_map(|image| places_in(image))
            .any(|place| has_threshold(&place)));
    }
}

/// The letter of an answer, with whether each call that it answers is accepted: number and place are 0.
fn outcomes_of(line: &str) -> Vec<(&str, bool)> {
    let (letter, numbers) = line.split_once(' ').expect("a letter and numbers");
    let calls = match letter {
        "R" => numbers.split(" | ").skip(1).collect(),
        _ => vec![numbers],
    };
    let outcome = |call: &str| (letter, call.starts_with("0 0"));
    calls.into_iter().map(outcome).collect()
}

#[test]
fn calls_of_every_letter_are_stored_accepted_and_refused() {
    let met: BTreeSet<(&str, bool)> = ANSWERS.lines().flat_map(outcomes_of).collect();
    let letters = ["T", "P", "M", "B", "A", "R", "W"];
    let wanted = letters.map(|letter| [(letter, false), (letter, true)]);
    assert_eq!(met, wanted.into_iter().flatten().collect());
}
