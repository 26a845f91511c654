//! Runs of patches: the calls made one after another against working each step out afresh.

mod common;

use std::collections::BTreeMap;

use common::{first_number, parts_of_calls, read_again};
use second::afresh::Afresh;
use second::answer::answer;
use second::generate::Generator;
use second::stream::{Call, Case};

const RUNS: usize = 300;

/// Runs of this seed.
fn runs(seed: u64) -> impl Iterator<Item = Case> {
    let mut generator = Generator::from_seed(seed);
    (0..RUNS).map(move |_| generator.next_case(Call::Run))
}

#[test]
fn calls_in_turn_give_what_working_it_out_afresh_gives() {
    for mut run in runs(41) {
        let line = parts_of_calls(&run, &run.steps).concat();
        assert_eq!(line, answer(&mut run));
    }
}

#[test]
fn steps_are_mostly_accepted_and_meet_every_refusal_of_a_patch() {
    let mut numbers: BTreeMap<u32, usize> = BTreeMap::new();
    for mut run in runs(42) {
        assert_eq!(run.steps.len(), 20);
        for part in answer(&mut run).split(" | ").skip(1) {
            *numbers.entry(first_number(part)).or_insert(0) += 1;
        }
    }
    let accepted = numbers.remove(&0).unwrap_or(0);
    assert!(accepted > RUNS * 20 / 2);
    let refusals: Vec<u32> = numbers.into_keys().collect();
    assert_eq!(refusals, [9, 10, 11, 21, 22, 23, 24, 25, 26, 27]);
}

#[test]
fn runs_end_far_from_where_they_start() {
    let moved_on = runs(43).filter(|run| {
        let mut afresh = Afresh::start(&run.image, &run.map_read).expect("a valid start");
        let mut seen = vec![afresh.standing()];
        for step in &run.steps {
            let given = afresh.step(step);
            assert!(given.is_ok() || seen.last() == Some(&afresh.standing()));
            seen.push(afresh.standing());
        }
        seen.dedup();
        seen.len() > 5
    });
    assert!(moved_on.count() > RUNS * 3 / 4);
}

#[test]
fn a_run_starts_from_a_valid_table_and_its_true_map() {
    let run = runs(44).find(|run| !run.map_read.iter().all(|row| *row == 0));
    let run = run.expect("a run with a set cell");
    assert!(Afresh::start(&run.image, &run.map_read).is_some());
    assert!(Afresh::start(&run.image, &run.map_read[..63]).is_none());
    assert!(Afresh::start(&run.image, &[0; 64]).is_none());
    assert!(Afresh::start(&run.image[1..], &run.map_read).is_none());
    assert!(read_again(&run).is_ok());
    let on_other_map = Case {
        map_read: vec![0; 64],
        ..run
    };
    assert!(read_again(&on_other_map).is_err());
}
