//! The generated cases that ask for reasons: every refusal, every reason, both edges, every sort of question.

mod common;

use std::collections::BTreeMap;

use common::{margins, numbers_in, pairs_of_tasks, Margins};
use second::answer::answer;
use second::generate::Generator;
use second::preempt::{distance, Decider};
use second::reasons::Reason;
use second::records::{Task, MISSING_JITTER};
use second::stream::question::Question;
use second::stream::{Call, Case};
use second::table::Table;
use second::verdict::records_of_table;

/// The cases of the stream that `generate 8 W 1200` writes.
fn reason_cases() -> Vec<Case> {
    let mut generator = Generator::from_seed(8);
    let case = |_| generator.next_case(Call::Reasons);
    (0..1200).map(case).collect()
}

/// The tables of these cases that are accepted, each with its case.
fn accepted_tables(cases: &[Case]) -> impl Iterator<Item = (&Case, Table)> {
    let table_of = |case: &Case| Some(Table::read(&records_of_table(&case.image).ok()?));
    cases
        .iter()
        .filter_map(move |case| Some((case, table_of(case)?)))
}

#[test]
fn reason_cases_are_mostly_accepted_and_meet_every_refusal() {
    let (mut tables, mut questions) = (BTreeMap::new(), BTreeMap::new());
    for mut case in reason_cases() {
        let line = answer(&mut case);
        let mut parts = line.split(" | ").map(|part| numbers_in(part)[0]);
        let verdict = parts.next().expect("a verdict of the table");
        *tables.entry(verdict).or_insert(0) += 1;
        parts.for_each(|number| *questions.entry(number).or_insert(0) += 1);
    }
    assert!(tables[&0] >= 1000);
    assert!(tables.into_keys().eq((0..=8).chain([14])));
    assert!(questions[&0] >= 3000 && questions[&15] >= 500);
    assert!(questions.into_keys().eq((0..=8).chain([14, 15])));
}

#[test]
fn every_reason_is_met_often() {
    let mut pairs = [0; Reason::ALL.len()];
    for mut case in reason_cases() {
        let line = answer(&mut case);
        let table = line.split(" | ").next().expect("the table's part");
        let counts = &numbers_in(table)[3..];
        assert_eq!(counts.len(), pairs.len());
        pairs
            .iter_mut()
            .zip(counts)
            .for_each(|(sum, count)| *sum += count);
    }
    assert!(pairs.iter().all(|sum| *sum >= 5000));
}

#[test]
fn tables_of_reason_cases_come_in_all_sizes_and_stay_small() {
    let cases = reason_cases();
    let sizes: Vec<usize> = accepted_tables(&cases)
        .map(|(_, table)| table.tasks.len())
        .collect();
    assert!((0..=12).chain([64]).all(|size| sizes.contains(&size)));
    assert!(sizes.iter().sum::<usize>() <= 20 * sizes.len());
}

/// Every two tasks of a table that their times alone decide.
fn pairs_decided_by_times(table: &Table) -> impl Iterator<Item = (&Task, &Task)> {
    let by_times = [Reason::Jitter, Reason::Response, Reason::Timing];
    let decider = Decider::of(table);
    pairs_of_tasks(table)
        .filter(move |(lower, upper)| by_times.contains(&decider.reason(lower, upper)))
}

/// The margins of every two tasks of a table that their times alone decide, with a jitter that is written.
fn margins_that_decide(table: &Table) -> Vec<Margins> {
    pairs_decided_by_times(table)
        .filter(|(_, upper)| upper.jitter != MISSING_JITTER)
        .map(|(lower, upper)| margins(table, lower, upper))
        .collect()
}

#[test]
fn pairs_of_reason_cases_stand_at_both_edges_and_past_both() {
    let cases = reason_cases();
    let decided: Vec<Margins> = accepted_tables(&cases)
        .flat_map(|(_, table)| margins_that_decide(&table))
        .collect();
    let sorts: [fn(&Margins) -> bool; 6] = [
        |margins| margins.jitter > 0 && margins.response > 0,
        |margins| margins.jitter == 0 && margins.response > 0,
        |margins| margins.jitter == 0 && margins.response <= 0,
        |margins| margins.jitter == 1 && margins.response <= 0,
        |margins| margins.response == 0 && margins.jitter <= 0,
        |margins| margins.response == 1 && margins.jitter <= 0,
    ];
    for sort in sorts {
        let met = decided.iter().filter(|margins| sort(margins));
        assert!(met.count() >= 1000);
    }
}

/// The distances at which no rule but a missing jitter says yes, each with the period.
fn distances_that_only_a_missing_jitter_passes(table: &Table) -> Vec<(u64, u32)> {
    let alone = |(lower, upper): &(&Task, &Task)| {
        upper.jitter == MISSING_JITTER && margins(table, lower, upper).response <= 0
    };
    let distance_and_period = |(lower, upper): (&Task, &Task)| {
        let period = table
            .period_of(lower.transaction)
            .expect("a listed transaction");
        (distance(upper.offset, lower.offset, period), period)
    };
    let pairs = pairs_decided_by_times(table).filter(alone);
    pairs.map(distance_and_period).collect()
}

#[test]
fn missing_jitters_of_reason_cases_decide_alone_at_both_ends_of_the_distance() {
    let cases = reason_cases();
    let passed: Vec<(u64, u32)> = accepted_tables(&cases)
        .flat_map(|(_, table)| distances_that_only_a_missing_jitter_passes(&table))
        .filter(|(_, period)| *period > 1)
        .collect();
    let shortest = passed.iter().filter(|(apart, _)| *apart == 0);
    let is_longest = |(apart, period): &&(u64, u32)| *apart == u64::from(*period) - 1;
    let longest = passed.iter().filter(is_longest);
    assert!(shortest.count() >= 1000 && longest.count() >= 1000);
}

/// Where a number stands to the ids of a table.
#[derive(Clone, Copy, PartialEq, Eq, PartialOrd, Ord, Debug)]
enum IdSort {
    Listed,
    Zero,
    Unlisted,
    ListedWhenCut,
    Other,
}

fn sort_of_id(table: &Table, id: u32) -> IdSort {
    let is_listed = |id: u16| table.place_of(id).is_some();
    match u16::try_from(id) {
        Ok(0) => IdSort::Zero,
        Ok(short) if is_listed(short) => IdSort::Listed,
        Ok(_) => IdSort::Unlisted,
        Err(_) if is_listed(id as u16) => IdSort::ListedWhenCut,
        Err(_) => IdSort::Other,
    }
}

#[test]
fn questions_are_of_every_sort_on_either_side() {
    let cases = reason_cases();
    let mut met = BTreeMap::new();
    let (mut twice, mut turned) = (0, 0);
    for (case, table) in accepted_tables(&cases) {
        assert!((3..=6).contains(&case.map_read.len()));
        let asked = case.map_read.iter().map(|row| Question::from_row(*row));
        for question in asked {
            let Question { low, high } = question;
            let sorts = (sort_of_id(&table, low), sort_of_id(&table, high));
            *met.entry(sorts).or_insert(0) += 1;
            let is_turned = case.map_read.contains(&question.turned().row());
            twice += usize::from(low == high);
            turned += usize::from(low != high && is_turned);
        }
    }
    let listed = IdSort::Listed;
    for unlisted in [IdSort::Zero, IdSort::Unlisted, IdSort::ListedWhenCut] {
        assert!(met[&(listed, unlisted)] >= 50 && met[&(unlisted, listed)] >= 50);
    }
    assert!(met[&(listed, listed)] >= 3000);
    assert!(twice >= 300 && turned >= 1000);
}
