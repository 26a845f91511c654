//! Precedence in the compared streams: paths that matter, circles, and runs that change precedence pairs.

mod common;

use std::collections::{BTreeMap, BTreeSet};

use common::streams::{Stream, COMPARED, PATCH_CALLS, ROUND_TRIPS, RUNS, VERDICTS};
use common::{first_number, led_along, pairs_of_tasks};
use second::afresh::{along_paths, touched_ids, Afresh};
use second::answer::answer;
use second::patch_call::patched;
use second::precedence::Paths;
use second::preempt::Decider;
use second::reasons::Reason;
use second::records::{PairSort, Record};
use second::sorts::Sorts;
use second::stream::{Call, Case};
use second::table::Table;
use second::verdict::{records_of_patch, records_of_table};

/// How many calls of each sort a stream has.
fn sorts_in(stream: Stream) -> BTreeMap<String, usize> {
    let mut sorts = Sorts::default();
    stream.cases().for_each(|case| sorts.count(&case));
    let lines = sorts.lines();
    let counted = lines.lines().map(|line| {
        let (count, name) = line.split_once(' ').expect("a count and a name");
        (name.into(), count.parse().expect("a count"))
    });
    counted.collect()
}

#[test]
fn two_hundred_runs_put_in_take_out_and_turn_precedence_pairs() {
    let sorts = sorts_in(RUNS);
    let all_three = "a run with precedence pairs put in, taken out and turned round";
    assert!(sorts[all_three] >= 200);
    assert!(sorts.values().all(|count| *count >= 50));
}

#[test]
fn circles_of_every_length_and_paths_of_64_tasks_are_met_where_the_library_is_compared() {
    let sorts = sorts_in(VERDICTS);
    for tasks in 2..=6 {
        assert!(sorts[&format!("a circle of {tasks} tasks")] >= 8);
    }
    assert!(sorts["a path of 64 tasks"] >= 3);
}

/// Whether a path through a third task, and no pair that names both, keeps two tasks apart that may nest else.
fn closing_matters(table: &Table) -> bool {
    let decider = Decider::of(table);
    let freed = Table {
        pairs: Vec::new(),
        ..table.clone()
    };
    let free = Decider::of(&freed);
    let mut pairs = pairs_of_tasks(table);
    pairs.any(|(lower, upper)| {
        let is_named = |pair: &second::records::Pair| pair.forbids(lower.id, upper.id);
        decider.reason(lower, upper) == Reason::Pair
            && !table.pairs.iter().any(is_named)
            && free.reason(lower, upper).lets_nest()
    })
}

#[test]
fn closing_matters_in_tables_of_each_letter() {
    for stream in COMPARED {
        let tables: Vec<Table> = stream.tables().collect();
        let matters = tables.iter().filter(|table| closing_matters(table));
        assert!(20 * matters.count() >= tables.len(), "{}", stream.letters);
    }
}

#[test]
fn both_sorts_of_pairs_are_common_in_each_stream() {
    for stream in COMPARED {
        let pairs: Vec<PairSort> = stream
            .tables()
            .flat_map(|table| table.pairs)
            .map(|pair| pair.sort)
            .collect();
        let precedences = pairs.iter().filter(|sort| **sort == PairSort::Precedence);
        let share = 100 * precedences.count() / pairs.len();
        assert!((20..=90).contains(&share), "{} {share}", stream.letters);
    }
}

/// A base, a patch that takes out what is there, and the records that it leaves.
struct Change {
    base: Vec<Record>,
    patch: Vec<Record>,
    outcome: Vec<Record>,
}

impl Change {
    fn of(base: &[u8], patch: &[u8]) -> Option<Change> {
        let base = records_of_table(base).ok()?;
        let patch = records_of_patch(patch).ok()?;
        let is_there = |record: &Record| record.way() == 1 || base.contains(record);
        let outcome = patched(&base, &patch);
        let circle = Paths::along(&Table::read(&outcome).pairs).circular().next();
        let fits = patch.iter().all(is_there) && circle.is_none();
        fits.then_some(Change {
            base,
            patch,
            outcome,
        })
    }
}

/// The changes of patch calls, of the steps of runs, and of the ways there of round trips.
fn changes() -> Vec<Change> {
    let of_case = |case: Case| match case.call {
        Call::Run => {
            let mut run = Afresh::start(&case.image, &case.map_read).expect("a valid start");
            let steps = case.steps.iter().filter_map(|step| {
                let change = Change::of(&run.standing().image, &step.patch);
                let _ = run.step(step);
                change
            });
            steps.collect()
        }
        _ => Vec::from_iter(Change::of(&case.image, &case.patch)),
    };
    let streams = [PATCH_CALLS, RUNS, ROUND_TRIPS].into_iter();
    streams.flat_map(Stream::cases).flat_map(of_case).collect()
}

#[test]
fn paths_of_base_or_outcome_or_both_touch_the_same_tasks() {
    let mut more_than_named = 0;
    for Change {
        base,
        patch,
        outcome,
    } in changes()
    {
        let both = touched_ids(&base, &outcome, &patch);
        let in_outcome = |ids: BTreeSet<u16>| -> BTreeSet<u16> {
            let tasks = Table::read(&outcome).tasks;
            let ids = tasks
                .iter()
                .map(|task| task.id)
                .filter(|id| ids.contains(id));
            ids.collect()
        };
        let [by_base, by_outcome] =
            [&base, &outcome].map(|records| in_outcome(along_paths(records, &patch)));
        assert_eq!(by_base, by_outcome);
        let together = [&base[..], &outcome].concat();
        assert_eq!(in_outcome(along_paths(&together, &patch)), by_base);
        let of_either = |records| touched_ids(records, records, &patch);
        assert_eq!(of_either(&outcome), both);
        more_than_named += usize::from(by_base.len() > 2 * patch.len());
    }
    assert!(more_than_named >= 200);
}

/// Whether the two tasks of a cell are kept apart, decided by paths that are worked out in another way.
fn bars(table: &Table) -> BTreeSet<(u16, u16)> {
    let led = led_along(&table.pairs);
    led.iter()
        .flat_map(|(first, second)| [(*first, *second), (*second, *first)])
        .collect()
}

#[test]
fn two_untouched_tasks_are_kept_apart_as_before() {
    for Change {
        base,
        patch,
        outcome,
    } in changes()
    {
        let touched = touched_ids(&base, &outcome, &patch);
        let [old, new] = [&base, &outcome].map(|records| Table::read(records));
        let is_untouched = |ends: &&(u16, u16)| {
            let ids = [ends.0, ends.1];
            ids.iter()
                .all(|id| new.place_of(*id).is_some() && !touched.contains(id))
        };
        let [old, new]: [BTreeSet<(u16, u16)>; 2] =
            [&old, &new].map(|table| bars(table).iter().filter(is_untouched).copied().collect());
        assert_eq!(old, new);
    }
}

#[test]
fn circles_are_refused_in_calls_of_each_letter_that_reads_a_table() {
    let letters = ["M", "B", "A", "W"];
    let streams = COMPARED.into_iter().chain([VERDICTS]);
    let mut counts = BTreeMap::new();
    for stream in streams.filter(|stream| letters.contains(&stream.letters) || stream.count == 4000)
    {
        for mut case in stream.cases() {
            let letter = char::from(case.call.letter());
            let number = first_number(answer(&mut case).split_at(2).1);
            *counts.entry((letter, number == 14)).or_insert(0) += 1;
        }
    }
    for letter in ['T', 'M', 'B', 'A', 'W'] {
        assert!(counts[&(letter, true)] >= 15, "{letter}");
    }
    assert!(!counts.contains_key(&('P', true)));
}
