//! The simulator: what a run that keeps to its table is, how the kernel runs, and that the comparison can fail.

mod common;

use std::sync::OnceLock;

use common::{one_way, precedence, table, task, with_threshold};
use second::figure2::{figure2, thresholds, unmeasured};
use second::records::{Pair, Task, MISSING_JITTER};
use second::simulate::keeps::{keeps, Rule};
use second::simulate::kernel::{run_all, Arrival, HeldBack};
use second::simulate::run::{Depth, Instance, Run};
use second::simulate::{chain_bound, simulate, systems, Simulated};
use second::table::Table;

/// When both transactions of figure 2 are activated in the runs made by hand.
const ACTIVATION: u64 = 20_000;

/// An instance of a task of figure 2 that is released at its offset, and starts and finishes so long after its activation.
fn instance(id: u16, start: u64, finish: u64) -> Instance {
    let place = figure2().place_of(id).expect("a task of figure 2");
    Instance {
        place,
        activation: ACTIVATION,
        release: ACTIVATION + u64::from(figure2().tasks[place].offset),
        start: ACTIVATION + start,
        finish: ACTIVATION + finish,
    }
}

/// Tasks 11, 12 and 23 of figure 2, each started at its offset, nested, and the first two finished as late as they may.
fn nested() -> [Instance; 3] {
    [
        instance(11, 0, 3854),
        instance(12, 1697, 3837),
        instance(23, 2588, 3699),
    ]
}

fn run_of(instances: &[Instance]) -> Run {
    Run {
        grain: 1,
        instances: instances.to_vec(),
    }
}

/// The rule that these instances break by this table, if they break one.
fn broken(table: &Table, instances: &[Instance]) -> Option<Rule> {
    let kept = keeps(table, &run_of(instances));
    kept.err().map(|breach| breach.rule)
}

/// The same instance as much later in all its times.
fn later(by: u64, instance: Instance) -> Instance {
    Instance {
        activation: instance.activation + by,
        release: instance.release + by,
        start: instance.start + by,
        finish: instance.finish + by,
        ..instance
    }
}

#[test]
fn a_run_of_figure_2_reaches_the_bound() {
    assert_eq!(broken(&figure2(), &nested()), None);
    let deepest = run_of(&nested()).deepest(&figure2());
    let expected = Depth {
        bytes: 8,
        instances: 3,
    };
    assert_eq!(deepest, expected);
    assert_eq!(chain_bound(&figure2()), Ok(8));
}

#[test]
fn the_order_of_the_instances_does_not_matter() {
    let [one, two, three] = nested();
    for turned in [[three, two, one], [two, one, three], [three, one, two]] {
        assert_eq!(broken(&figure2(), &turned), None);
        assert_eq!(run_of(&turned).deepest(&figure2()).bytes, 8);
    }
}

#[test]
fn times_of_the_table_count_as_many_moments_as_a_unit_has() {
    let thrice = |instance: Instance| Instance {
        activation: 3 * instance.activation,
        release: 3 * instance.release,
        start: 3 * instance.start,
        finish: 3 * instance.finish,
        ..instance
    };
    let fine = |grain| Run {
        grain,
        instances: nested().map(thrice).to_vec(),
    };
    assert_eq!(keeps(&figure2(), &fine(3)), Ok(()));
    let rule = |grain| keeps(&figure2(), &fine(grain)).map_err(|breach| breach.rule);
    assert_eq!(rule(2), Err(Rule::Response));
    assert_eq!(rule(4), Err(Rule::Offset));
}

#[test]
fn a_response_counts_from_the_activation() {
    assert_eq!(broken(&figure2(), &[instance(13, 4635, 4781)]), None);
    let past = [instance(13, 4635, 4782)];
    assert_eq!(broken(&figure2(), &past), Some(Rule::Response));
    let from_the_offset = [instance(13, 4635, 4635 + 4781)];
    assert_eq!(broken(&figure2(), &from_the_offset), Some(Rule::Response));
}

#[test]
fn a_start_before_the_release_is_refused() {
    let jittery = with_jitters(5);
    let released_late = |release| Instance {
        release: ACTIVATION + release,
        ..instance(12, 1700, 1800)
    };
    assert_eq!(broken(&jittery, &[released_late(1700)]), None);
    let early = [released_late(1701)];
    assert_eq!(broken(&jittery, &early), Some(Rule::Release));
}

#[test]
fn a_start_before_the_offset_is_refused() {
    let released_at_once = |start| Instance {
        release: ACTIVATION,
        ..instance(12, start, 1800)
    };
    assert_eq!(broken(&figure2(), &[released_at_once(1697)]), None);
    let early = [released_at_once(1696)];
    assert_eq!(broken(&figure2(), &early), Some(Rule::Offset));
}

/// Figure 2 with this jitter for all tasks.
fn with_jitters(jitter: u32) -> Table {
    let mut table = figure2();
    table.tasks.iter_mut().for_each(|task| task.jitter = jitter);
    table
}

#[test]
fn a_release_past_the_jitter_is_refused_where_it_is_measured() {
    let released = |release| Instance {
        release: ACTIVATION + release,
        ..instance(12, 3000, 3100)
    };
    assert_eq!(broken(&with_jitters(5), &[released(1702)]), None);
    let late = [released(1703)];
    assert_eq!(broken(&with_jitters(5), &late), Some(Rule::Jitter));
    assert_eq!(broken(&unmeasured(), &[released(3000)]), None);
}

#[test]
fn activations_closer_than_the_period_are_refused() {
    let first = instance(11, 0, 10);
    assert_eq!(broken(&figure2(), &[first, later(10_000, first)]), None);
    let close = [later(9_999, first), first];
    assert_eq!(broken(&figure2(), &close), Some(Rule::Period));
    let of_another_task = [first, later(9_999, instance(12, 1697, 1800))];
    assert_eq!(broken(&figure2(), &of_another_task), Some(Rule::Period));
    let of_another_transaction = [first, later(9_999, instance(21, 0, 10))];
    assert_eq!(broken(&figure2(), &of_another_transaction), None);
    let same_activation = [first, instance(12, 1697, 1800)];
    assert_eq!(broken(&figure2(), &same_activation), None);
}

#[test]
fn two_starts_at_one_moment_are_refused() {
    let together = [instance(11, 0, 20), instance(21, 0, 10)];
    assert_eq!(broken(&figure2(), &together), Some(Rule::OneStart));
}

#[test]
fn a_preemption_by_an_equal_priority_is_refused() {
    let nested = [instance(11, 0, 3000), instance(22, 617, 700)];
    assert_eq!(broken(&figure2(), &nested), Some(Rule::Threshold));
    let one_after_the_other = [instance(11, 0, 617), instance(22, 617, 700)];
    assert_eq!(broken(&figure2(), &one_after_the_other), None);
}

#[test]
fn a_preemption_up_to_the_threshold_is_refused() {
    assert_eq!(broken(&thresholds(), &nested()), Some(Rule::Threshold));
    let without_12 = [nested()[0], nested()[2]];
    assert_eq!(broken(&thresholds(), &without_12), None);
}

#[test]
fn a_preemption_that_a_pair_forbids_is_refused() {
    let with_pair = |pair: Pair| Table {
        pairs: vec![pair],
        ..figure2()
    };
    for pair in [one_way(11, 23), precedence(11, 23), precedence(23, 11)] {
        let broken = broken(&with_pair(pair), &nested());
        assert_eq!(broken, Some(Rule::Pair), "{pair:?}");
    }
    assert_eq!(broken(&with_pair(one_way(23, 11)), &nested()), None);
}

#[test]
fn a_preemption_of_tasks_at_the_ends_of_a_path_is_refused() {
    let broken_with = |pairs: &[Pair]| {
        let table = Table {
            pairs: pairs.to_vec(),
            ..figure2()
        };
        broken(&table, &nested())
    };
    let there = [precedence(11, 13), precedence(13, 23)];
    assert_eq!(broken_with(&there), Some(Rule::Pair));
    let back = [precedence(13, 11), precedence(23, 13)];
    assert_eq!(broken_with(&back), Some(Rule::Pair));
    let both_before_13 = [precedence(11, 13), precedence(23, 13)];
    assert_eq!(broken_with(&both_before_13), None);
    let with_one_way = [precedence(11, 13), one_way(13, 23)];
    assert_eq!(broken_with(&with_one_way), None);
}

#[test]
fn a_start_while_the_other_is_released_already_is_refused() {
    let jittery = with_jitters(1000);
    let started = |start| [instance(12, start, 3000), instance(23, 2600, 2700)];
    assert_eq!(broken(&jittery, &started(2587)), None);
    for start in [2588, 2589, 2599] {
        assert_eq!(broken(&jittery, &started(start)), Some(Rule::EarlyBlocking));
    }
}

#[test]
fn a_finish_after_the_preempted_one_is_refused() {
    let finished = |finish| [instance(12, 1697, 3000), instance(23, 2588, finish)];
    assert_eq!(broken(&figure2(), &finished(3000)), None);
    assert_eq!(broken(&figure2(), &finished(3001)), Some(Rule::Nesting));
}

#[test]
fn a_breach_is_a_sentence() {
    let refused = keeps(&figure2(), &run_of(&[instance(13, 4635, 4782)]));
    let sentence = refused
        .expect_err("a response that is too long")
        .to_string();
    assert_eq!(
        sentence,
        "the instance of task 13 activated at 20000 finishes later than its response allows"
    );
}

/// What arrives at the kernel at these moments: a task's place, its release, and its work.
fn arrivals(given: &[(usize, u64, u64)]) -> Vec<Arrival> {
    let arrival = |(place, release, work): &(usize, u64, u64)| Arrival {
        place: *place,
        activation: 0,
        release: *release,
        work: *work,
    };
    given.iter().map(arrival).collect()
}

/// The places with start and finish, in the order of the starts.
fn times(table: &Table, given: &[(usize, u64, u64)]) -> Vec<(usize, u64, u64)> {
    let mut instances = run_all(table, arrivals(given)).instances;
    instances.sort_by_key(|instance| instance.start);
    let times = |instance: &Instance| (instance.place, instance.start, instance.finish);
    instances.iter().map(times).collect()
}

/// A table of tasks with these priorities.
fn of_priorities(priorities: &[u16], pairs: &[Pair]) -> Table {
    let numbered = (1..).zip(priorities);
    let tasks: Vec<Task> = numbered.map(|(id, one)| task(id, *one, 0, 100)).collect();
    table(&tasks, pairs)
}

#[test]
fn the_kernel_nests_by_priority() {
    let given = [(0, 0, 10), (1, 2, 5), (2, 4, 1)];
    let nested = [(0, 0, 16), (1, 2, 8), (2, 4, 5)];
    assert_eq!(times(&of_priorities(&[1, 2, 3], &[]), &given), nested);
}

#[test]
fn the_kernel_waits_where_nothing_is_released() {
    let given = [(0, 3, 2), (1, 90, 1), (0, 91, 1)];
    let apart = [(0, 3, 5), (1, 90, 91), (0, 91, 92)];
    assert_eq!(times(&of_priorities(&[1, 2], &[]), &given), apart);
}

#[test]
fn the_kernel_is_first_in_first_out_within_a_priority() {
    let given = [(0, 5, 4), (1, 0, 3), (2, 1, 3), (0, 2, 2)];
    let one_by_one = [(1, 0, 3), (2, 3, 6), (0, 6, 8), (0, 8, 12)];
    assert_eq!(times(&of_priorities(&[2, 2, 2], &[]), &given), one_by_one);
}

#[test]
fn nothing_starts_before_a_more_urgent_one_that_waits() {
    let held = with_threshold(3, task(1, 1, 0, 100));
    let table = table(&[held, task(2, 2, 0, 100), task(3, 3, 0, 100)], &[]);
    let given = [(0, 0, 5), (1, 1, 4), (2, 2, 1)];
    let in_turn = [(0, 0, 5), (2, 5, 6), (1, 6, 10)];
    assert_eq!(times(&table, &given), in_turn);
}

/// What held instances back where task 2 is released while task 1 runs.
fn held_back(table: &Table) -> HeldBack {
    run_all(table, arrivals(&[(0, 0, 5), (1, 1, 1)])).held_back
}

#[test]
fn the_kernel_keeps_to_thresholds_and_pairs() {
    let plain = of_priorities(&[1, 2], &[]);
    assert_eq!(held_back(&plain), HeldBack::default());
    let mut with_threshold = plain.clone();
    with_threshold.tasks[0].threshold = 2;
    let by_threshold = HeldBack {
        by_threshold: true,
        ..HeldBack::default()
    };
    let by_one_way = HeldBack {
        by_one_way: true,
        ..HeldBack::default()
    };
    let by_precedence = HeldBack {
        by_precedence: true,
        ..HeldBack::default()
    };
    assert_eq!(held_back(&with_threshold), by_threshold);
    assert_eq!(
        held_back(&of_priorities(&[1, 2], &[one_way(1, 2)])),
        by_one_way
    );
    let backwards = of_priorities(&[1, 2], &[one_way(2, 1)]);
    assert_eq!(held_back(&backwards), HeldBack::default());
    for pair in [precedence(1, 2), precedence(2, 1)] {
        assert_eq!(held_back(&of_priorities(&[1, 2], &[pair])), by_precedence);
    }
}

#[test]
fn the_kernel_keeps_to_paths() {
    let by_path = HeldBack {
        by_path: true,
        ..HeldBack::default()
    };
    let held_back_by = |pairs: &[Pair]| held_back(&of_priorities(&[1, 2, 3], pairs));
    assert_eq!(held_back_by(&[precedence(1, 3), precedence(3, 2)]), by_path);
    assert_eq!(held_back_by(&[precedence(2, 3), precedence(3, 1)]), by_path);
    let before_one = [precedence(1, 3), precedence(2, 3)];
    assert_eq!(held_back_by(&before_one), HeldBack::default());
    let with_one_way = [precedence(1, 3), one_way(3, 2)];
    assert_eq!(held_back_by(&with_one_way), HeldBack::default());
}

#[test]
fn a_kernel_that_keeps_to_named_tasks_alone_passes_the_bound() {
    let with_pairs = |pairs: &[Pair]| {
        let mut table = of_priorities(&[1, 2, 3], pairs);
        table.tasks[1].transaction = 2;
        table
    };
    let table = with_pairs(&[precedence(1, 3), precedence(3, 2)]);
    let both_ways = [one_way(1, 3), one_way(3, 1), one_way(2, 3), one_way(3, 2)];
    let by_names = with_pairs(&both_ways);
    let deepest = |kernel: &Table| run_all(kernel, arrivals(&[(0, 0, 5), (1, 1, 1)])).deepest_bytes;
    assert_eq!((deepest(&table), chain_bound(&table)), (1, Ok(1)));
    assert_eq!((deepest(&by_names), chain_bound(&by_names)), (2, Ok(2)));
}

#[test]
fn a_pair_holds_back_from_every_place_of_the_stack() {
    let table = of_priorities(&[1, 2, 3], &[one_way(1, 3)]);
    let given = [(0, 0, 5), (1, 1, 4), (2, 2, 1)];
    let apart = [(0, 0, 9), (1, 1, 5), (2, 9, 10)];
    assert_eq!(times(&table, &given), apart);
}

/// 300 simulated systems, which several tests look at.
fn some_systems() -> &'static [Simulated] {
    static SYSTEMS: OnceLock<Vec<Simulated>> = OnceLock::new();
    SYSTEMS.get_or_init(|| {
        let kept: Result<Vec<Simulated>, String> = systems(3).take(300).collect();
        kept.expect("every run keeps to its table")
    })
}

/// A system's table with every task changed so.
fn changed(simulated: &Simulated, change: fn(&mut Task)) -> Table {
    let mut table = simulated.table.clone();
    table.tasks.iter_mut().for_each(change);
    table
}

/// The bound of a system's table with every task changed so.
fn changed_bound(simulated: &Simulated, change: fn(&mut Task)) -> u64 {
    chain_bound(&changed(simulated, change)).expect("a table that is accepted")
}

/// In how many systems the stack passes the bound of the table with every task changed so.
fn passed(change: fn(&mut Task)) -> usize {
    let systems = some_systems().iter();
    let passes = |one: &&Simulated| one.fits_in(changed_bound(one, change)).is_err();
    systems.filter(passes).count()
}

/// In how many systems tasks nest that may not by the table with every task changed so.
fn denied(change: fn(&mut Task)) -> usize {
    let systems = some_systems().iter();
    let denies = |one: &&Simulated| one.nests_by_map_of(&changed(one, change)).is_err();
    systems.filter(denies).count()
}

#[test]
fn a_bound_one_byte_lower_is_passed_in_a_fifth_of_the_systems() {
    let systems = some_systems().iter();
    let passes = |one: &&Simulated| one.fits_in(one.bound - 1).is_err();
    assert!(systems.filter(passes).count() >= 60);
}

#[test]
fn bounds_of_tables_that_say_less_are_passed() {
    assert_eq!(passed(|_| ()), 0);
    assert!(passed(|task| task.jitter = 0) >= 8);
    assert!(passed(measured) >= 3);
    assert!(passed(|task| task.response = task.offset) >= 30);
    assert!(passed(|task| task.threshold = task.read_threshold() as u8 + 1) >= 60);
}

/// Reads a missing jitter as 0.
fn measured(task: &mut Task) {
    if task.jitter == MISSING_JITTER {
        task.jitter = 0;
    }
}

#[test]
fn maps_of_tables_that_say_one_less_are_denied() {
    assert_eq!(denied(|_| ()), 0);
    let shorter_jitter = denied(|task| {
        if task.jitter != MISSING_JITTER {
            task.jitter = task.jitter.saturating_sub(1);
        }
    });
    let shorter_response = denied(|task| task.response = (task.response - 1).max(task.offset));
    assert!(shorter_jitter > 0 && shorter_response > 0);
}

#[test]
fn what_is_wrong_is_a_sentence() {
    let deep = some_systems()
        .iter()
        .max_by_key(|one| one.preemptions.len());
    let deep = deep.expect("some system");
    let bytes = deep.deepest.bytes;
    let sentence = format!("{bytes} bytes are on the stack, and the bound is 0");
    assert_eq!(deep.fits_in(0), Err(sentence));
    let denied = deep.nests_by_map_of(&changed(deep, |task| task.threshold = 255));
    let sentence = denied.expect_err("a map that says no to all");
    assert!(sentence.starts_with("task ") && sentence.contains(" is preempted by task "));
}

#[test]
fn times_lower_the_bound_in_a_fifth_of_the_systems() {
    let is_lower = |one: &&Simulated| {
        let any_times = changed_bound(one, |task| task.jitter = MISSING_JITTER);
        one.bound < any_times
    };
    assert!(some_systems().iter().filter(is_lower).count() >= 60);
}

#[test]
fn the_systems_of_the_gate_are_of_every_sort_and_the_page_has_their_line() {
    assert!(include_str!("../../.ci/run").contains("\n\"$second\" simulate 1 1000\n"));
    let totals = simulate(1, 1000).expect("every run within its bound");
    assert!(include_str!("../README.md").contains(&format!("\n{totals}\n")));
    assert_eq!(totals.systems, 1000);
    assert!((200..=800).contains(&totals.reached));
    let deep = totals.nested.range(4..).map(|(_, systems)| systems);
    assert!(deep.sum::<usize>() >= 50);
    let sorts = [
        totals.thresholds,
        totals.one_way_pairs,
        totals.precedence_pairs,
        totals.paths,
        totals.jitters,
        totals.missing_jitters,
        totals.responses,
    ];
    assert!(sorts.iter().all(|systems| *systems >= 100), "{sorts:?}");
}

/// Whether some task takes longer from its offset on than a period.
fn has_long_response(simulated: &Simulated) -> bool {
    let table = &simulated.table;
    table.tasks.iter().any(|task| {
        let period = table.period_of(task.transaction).expect("a period");
        task.response - task.offset > period
    })
}

#[test]
fn responses_pass_periods_in_some_systems_and_not_in_others() {
    let systems = some_systems().iter();
    let long = systems.filter(|one| has_long_response(one)).count();
    assert!((60..=240).contains(&long));
}
