//! Precedence through a third task: who is kept apart, circles, and what patches touch along paths.

mod common;

use std::collections::BTreeSet;

use common::*;
use second::afresh::touched_ids;
use second::blocks::{patch_image, records_in};
use second::figure2::figure2;
use second::map_call::map_call;
use second::patch_call::patched;
use second::precedence::Paths;
use second::preempt::{is_set, reason_for, true_map};
use second::reason_call::reason_call;
use second::reasons::Reason;
use second::records::{Pair, Record, Task};
use second::table::Table;
use second::verdict::Refusal;

/// Tasks 11 to 16, each of a transaction of its own sort and more urgent than the one before, so that all may
/// nest that no pair keeps apart.
fn all_nesting(pairs: &[Pair]) -> Table {
    let tasks: Vec<Task> = (1..=6)
        .map(|rank| Task {
            transaction: 1 + rank % 2,
            jitter: PERIOD,
            ..task(10 + rank, rank, 0, 100)
        })
        .collect();
    table(&tasks, pairs)
}

/// Why the task with the first id may or may not be preempted by the other.
fn reason(table: &Table, low: u16, high: u16) -> Reason {
    let task = |id| &table.tasks[table.place_of(id).unwrap()];
    reason_for(table, task(low), task(high))
}

/// Whether neither of the two tasks may be preempted by the other, by the map.
fn are_apart(table: &Table, one: u16, other: u16) -> bool {
    let map = true_map(table);
    let [one, other] = [one, other].map(|id| table.place_of(id).unwrap());
    !is_set(&map, one, other) && !is_set(&map, other, one)
}

#[test]
fn a_path_keeps_its_ends_apart_both_ways() {
    for turned in [false, true] {
        let pair = |first, second| match turned {
            true => precedence(second, first),
            false => precedence(first, second),
        };
        let asked = all_nesting(&[pair(11, 12), pair(12, 13)]);
        for (low, high) in [(11, 12), (12, 13), (11, 13)] {
            assert_eq!(reason(&asked, low, high), Reason::Pair);
            assert_eq!(reason(&asked, high, low), Reason::Priority);
            assert!(are_apart(&asked, low, high));
        }
        assert!(!are_apart(&asked, 11, 14));
    }
    let upwards = all_nesting(&[precedence(13, 11), precedence(11, 12)]);
    assert_eq!(reason(&upwards, 12, 13), Reason::Pair);
}

#[test]
fn the_reason_call_and_the_map_call_ask_paths_too() {
    let image = table_image(&all_nesting(&[precedence(11, 15), precedence(15, 12)]));
    assert_eq!(reason_call(&image, 11, 12), Ok(Reason::Pair));
    assert_eq!(reason_call(&image, 12, 11), Ok(Reason::Priority));
    let mut map = [0; 64];
    map_call(&image, &mut map).unwrap();
    assert_eq!(
        map[..6],
        [0b10_1100, 0b10_1100, 0b11_1000, 0b11_0000, 0b10_0000, 0]
    );
}

#[test]
fn two_tasks_before_or_after_a_third_are_not_kept_apart_by_that() {
    let before = all_nesting(&[precedence(11, 13), precedence(12, 13)]);
    let after = all_nesting(&[precedence(13, 11), precedence(13, 12)]);
    for asked in [before, after] {
        assert!(!are_apart(&asked, 11, 12));
        assert!(are_apart(&asked, 11, 13) && are_apart(&asked, 12, 13));
    }
}

#[test]
fn a_one_way_pair_is_no_part_of_a_path() {
    let between = all_nesting(&[precedence(11, 12), one_way(12, 13), precedence(13, 14)]);
    assert_eq!(reason(&between, 12, 13), Reason::Pair);
    for (low, high) in [(11, 13), (11, 14), (12, 14)] {
        assert!(!are_apart(&between, low, high));
    }
    let alone = all_nesting(&[one_way(11, 12), one_way(12, 13)]);
    assert!(!are_apart(&alone, 11, 13));
}

#[test]
fn a_path_leads_through_all_64_tasks() {
    let tasks: Vec<Task> = (1..=64).map(|id| unmeasured(id, id, 0)).collect();
    let mut pairs: Vec<Pair> = (1..64).map(|id| precedence(id + 1, id)).collect();
    let path = table(&tasks, &pairs);
    assert_eq!(true_map(&path), [0; 64]);
    pairs.remove(31);
    let halves = true_map(&table(&tasks, &pairs));
    assert!(halves[..32].iter().all(|row| *row == u64::MAX << 32));
    assert_eq!(halves[32..], [0; 32]);
    pairs.insert(31, one_way(33, 32));
    assert_eq!(true_map(&table(&tasks, &pairs)), halves);
}

/// Number and place of a table with these pairs.
fn verdict(pairs: &[Pair]) -> (u32, usize) {
    as_table(&table_image(&all_nesting(pairs)))
}

#[test]
fn refusal_14_is_at_the_lowest_id_that_comes_before_itself() {
    assert_eq!(verdict(&[precedence(12, 13), precedence(13, 12)]), (14, 12));
    let of_three = [precedence(13, 16), precedence(14, 13), precedence(16, 14)];
    assert_eq!(verdict(&of_three), (14, 13));
    let all: Vec<Pair> = (11..16).map(|id| precedence(id, id + 1)).collect();
    assert_eq!(verdict(&all), (0, 0));
    assert_eq!(
        verdict(&[&all[..], &[precedence(16, 11)]].concat()),
        (14, 11)
    );
    assert_eq!(
        verdict(&[&all[..], &[precedence(16, 14)]].concat()),
        (14, 14)
    );
}

#[test]
fn tasks_that_lead_into_a_circle_or_lie_behind_it_are_not_named() {
    let circle = [precedence(13, 14), precedence(14, 15), precedence(15, 13)];
    let with_tails = |tails: &[Pair]| verdict(&[&circle[..], tails].concat());
    assert_eq!(
        with_tails(&[precedence(11, 12), precedence(12, 14)]),
        (14, 13)
    );
    assert_eq!(
        with_tails(&[precedence(14, 11), precedence(11, 12)]),
        (14, 13)
    );
    let behind_another = [precedence(11, 12), precedence(12, 11)];
    assert_eq!(with_tails(&behind_another), (14, 11));
}

#[test]
fn a_one_way_pair_closes_no_circle() {
    assert_eq!(verdict(&[precedence(11, 12), one_way(12, 11)]), (0, 0));
    assert_eq!(verdict(&[one_way(11, 12), one_way(12, 11)]), (0, 0));
    let of_three = [precedence(11, 12), precedence(12, 13), one_way(13, 11)];
    assert_eq!(verdict(&of_three), (0, 0));
}

#[test]
fn refusal_14_comes_after_8_and_before_all_else() {
    let circle = [precedence(11, 12), precedence(12, 11)];
    assert_eq!(verdict(&[&circle[..], &[one_way(11, 99)]].concat()), (8, 9));
    let image = table_image(&all_nesting(&circle));
    let refused = Refusal::new(14, 11);
    assert_eq!(map_call(&image, &mut []), Err(refused));
    assert_eq!(
        second::bound_call::bound_call(&image, &[], &mut []),
        Err(refused)
    );
    assert_eq!(reason_call(&image, 98, 99), Err(refused));
    assert_eq!(apply(&image, &[], &[]).err(), Some(refused));
    let mut map = [7; 64];
    assert!(map_call(&image, &mut map).is_err());
    assert_eq!(map, [7; 64]);
}

#[test]
fn a_patch_by_itself_is_not_refused_for_a_circle() {
    let circle = [precedence(11, 12), precedence(12, 11)].map(|pair| pair.record());
    assert_eq!(as_patch(&patch_image(&[], &circle)), (0, 0));
    assert_eq!(as_patch(&patch_image(&circle, &[])), (0, 0));
    assert_eq!(as_patch(&patch_image(&circle, &circle)), (0, 0));
}

/// The outcome of a patch of these pairs on a table of all tasks with those, or the number of its refusal.
fn outcome(base: &[Pair], taken_out: &[Pair], put_in: &[Pair]) -> Result<Outcome, u32> {
    let base = all_nesting(base);
    let [taken_out, put_in] =
        [taken_out, put_in].map(|pairs| pairs.iter().map(Pair::record).collect::<Vec<Record>>());
    let patch = patch_image(&taken_out, &put_in);
    let given = apply(&table_image(&base), &patch, &true_map(&base));
    given.map_err(|refusal| refusal.number)
}

#[test]
fn a_circle_of_the_outcome_is_refusal_10() {
    let base = [precedence(11, 12), precedence(12, 13)];
    let refused = |taken_out: &[Pair], put_in: &[Pair]| outcome(&base, taken_out, put_in).err();
    assert_eq!(refused(&[], &[precedence(13, 11)]), Some(10));
    assert_eq!(refused(&[], &[precedence(12, 11)]), Some(10));
    assert_eq!(refused(&[], &[one_way(13, 11)]), None);
    assert_eq!(refused(&[base[0]], &[precedence(13, 11)]), None);
    assert_eq!(refused(&[base[0]], &[precedence(12, 11)]), None);
    assert_eq!(refused(&[base[0], base[1]], &base), None);
    let with_one_way = [precedence(11, 12), one_way(12, 11)];
    let exchanged = outcome(&with_one_way, &[one_way(12, 11)], &[precedence(12, 11)]);
    assert_eq!(exchanged.err(), Some(10));
    let other_way = outcome(
        &with_one_way,
        &with_one_way,
        &[one_way(11, 12), precedence(12, 11)],
    );
    assert!(other_way.is_ok());
}

/// How many tasks a patch of these pairs touches; it leaves the true map.
fn touched(base: &[Pair], taken_out: &[Pair], put_in: &[Pair]) -> usize {
    let outcome = outcome(base, taken_out, put_in).unwrap();
    let new = Table::read(&records_in(&outcome.image));
    assert_eq!(outcome.map, true_map(&new));
    outcome.patched.touched
}

#[test]
fn precedence_pairs_touch_along_the_paths_of_base_and_outcome() {
    let path = [precedence(11, 12), precedence(12, 13), precedence(13, 14)];
    assert_eq!(touched(&path, &[path[1]], &[]), 4);
    assert_eq!(touched(&path, &[path[0]], &[]), 4);
    assert_eq!(touched(&path, &[path[1]], &[path[1]]), 4);
    let parts = [path[0], path[2]];
    assert_eq!(touched(&parts, &[], &[path[1]]), 4);
    assert_eq!(touched(&parts, &[], &[precedence(12, 15)]), 3);
    assert_eq!(touched(&path, &path, &[]), 4);
    assert_eq!(touched(&[], &[], &path), 4);
    assert_eq!(touched(&path, &[path[1]], &[precedence(13, 12)]), 4);
}

#[test]
fn tasks_beside_a_path_are_not_touched() {
    let fork = [precedence(11, 13), precedence(12, 13), precedence(12, 14)];
    assert_eq!(touched(&fork, &[fork[0]], &[]), 3);
    assert_eq!(touched(&fork, &[fork[2]], &[]), 3);
    assert_eq!(touched(&fork, &[fork[1]], &[]), 4);
}

#[test]
fn one_way_pairs_touch_their_two_tasks_alone() {
    let path = [precedence(11, 12), precedence(12, 13), precedence(13, 14)];
    assert_eq!(touched(&path, &[], &[one_way(13, 12)]), 2);
    let with_one_way = [&path[..], &[one_way(14, 12)]].concat();
    assert_eq!(touched(&with_one_way, &[one_way(14, 12)], &[]), 2);
    let broken = [path[0], one_way(12, 13), path[2]];
    assert_eq!(touched(&broken, &[broken[0]], &[]), 2);
}

#[test]
fn an_exchange_of_both_sorts_touches_along_paths() {
    let path = [precedence(11, 12), precedence(12, 13), precedence(13, 14)];
    assert_eq!(touched(&path, &[path[1]], &[one_way(12, 13)]), 4);
    let broken = [path[0], one_way(12, 13), path[2]];
    assert_eq!(touched(&broken, &[broken[1]], &[path[1]]), 4);
}

#[test]
fn tasks_are_counted_once_and_only_in_the_outcome() {
    let base = all_nesting(&[precedence(11, 12), precedence(12, 13)]);
    let pairs = base.pairs.iter().map(Pair::record);
    let taken_out: Vec<Record> = pairs.chain([base.tasks[1].record()]).collect();
    let mut sorted = taken_out.clone();
    sorted.sort_by_key(Record::key);
    let outcome = apply(
        &table_image(&base),
        &patch_image(&sorted, &[]),
        &true_map(&base),
    );
    let outcome = outcome.unwrap();
    assert_eq!(outcome.patched.touched, 2);
    assert!(is_set(&outcome.map, 0, 1));
}

#[test]
fn a_changed_task_on_a_path_touches_itself_alone() {
    let base = all_nesting(&[precedence(11, 12), precedence(12, 13)]);
    let changed = Task {
        stack: 9,
        ..base.tasks[1]
    };
    let patch = patch_image(&[base.tasks[1].record()], &[changed.record()]);
    let outcome = apply(&table_image(&base), &patch, &true_map(&base)).unwrap();
    assert_eq!(outcome.patched.touched, 1);
}

#[test]
fn wrong_cells_are_decided_anew_along_paths_and_carried_elsewhere() {
    let path = [precedence(11, 12), precedence(12, 13), precedence(13, 14)];
    let base = all_nesting(&path);
    let patch = patch_image(&[path[1].record()], &[]);
    let outcome = apply(&table_image(&base), &patch, &[0; 64]).unwrap();
    let new = true_map(&all_nesting(&[path[0], path[2]]));
    assert_eq!(outcome.map[..4], new[..4]);
    assert!(is_set(&new, 4, 5) && !is_set(&outcome.map, 4, 5));
}

#[test]
fn figure_2_with_a_path_has_a_lower_chain_than_the_named_pairs_give() {
    let mut closed = figure2();
    closed.pairs = vec![precedence(11, 12), precedence(12, 23)];
    let mut named = figure2();
    named.pairs = vec![one_way(11, 12), one_way(12, 23)];
    assert_eq!(own_bounds(&closed).0.chain, 6);
    assert_eq!(own_bounds(&named).0.chain, 7);
    assert_eq!(own_bounds(&figure2()).0.chain, 8);
}

#[test]
fn paths_are_pairs_put_end_to_end() {
    let mut random = second::generate::random::Random::from_seed(71);
    for _ in 0..400 {
        let ids: Vec<u16> = (1..=random.short(2, 12)).collect();
        let pairs: Vec<Pair> = (0..random.count(0, 16))
            .map(|_| precedence(random.pick(&ids), random.pick(&ids)))
            .collect();
        let (paths, led) = (Paths::along(&pairs), led_along(&pairs));
        for one in &ids {
            let joined: BTreeSet<u16> = ids
                .iter()
                .copied()
                .filter(|id| led.contains(&(*one, *id)) || led.contains(&(*id, *one)))
                .collect();
            assert_eq!(paths.joined_to(*one), joined);
            let is_alike = |id: &u16| paths.lead(*one, *id) == led.contains(&(*one, *id));
            assert!(ids.iter().all(is_alike));
        }
        let circular: Vec<u16> = ids
            .iter()
            .copied()
            .filter(|id| led.contains(&(*id, *id)))
            .collect();
        assert!(paths.circular().eq(circular));
    }
}

#[test]
fn the_records_of_both_sides_of_a_patch_touch_the_same_tasks() {
    let base = all_nesting(&[precedence(11, 12), precedence(12, 13)]).records();
    let patch = vec![
        precedence(12, 13).record(),
        precedence(13, 14).record().turned(),
    ];
    let outcome = patched(&base, &patch);
    let touched: BTreeSet<u16> = (11..=14).collect();
    for [from, to] in [[&base, &outcome], [&base, &base], [&outcome, &outcome]] {
        assert_eq!(touched_ids(from, to, &patch), touched);
    }
}
