//! The generator: the same bytes for the same arguments, every refusal, about half accepted.

mod common;

use std::collections::{BTreeMap, BTreeSet};

use common::numbers_in;
use second::answer::answer;
use second::bound_call::{bound_call, ID_ENTRIES};
use second::generate::large_cases::CLASSES;
use second::generate::{write_stream, Generator, Wanted};
use second::preempt::true_map;
use second::records::{Task, TASK};
use second::stream::{Call, Case};
use second::table::Table;
use second::verdict::records_of_table;

const CASES: usize = 2000;

/// Number and place of the answers to cases of this call, each with how often it is given.
fn verdicts_of(call: Call) -> BTreeMap<(u32, u32), usize> {
    let mut generator = Generator::from_seed(1);
    let mut verdicts = BTreeMap::new();
    for _ in 0..CASES {
        let numbers = numbers_in(&answer(&mut generator.next_case(call)));
        *verdicts.entry((numbers[0], numbers[1])).or_insert(0) += 1;
    }
    verdicts
}

/// How often each number is answered to cases of this call.
fn numbers_of(call: Call) -> BTreeMap<u32, usize> {
    let mut numbers = BTreeMap::new();
    for ((number, _), times) in verdicts_of(call) {
        *numbers.entry(number).or_insert(0) += times;
    }
    numbers
}

/// Asserts that exactly these refusals are met, and that about half the cases are accepted.
fn assert_meets(call: Call, refusals: impl IntoIterator<Item = u32>) {
    let mut numbers = numbers_of(call);
    let accepted = numbers.remove(&0).unwrap_or(0);
    assert!((CASES * 2 / 5..CASES * 4 / 5).contains(&accepted));
    let met: Vec<u32> = numbers.into_keys().collect();
    let expected: Vec<u32> = refusals.into_iter().collect();
    assert_eq!(met, expected);
}

#[test]
fn every_refusal_of_every_call_is_met() {
    assert_meets(Call::TableVerdict, (1..=8).chain([14]));
    assert_meets(Call::PatchVerdict, 21..=27);
    assert_meets(Call::Map, (1..=8).chain([11, 14]));
    assert_meets(Call::Bound, (1..=8).chain([11, 14]));
    assert_meets(Call::Patch, (1..=11).chain([14]).chain(21..=27));
    assert_meets(Call::Reverse, [11].into_iter().chain(21..=27));
}

#[test]
fn too_many_of_every_kind_are_met() {
    let too_many = [
        (Call::TableVerdict, 7),
        (Call::PatchVerdict, 27),
        (Call::Reverse, 27),
    ];
    for (call, number) in too_many {
        let verdicts = verdicts_of(call);
        assert!((1..=3).all(|kind| verdicts.contains_key(&(number, kind))));
    }
}

#[test]
fn refusals_are_met_at_low_and_high_places() {
    let with_places = [
        (Call::TableVerdict, 2..=6),
        (Call::PatchVerdict, 22..=26),
        (Call::Reverse, 22..=26),
    ];
    for (call, numbers) in with_places {
        let verdicts = verdicts_of(call);
        for number in numbers {
            let places: Vec<u32> = verdicts
                .keys()
                .filter(|(given, _)| *given == number)
                .map(|(_, place)| *place)
                .collect();
            assert!(places[0] <= 1 && places[places.len() - 1] >= 4);
        }
    }
}

/// The stream of this seed over all calls.
/// The bound call with a limit has a stream like it in `limits.rs`.
fn stream(seed: u64, count: usize) -> Vec<u8> {
    let wanted: Vec<Wanted> = b"TPMBARWVUGL"
        .iter()
        .copied()
        .filter_map(Wanted::from_letter)
        .collect();
    let mut bytes = Vec::new();
    write_stream(seed, &wanted, count, &mut bytes).expect("a stream in memory");
    bytes
}

#[test]
fn the_same_arguments_give_the_same_bytes() {
    assert_eq!(stream(5, 500), stream(5, 500));
    assert_ne!(stream(5, 500), stream(6, 500));
    assert!(stream(5, 500).starts_with(&stream(5, 100)));
}

#[test]
fn streams_stay_small() {
    assert!(stream(7, CASES).len() < 12_000_000);
}

#[test]
fn cases_are_read_as_they_were_written() {
    let bytes = stream(8, 500);
    let mut input = bytes.as_slice();
    let mut again = Vec::new();
    while let Some(case) = Case::read(&mut input).expect("a sound stream") {
        case.write(&mut again).expect("a stream in memory");
    }
    assert_eq!(again, bytes);
}

#[test]
fn large_tables_in_bound_calls_have_few_priorities_or_a_thin_map() {
    let mut generator = Generator::from_seed(9);
    for _ in 0..CASES {
        let case = generator.next_case(Call::Bound);
        let Ok(records) = records_of_table(&case.image) else {
            continue;
        };
        let tasks = records.iter().filter(|record| record.kind() == TASK);
        let mut priorities: Vec<u16> = tasks.map(|record| Task::read(record).priority).collect();
        let many_tasks = priorities.len() > 30;
        priorities.sort_unstable();
        priorities.dedup();
        let cells: u32 = case
            .map_read
            .iter()
            .take(64)
            .map(|row| row.count_ones())
            .sum();
        assert!(!many_tasks || priorities.len() <= 10 || cells < 1024);
    }
}

/// What tells the classes of large tables apart.
#[derive(Clone, Copy, PartialEq, Eq, PartialOrd, Ord, Debug)]
struct LargeClass {
    transactions: usize,
    has_high_priorities: bool,
    is_full_of_pairs: bool,
    map: MapClass,
}

#[derive(Clone, Copy, PartialEq, Eq, PartialOrd, Ord, Debug)]
enum MapClass {
    Own,
    Triples,
    /// The nearest of the parts of a hundred that random maps have set.
    Percent(usize),
}

/// The class that this table and this map are of.
fn class_of(table: &Table, map: &[u64]) -> LargeClass {
    LargeClass {
        transactions: table.transactions.len(),
        has_high_priorities: table.tasks.iter().any(|task| task.priority > 32),
        is_full_of_pairs: table.pairs.len() == 256,
        map: map_class_of(table, &map[..64]),
    }
}

fn map_class_of(table: &Table, map: &[u64]) -> MapClass {
    let tasks = table.tasks.len();
    let among_tasks = u64::MAX >> (64 - tasks);
    let unset_in_row = |row: &u64| (!row & among_tasks).count_ones();
    if map == true_map(table) {
        return MapClass::Own;
    }
    if map[..tasks].iter().all(|row| unset_in_row(row) == 3) {
        return MapClass::Triples;
    }
    let set: u32 = map.iter().map(|row| row.count_ones()).sum();
    let distance = |percent: &usize| (percent * 64 * 64).abs_diff(set as usize * 100);
    let nearest = [50, 80, 90, 95, 98].into_iter().min_by_key(distance);
    MapClass::Percent(nearest.expect("a nearest part"))
}

#[test]
fn every_class_of_large_tables_is_met_in_turn() {
    let mut generator = Generator::from_seed(16);
    for _ in 0..20 {
        let mut met = BTreeSet::new();
        for _ in 0..CLASSES {
            let case = generator.next_large_case();
            let table = Table::read(&records_of_table(&case.image).expect("a sound table"));
            assert!((60..=64).contains(&table.tasks.len()));
            met.insert(class_of(&table, &case.map_read));
        }
        assert_eq!(met.len(), CLASSES);
    }
}

#[test]
fn large_tables_are_accepted_and_some_of_their_tasks_nest() {
    let mut generator = Generator::from_seed(17);
    for _ in 0..4 * CLASSES {
        let mut case = generator.next_large_case();
        let bounds = bound_call(&case.image, &case.map_read, &mut case.ids);
        assert!(bounds.expect("a call that is accepted").length > 1);
    }
}

#[test]
fn rooms_for_ids_come_in_all_lengths() {
    let mut generator = Generator::from_seed(10);
    let mut lengths: Vec<usize> = (0..CASES)
        .map(|_| generator.next_case(Call::Bound).ids.len())
        .collect();
    lengths.sort_unstable();
    lengths.dedup();
    assert_eq!(lengths, [0, 63, ID_ENTRIES, 70, 80]);
}
