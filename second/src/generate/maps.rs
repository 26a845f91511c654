//! The maps that bound, patch and room calls, and chain calls for one task, read.

use crate::generate::random::Random;
use crate::generate::task_values::MANY_TASKS;
use crate::preempt::{true_map, MAP_ROWS};
use crate::records::THRESHOLD_OF_PRIORITY;
use crate::table::Table;

/// More priorities than this are many.
const MANY_PRIORITIES: usize = 10;

/// A map of this many rows to be read along with the table.
pub fn map_for(random: &mut Random, table: &Table, rows: usize) -> Vec<u64> {
    let mut map = match is_hard(table) {
        true => thin_map(random),
        false => any_map(random, table),
    };
    map.resize_with(rows, || random.bits());
    map
}

/// Whether a thick map over this table would give too many chains to look at one by one.
fn is_hard(table: &Table) -> bool {
    let mut priorities: Vec<u16> = table.tasks.iter().map(|task| task.priority).collect();
    priorities.sort_unstable();
    priorities.dedup();
    table.tasks.len() > MANY_TASKS && priorities.len() > MANY_PRIORITIES
}

/// A map of 64 rows with about one cell in eight set, or none.
fn thin_map(random: &mut Random) -> Vec<u64> {
    match random.one_in(5) {
        true => vec![0; MAP_ROWS],
        false => (0..MAP_ROWS)
            .map(|_| random.bits() & random.bits() & random.bits())
            .collect(),
    }
}

fn any_map(random: &mut Random, table: &Table) -> Vec<u64> {
    match random.rank(11) {
        0..=2 => true_map(table).to_vec(),
        3 => true_map_and_more(random, table),
        4 => map_without_thresholds(table),
        5..=7 => (0..MAP_ROWS).map(|_| random.bits()).collect(),
        8 => thin_map(random),
        9 => vec![u64::MAX; MAP_ROWS],
        _ => vec![0; MAP_ROWS],
    }
}

/// The map that the table would have if every threshold were 0.
fn map_without_thresholds(table: &Table) -> Vec<u64> {
    let mut freed = table.clone();
    let tasks = freed.tasks.iter_mut();
    tasks.for_each(|task| task.threshold = THRESHOLD_OF_PRIORITY);
    true_map(&freed).to_vec()
}

/// A map of 64 rows that is random in every other case, in half of the others the true one, and else as `map_for` draws it.
pub fn map_often_random(random: &mut Random, table: &Table) -> Vec<u64> {
    match random.rank(4) {
        0 | 1 => {
            let percent = random.pick(&[10, 30, 50, 80, 95]);
            map_of_percent(random, percent)
        }
        2 => true_map(table).to_vec(),
        _ => map_for(random, table, MAP_ROWS),
    }
}

/// A map of 64 rows with about so many of a hundred cells set.
pub fn map_of_percent(random: &mut Random, percent: usize) -> Vec<u64> {
    let row = |random: &mut Random| {
        (0..MAP_ROWS)
            .filter(|_| random.rank(100) < percent)
            .fold(0, |bits, cell| bits | 1 << cell)
    };
    (0..MAP_ROWS).map(|_| row(random)).collect()
}

/// A map in which the tasks fall into triples by chance, and all cells but those inside a triple are set.
pub fn map_of_triples(random: &mut Random, tasks: usize) -> Vec<u64> {
    let mut places: Vec<usize> = (0..tasks).collect();
    for place in 0..tasks {
        places.swap(place, random.rank(place + 1));
    }
    let mut map = vec![u64::MAX; MAP_ROWS];
    for triple in places.chunks(3) {
        let inside = triple.iter().fold(0, |set, place| set | 1 << place);
        triple.iter().for_each(|place| map[*place] = !inside);
    }
    map
}

/// The true map with random cells in the rows and columns beyond the tasks.
pub fn true_map_and_more(random: &mut Random, table: &Table) -> Vec<u64> {
    let tasks = table.tasks.len();
    let among_tasks = u64::MAX.checked_shr(64 - tasks as u32).unwrap_or(0);
    let stray = |row: usize, bits: u64| match row < tasks {
        true => bits & !among_tasks,
        false => bits,
    };
    let rows = true_map(table).into_iter().enumerate();
    rows.map(|(row, bits)| bits | stray(row, random.bits()))
        .collect()
}
