//! Cases of the bound call with a limit: several limits for each table, one after another.

use std::collections::VecDeque;

use crate::blocks::{image_of, Form};
use crate::bounds::Relation;
use crate::generate::damaged_images::damaged_table;
use crate::generate::large_cases;
use crate::generate::maps::map_often_random;
use crate::generate::random::Random;
use crate::generate::rooms::{entries, rows_or_entries};
use crate::generate::tables::{any_table, distinct_numbers, table_of_style, Shape};
use crate::generate::task_values::Style;
use crate::opening::open_chains;
use crate::preempt::{true_map, MAP_ROWS};
use crate::records::{Task, Transaction, MISSING_JITTER, THRESHOLD_OF_PRIORITY};
use crate::stream::{Call, Case};
use crate::table::Table;
use crate::verdict::records_of_table;

/// A table that opens more chains than this is asked for limits below it alone.
pub const MOST_OPENED: u32 = 20_000;

/// The cases that are still to come for the last table.
#[derive(Default)]
pub struct LimitCases {
    to_come: VecDeque<Case>,
}

impl LimitCases {
    /// The next case: one for the last table, or the first for a new one.
    pub fn next_case(&mut self, random: &mut Random) -> Case {
        if self.to_come.is_empty() {
            self.to_come = draw_cases(random).into();
        }
        self.to_come.pop_front().expect("a case for each table")
    }
}

/// The cases for one table, which differ in their limit alone.
fn draw_cases(random: &mut Random) -> Vec<Case> {
    let (table, mut map) = draw_table_and_map(random);
    let image = match random.one_in(5) {
        true => damaged_table(random),
        false => image_of(Form::Table, &table.records()),
    };
    let [map_rows, entry_count] = [(); 2].map(|()| rows_or_entries(random));
    map.resize_with(map_rows, || random.bits());
    let limits = match records_of_table(&image) {
        Err(_) => vec![draw_limit(random)],
        Ok(_) if map_rows.min(entry_count) < MAP_ROWS => vec![0, draw_limit(random)],
        Ok(records) => {
            let accepted = Table::read(&records);
            draw_limits(random, &Relation::read(&accepted.tasks, &map))
        }
    };
    let lent = Case {
        map_read: map,
        ids: entries(random, entry_count),
        ..Case::lending(Call::BoundWithin, image)
    };
    let with_limit = |limit: &u32| {
        let mut case = lent.clone();
        case.limit = *limit;
        case
    };
    limits.iter().map(with_limit).collect()
}

/// A table and a map of 64 rows to be read along with it.
fn draw_table_and_map(random: &mut Random) -> (Table, Vec<u64>) {
    let table = match random.rank(24) {
        0 => return large_cases::draw_table_and_map(random),
        1 => {
            let table = table_of_doubles(random);
            let map = random.pick(&[true_map(&table), [u64::MAX; MAP_ROWS]]);
            return (table, map.to_vec());
        }
        2..=13 => table_of_middle_size(random),
        _ => any_table(random),
    };
    let map = map_often_random(random, &table);
    (table, map)
}

/// A table of so many tasks and priorities that hundreds or thousands of chains may be opened.
fn table_of_middle_size(random: &mut Random) -> Table {
    let shape = Shape {
        transactions: random.count(1, 8),
        tasks: random.count(8, 40),
        pairs: random.count(0, 12),
    };
    let style = Style::draw_large(random, shape.tasks, 40);
    table_of_style(random, shape, &style)
}

/// A table of which every chain is opened: all tasks may nest, priorities fall as ids rise, and each task weighs more
/// than all before it together.
fn table_of_doubles(random: &mut Random) -> Table {
    let tasks = random.count(2, 14);
    let ids = distinct_numbers(random, tasks);
    let most_urgent = random.short(100, 255);
    let task = |(rank, id): (u16, u16)| Task {
        id,
        transaction: 1,
        priority: most_urgent - rank,
        offset: 0,
        jitter: MISSING_JITTER,
        response: 0,
        stack: 1 << rank,
        threshold: THRESHOLD_OF_PRIORITY,
    };
    Table {
        transactions: vec![Transaction {
            number: 1,
            period: 1,
        }],
        tasks: (0..).zip(ids).map(task).collect(),
        pairs: Vec::new(),
    }
}

/// The limits to be asked for an accepted table: at the ends of the range and around its count, or below that where it
/// is too large to be reached.
fn draw_limits(random: &mut Random, relation: &Relation) -> Vec<u32> {
    match open_chains(relation, MOST_OPENED) {
        Some(opened) => {
            let count = opened.count;
            vec![0, 1, count - 1, count, count + 1, u32::MAX]
        }
        None => vec![0, 1, random.time(2, 300), random.time(301, MOST_OPENED - 1)],
    }
}

/// A limit for a call that is refused whatever the limit is.
fn draw_limit(random: &mut Random) -> u32 {
    match random.rank(4) {
        0 => 0,
        1 => 1,
        2 => u32::MAX,
        _ => random.bits() as u32,
    }
}
