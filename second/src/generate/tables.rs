//! Tables that keep every rule, of all shapes up to the limits.

use std::collections::{BTreeMap, BTreeSet};

use crate::generate::precedences::{table_of_paths, Order};
use crate::generate::random::Random;
use crate::generate::task_values::{draw_period, draw_task, sharpen, Style};
use crate::generate::thresholds::draw_thresholds;
use crate::records::{Pair, PairSort, Transaction};
use crate::table::Table;

/// How many transactions, tasks and pairs a table is to have.
#[derive(Clone, Copy)]
pub struct Shape {
    pub transactions: usize,
    pub tasks: usize,
    pub pairs: usize,
}

/// A table of any shape, most of them small, and every eighth one of paths.
pub fn any_table(random: &mut Random) -> Table {
    if random.one_in(8) {
        return table_of_paths(random);
    }
    let shape = any_shape(random);
    table_of_shape(random, shape)
}

/// A table with records of every kind, up to a few blocks long.
pub fn table_of_every_kind(random: &mut Random) -> Table {
    let most_pairs = random.pick(&[3, 12, 40]);
    let shape = Shape {
        transactions: random.count(2, 5),
        tasks: random.count(4, 9),
        pairs: random.count(2, most_pairs),
    };
    table_of_shape(random, shape)
}

/// A table with as many records of every kind as there may be.
pub fn fullest_table(random: &mut Random) -> Table {
    table_of_shape(
        random,
        Shape {
            transactions: 16,
            tasks: 64,
            pairs: 256,
        },
    )
}

fn any_shape(random: &mut Random) -> Shape {
    let (transactions, tasks, pairs) = match random.rank(100) {
        0..=3 => (0, 0, 0),
        4..=7 => (random.count(1, 16), 0, 0),
        8..=12 => (random.count(1, 3), 1, 0),
        13..=20 => return shape_of_whole_blocks(random),
        21..=84 => (random.count(1, 4), random.count(0, 9), random.count(0, 6)),
        85..=94 => (
            random.count(1, 16),
            random.count(10, 30),
            random.count(0, 20),
        ),
        95..=98 => (
            random.count(1, 16),
            random.pick(&[31, 47, 63, 64]),
            random.count(0, 40),
        ),
        _ => (16, 64, 256),
    };
    Shape {
        transactions,
        tasks,
        pairs,
    }
}

/// A shape whose records fill every block to its last place.
fn shape_of_whole_blocks(random: &mut Random) -> Shape {
    let records = random.pick(&[15, 30, 45]);
    let transactions = random.count(1, 4);
    let tasks = random.count(7, 11);
    Shape {
        transactions,
        tasks,
        pairs: records - transactions - tasks,
    }
}

/// A table of this shape; pairs that the tasks do not give room for are left out.
pub fn table_of_shape(random: &mut Random, shape: Shape) -> Table {
    let style = Style::draw(random, shape.tasks);
    table_of_style(random, shape, &style)
}

/// A table of this shape with tasks of this style.
pub fn table_of_style(random: &mut Random, shape: Shape, style: &Style) -> Table {
    let numbers = distinct_numbers(random, shape.transactions);
    let transactions: Vec<Transaction> = numbers
        .into_iter()
        .map(|number| Transaction {
            number,
            period: draw_period(random, style),
        })
        .collect();
    let ids = distinct_numbers(random, shape.tasks);
    let tasks = ids
        .iter()
        .map(|id| {
            let transaction = random.pick(&transactions);
            draw_task(random, style, *id, &transaction)
        })
        .collect();
    let pairs = draw_pairs(random, &ids, shape.pairs);
    let mut table = Table {
        transactions,
        tasks,
        pairs,
    };
    draw_thresholds(random, &mut table);
    sharpen(random, &mut table);
    table
}

/// This many different numbers in rising order, often with both ends of the range among them.
pub fn distinct_numbers(random: &mut Random, count: usize) -> Vec<u16> {
    let most = random.pick(&[2 * count as u16 + 1, 300, u16::MAX]);
    let mut numbers = BTreeSet::new();
    if count >= 2 && random.one_in(3) {
        numbers.extend([1, u16::MAX]);
    }
    while numbers.len() < count {
        numbers.insert(random.short(1, most));
    }
    numbers.into_iter().collect()
}

/// Up to this many pairs of these tasks, in table order; the precedence pairs lead along an order of the tasks.
pub fn draw_pairs(random: &mut Random, ids: &[u16], count: usize) -> Vec<Pair> {
    let order = Order::draw(random, ids);
    let room = ids.len() * ids.len().saturating_sub(1);
    let mut sorts = BTreeMap::new();
    while sorts.len() < count.min(room) {
        let (first, second) = order.draw_names(random);
        let also_backwards = random.one_in(4) && sorts.len() + 2 <= count.min(room);
        if first != second {
            let sort = order.draw_sort(random, first, second);
            sorts.insert((first, second), sort);
        }
        if first != second && also_backwards {
            let sort = order.draw_sort(random, second, first);
            sorts.insert((second, first), sort);
        }
    }
    let pair = |((first, second), sort)| Pair {
        sort,
        first,
        second,
    };
    sorts.into_iter().map(pair).collect()
}

/// One-way or precedence.
pub fn draw_sort(random: &mut Random) -> PairSort {
    random.pick(&[PairSort::OneWay, PairSort::Precedence])
}
