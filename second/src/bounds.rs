//! The relation that a lent map gives, and the bounds over paths, transactions and levels.

use std::collections::BTreeMap;

use crate::chain::members;
use crate::preempt::is_set;
use crate::records::Task;

/// The sizes of the tasks, and which places count as able to preempt each of them.
pub struct Relation {
    pub stack: Vec<u64>,
    pub above: Vec<u64>,
    most_urgent_first: Vec<usize>,
}

impl Relation {
    /// The cells of a map that count: both places hold tasks and the first yields to the second.
    pub fn read(tasks: &[Task], map: &[u64]) -> Relation {
        let places = 0..tasks.len();
        let counts =
            |row: usize, cell: usize| tasks[row].yields_to(&tasks[cell]) && is_set(map, row, cell);
        let above = |row: usize| {
            places
                .clone()
                .filter(|cell| counts(row, *cell))
                .fold(0, |set, cell| set | 1 << cell)
        };
        let mut most_urgent_first: Vec<usize> = places.clone().collect();
        most_urgent_first.sort_by_key(|place| std::cmp::Reverse(tasks[*place].priority));
        Relation {
            stack: tasks.iter().map(|task| u64::from(task.stack)).collect(),
            above: places.clone().map(above).collect(),
            most_urgent_first,
        }
    }

    /// The set of all places that hold tasks.
    pub fn everyone(&self) -> u64 {
        (0..self.stack.len()).fold(0, |set, place| set | 1 << place)
    }

    /// The weight of a chain, given by its places.
    pub fn weight_of(&self, chain: &[usize]) -> u64 {
        chain.iter().map(|place| self.stack[*place]).sum()
    }

    /// The path bound of the tasks at these places: the largest sum over lists of them in which neighbours are related.
    pub fn path_among(&self, allowed: u64) -> u64 {
        let mut from = vec![0; self.stack.len()];
        for place in &self.most_urgent_first {
            if allowed >> place & 1 == 1 {
                let next = members(allowed & self.above[*place]);
                from[*place] = self.stack[*place] + next.map(|next| from[next]).max().unwrap_or(0);
            }
        }
        from.into_iter().max().unwrap_or(0)
    }

    /// The path bound.
    pub fn path(&self) -> u64 {
        self.path_among(self.everyone())
    }

    /// The path bounds of each transaction's own tasks, added up.
    pub fn transactions(&self, tasks: &[Task]) -> u64 {
        let mut own: BTreeMap<u16, u64> = BTreeMap::new();
        for (place, task) in tasks.iter().enumerate() {
            *own.entry(task.transaction).or_insert(0) |= 1 << place;
        }
        own.values().map(|places| self.path_among(*places)).sum()
    }
}

/// The largest size of each priority in use, added up.
pub fn levels(tasks: &[Task]) -> u64 {
    let mut largest: BTreeMap<u16, u64> = BTreeMap::new();
    for task in tasks {
        let level = largest.entry(task.priority).or_insert(0);
        *level = u64::from(task.stack).max(*level);
    }
    largest.values().sum()
}
