//! A run: instances of tasks, each with the times at which it was activated, released, started and finished.

use std::collections::BTreeSet;

use crate::table::Table;

/// One instance of a task, by the task's place in the table; its times are moments.
#[derive(Clone, Copy, PartialEq, Eq, Debug)]
pub struct Instance {
    pub place: usize,
    /// When the transaction that the instance belongs to was activated.
    pub activation: u64,
    pub release: u64,
    pub start: u64,
    pub finish: u64,
}

/// The instances of a run, and how many moments make up one unit of the table's times.
#[derive(Clone, PartialEq, Eq, Debug)]
pub struct Run {
    pub grain: u64,
    pub instances: Vec<Instance>,
}

/// An instance that starts, and those that have started before it and not finished.
pub struct Nesting {
    pub started: Instance,
    pub unfinished: Vec<Instance>,
}

/// How much is on the stack at once.
#[derive(Clone, Copy, PartialEq, Eq, Debug, Default)]
pub struct Depth {
    pub bytes: u64,
    pub instances: usize,
}

impl Run {
    /// What is on the stack at each start, in the order of the starts.
    pub fn nestings(&self) -> impl Iterator<Item = Nesting> {
        let mut in_order = self.instances.clone();
        in_order.sort_by_key(|instance| instance.start);
        let mut unfinished: Vec<Instance> = Vec::new();
        in_order.into_iter().map(move |started| {
            unfinished.retain(|earlier| earlier.finish > started.start);
            let nesting = Nesting {
                started,
                unfinished: unfinished.clone(),
            };
            unfinished.push(started);
            nesting
        })
    }

    /// The places of each two tasks of which an instance of the first was preempted by one of the second.
    pub fn preemptions(&self) -> BTreeSet<(usize, usize)> {
        let pairs = |nesting: Nesting| {
            let upper = nesting.started.place;
            let unfinished = nesting.unfinished.into_iter();
            unfinished.map(move |lower| (lower.place, upper))
        };
        self.nestings().flat_map(pairs).collect()
    }

    /// The most bytes and the most instances that are on the stack at any moment; both grow at starts alone.
    pub fn deepest(&self, table: &Table) -> Depth {
        self.nestings()
            .map(|nesting| nesting.depth(table))
            .fold(Depth::default(), |one, other| Depth {
                bytes: one.bytes.max(other.bytes),
                instances: one.instances.max(other.instances),
            })
    }
}

impl Nesting {
    /// What is on the stack once the instance has started.
    fn depth(&self, table: &Table) -> Depth {
        let size = |instance: &Instance| u64::from(table.tasks[instance.place].stack);
        let below: u64 = self.unfinished.iter().map(size).sum();
        Depth {
            bytes: below + size(&self.started),
            instances: self.unfinished.len() + 1,
        }
    }
}
