//! The kernel that is simulated: fixed priorities, first in first out within one, thresholds and pairs.
//!
//! At each moment the most urgent instance that is released and not started is looked at, and no other.
//! It starts if every instance on the stack yields to it, by its threshold and by the pairs; else the top
//! of the stack runs on, and whatever else is released waits too. So an instance starts only where none of
//! a higher priority is waiting, and those that preempt it are released after its start: early blocking.
//! A one-way pair keeps its second task waiting while the first is anywhere on the stack, a precedence pair
//! each of its tasks while the other is, and so does a path of precedence pairs with the tasks at its ends;
//! the order that a precedence stands for is not simulated, since the table says no more of it than that
//! neither preempts the other.

use std::cmp::Reverse;
use std::collections::BinaryHeap;

use crate::precedence::Paths;
use crate::records::{Pair, PairSort, Task};
use crate::simulate::run::Instance;
use crate::table::Table;

/// An instance before it runs: when it is released, and for how many moments it executes, at least 1.
#[derive(Clone, Copy, PartialEq, Eq, Debug)]
pub struct Arrival {
    pub place: usize,
    pub activation: u64,
    pub release: u64,
    pub work: u64,
}

/// What kept an instance from starting at some moment of a run: what is asked first, of thresholds, then of pairs in the
/// table's order, then of paths.
#[derive(Clone, Copy, PartialEq, Eq, Debug, Default)]
pub struct HeldBack {
    /// A threshold: the instance was more urgent than all on the stack.
    pub by_threshold: bool,
    /// A one-way pair: all on the stack yielded by their thresholds.
    pub by_one_way: bool,
    /// A precedence pair: all on the stack yielded by their thresholds.
    pub by_precedence: bool,
    /// A path through a third task: no pair stood in the way, and all on the stack yielded by their thresholds.
    pub by_path: bool,
}

/// What the kernel has done with all that arrived.
pub struct Ran {
    pub instances: Vec<Instance>,
    pub held_back: HeldBack,
    /// The most bytes that were on its stack at once.
    pub deepest_bytes: u64,
}

/// Runs all that arrives to its end.
pub fn run_all(table: &Table, mut arrivals: Vec<Arrival>) -> Ran {
    arrivals.sort_by_key(|arrival| arrival.release);
    let mut kernel = Kernel::new(table);
    let mut coming = arrivals.into_iter().peekable();
    let mut moment = 0;
    while !kernel.is_idle() || coming.peek().is_some() {
        if let (true, Some(next)) = (kernel.is_idle(), coming.peek()) {
            moment = next.release;
        }
        while let Some(released) = coming.next_if(|arrival| arrival.release <= moment) {
            kernel.release(released);
        }
        kernel.start_one(moment);
        kernel.work(moment);
        moment += 1;
    }
    Ran {
        instances: kernel.finished,
        held_back: kernel.held_back,
        deepest_bytes: kernel.deepest_bytes,
    }
}

/// What stands in the way of a start.
enum Barrier {
    Priority,
    Threshold,
    Pair(PairSort),
    Path,
}

/// An instance on the stack.
struct Started {
    arrival: Arrival,
    start: u64,
    left: u64,
}

/// Whose turn it is: the highest priority first, and within one the first that was released.
type Turn = (u16, Reverse<usize>);

struct Kernel<'table> {
    table: &'table Table,
    paths: Paths,
    /// All that was released, in the order of releases.
    released: Vec<Arrival>,
    /// The turns of those that are released and not started.
    waiting: BinaryHeap<Turn>,
    /// Those that have started and not finished, the running one last.
    stack: Vec<Started>,
    finished: Vec<Instance>,
    held_back: HeldBack,
    deepest_bytes: u64,
}

impl<'table> Kernel<'table> {
    fn new(table: &'table Table) -> Kernel<'table> {
        Kernel {
            table,
            paths: Paths::along(&table.pairs),
            released: Vec::new(),
            waiting: BinaryHeap::new(),
            stack: Vec::new(),
            finished: Vec::new(),
            held_back: HeldBack::default(),
            deepest_bytes: 0,
        }
    }

    fn is_idle(&self) -> bool {
        self.stack.is_empty() && self.waiting.is_empty()
    }

    /// The instance waits for its turn from now on.
    fn release(&mut self, arrival: Arrival) {
        let priority = self.table.tasks[arrival.place].priority;
        self.waiting.push((priority, Reverse(self.released.len())));
        self.released.push(arrival);
    }

    /// Starts the instance whose turn it is, unless something stands in its way.
    fn start_one(&mut self, moment: u64) {
        let Some((_, Reverse(rank))) = self.waiting.peek() else {
            return;
        };
        let arrival = self.released[*rank];
        match self.barrier_to(&self.table.tasks[arrival.place]) {
            Some(barrier) => self.note(barrier),
            None => {
                self.waiting.pop();
                self.stack.push(Started {
                    arrival,
                    start: moment,
                    left: arrival.work,
                });
                self.deepest_bytes = self.deepest_bytes.max(self.bytes_on_stack());
            }
        }
    }

    fn bytes_on_stack(&self) -> u64 {
        let size = |one: &Started| u64::from(self.table.tasks[one.arrival.place].stack);
        self.stack.iter().map(size).sum()
    }

    /// The top of the stack executes for a moment, and leaves the stack when its work is done.
    fn work(&mut self, moment: u64) {
        let Some(top) = self.stack.last_mut() else {
            return;
        };
        top.left -= 1;
        if top.left == 0 {
            let (arrival, start) = (top.arrival, top.start);
            self.stack.pop();
            self.finished.push(Instance {
                place: arrival.place,
                activation: arrival.activation,
                release: arrival.release,
                start,
                finish: moment + 1,
            });
        }
    }

    /// What keeps this task from preempting all that is on the stack, if something does.
    fn barrier_to(&self, upper: &Task) -> Option<Barrier> {
        let tasks = || {
            self.stack
                .iter()
                .map(|one| &self.table.tasks[one.arrival.place])
        };
        if tasks().any(|lower| lower.priority >= upper.priority) {
            Some(Barrier::Priority)
        } else if tasks().any(|lower| !lower.yields_to(upper)) {
            Some(Barrier::Threshold)
        } else {
            self.bar_to(upper)
        }
    }

    /// The first pair, or else a path, that keeps this task from preempting all that is on the stack.
    fn bar_to(&self, upper: &Task) -> Option<Barrier> {
        let below = self.stack.iter().map(|one| one.arrival.place);
        let ids: Vec<u16> = below.map(|place| self.table.tasks[place].id).collect();
        let forbids = |pair: &&Pair| ids.iter().any(|lower| pair.forbids(*lower, upper.id));
        let is_joined = |lower: &u16| self.paths.join(*lower, upper.id);
        match self.table.pairs.iter().find(forbids) {
            Some(pair) => Some(Barrier::Pair(pair.sort)),
            None => ids.iter().any(is_joined).then_some(Barrier::Path),
        }
    }

    fn note(&mut self, barrier: Barrier) {
        match barrier {
            Barrier::Priority => {}
            Barrier::Threshold => self.held_back.by_threshold = true,
            Barrier::Pair(PairSort::OneWay) => self.held_back.by_one_way = true,
            Barrier::Pair(PairSort::Precedence) => self.held_back.by_precedence = true,
            Barrier::Path => self.held_back.by_path = true,
        }
    }
}
