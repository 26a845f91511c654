//! The heaviest table that the limits leave: no bound of any table is above its bounds.

use crate::records::{Task, Transaction};
use crate::table::Table;

/// As many tasks as a table may have, each as large as a task may be, in one transaction where all may nest.
pub fn heaviest() -> Table {
    Table {
        transactions: vec![Transaction {
            number: 1,
            period: 10_000,
        }],
        tasks: (1..=64).map(task).collect(),
        pairs: Vec::new(),
    }
}

/// A task that may preempt every task of lower rank, because its jitter passes their distance of 0.
fn task(rank: u16) -> Task {
    Task {
        id: rank,
        transaction: 1,
        priority: rank,
        offset: 0,
        jitter: 1,
        response: 10_000,
        stack: u16::MAX,
        threshold: 0,
    }
}
