//! The six tasks of figure 2 as a table, with their jitters written or missing, with a threshold, and with
//! precedence pairs.

use crate::records::{Pair, PairSort, Task, Transaction, MISSING_JITTER, THRESHOLD_OF_PRIORITY};
use crate::table::Table;

/// Figure 2 with period 10,000 in both transactions, every jitter written as 0 and every threshold 0.
pub fn figure2() -> Table {
    let transaction = |number| Transaction {
        number,
        period: 10_000,
    };
    Table {
        transactions: vec![transaction(1), transaction(2)],
        tasks: vec![
            task(11, 0, 1, 3854, 4),
            task(12, 1697, 2, 3837, 1),
            task(13, 4635, 4, 4781, 2),
            task(21, 0, 3, 393, 2),
            task(22, 617, 1, 3854, 1),
            task(23, 2588, 3, 3699, 3),
        ],
        pairs: Vec::new(),
    }
}

/// Figure 2 with no jitter measured.
pub fn unmeasured() -> Table {
    let mut table = figure2();
    for task in &mut table.tasks {
        task.jitter = MISSING_JITTER;
    }
    table
}

/// Figure 2 with a threshold of 3 for task 12, so that the tasks of priority 3 do not preempt it.
pub fn thresholds() -> Table {
    let mut table = figure2();
    table.tasks[1].threshold = 3;
    table
}

/// Figure 2 with task 11 before 12 and 12 before 23, so that 11 and 23 do not nest either.
pub fn precedence() -> Table {
    let pair = |first, second| Pair {
        sort: PairSort::Precedence,
        first,
        second,
    };
    Table {
        pairs: vec![pair(11, 12), pair(12, 23)],
        ..figure2()
    }
}

/// A task of figure 2, whose id starts with its transaction's number.
fn task(id: u16, offset: u32, priority: u16, response: u32, stack: u16) -> Task {
    Task {
        id,
        transaction: id / 10,
        priority,
        offset,
        jitter: 0,
        response,
        stack,
        threshold: THRESHOLD_OF_PRIORITY,
    }
}
