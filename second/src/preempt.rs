//! Who may preempt whom and why, and the map of it.

use crate::precedence::Bars;
use crate::reasons::Reason;
use crate::records::Task;
use crate::table::Table;

/// Rows of a map, and cells of a row.
pub const MAP_ROWS: usize = 64;

/// The rows of a map; bit j of row i is the cell of places i and j.
pub type Map = [u64; MAP_ROWS];

/// How long after an activation at `from` the next one at `to` comes, in 0 to the period less 1.
pub fn distance(from: u32, to: u32, period: u32) -> u64 {
    let period = u64::from(period);
    (u64::from(to) + period - u64::from(from)) % period
}

/// What decides whether tasks of a table may nest.
pub struct Decider<'table> {
    table: &'table Table,
    bars: Bars<'table>,
}

impl Decider<'_> {
    /// The decider of this table, which works out once where its precedence pairs lead.
    pub fn of(table: &Table) -> Decider<'_> {
        Decider {
            table,
            bars: Bars::of(&table.pairs),
        }
    }

    /// Why task `lower` may be preempted by task `upper`, or why it may not.
    pub fn reason(&self, lower: &Task, upper: &Task) -> Reason {
        if !lower.yields_to(upper) {
            Reason::Priority
        } else if self.bars.forbid(lower.id, upper.id) {
            Reason::Pair
        } else if lower.transaction != upper.transaction {
            Reason::Transaction
        } else {
            reason_of_times(self.table, lower, upper)
        }
    }

    /// Whether the task at place `row` may be preempted by the one at place `cell`.
    pub fn sets(&self, row: usize, cell: usize) -> bool {
        let tasks = &self.table.tasks;
        self.reason(&tasks[row], &tasks[cell]).lets_nest()
    }
}

/// Whether task `lower` may be preempted by task `upper`.
pub fn may_be_preempted(table: &Table, lower: &Task, upper: &Task) -> bool {
    reason_for(table, lower, upper).lets_nest()
}

/// Why task `lower` may be preempted by task `upper`, or why it may not.
pub fn reason_for(table: &Table, lower: &Task, upper: &Task) -> Reason {
    Decider::of(table).reason(lower, upper)
}

/// What the times of two tasks of one transaction say; without a period they say no.
fn reason_of_times(table: &Table, lower: &Task, upper: &Task) -> Reason {
    let Some(period) = table.period_of(lower.transaction) else {
        return Reason::Timing;
    };
    let apart = distance(upper.offset, lower.offset, period);
    let unfinished_for = u64::from(lower.response) - u64::from(lower.offset);
    if u64::from(upper.read_jitter(period)) > apart {
        Reason::Jitter
    } else if unfinished_for > u64::from(period) - apart {
        Reason::Response
    } else {
        Reason::Timing
    }
}

/// The reasons of all pairs of places, row after row.
pub fn all_reasons(table: &Table) -> Vec<Reason> {
    let decider = Decider::of(table);
    let row = |lower| {
        let reason = |upper| decider.reason(lower, upper);
        table.tasks.iter().map(reason).collect::<Vec<Reason>>()
    };
    table.tasks.iter().flat_map(row).collect()
}

/// The map of a table, decided cell by cell.
pub fn true_map(table: &Table) -> Map {
    let decider = Decider::of(table);
    map_from(table.tasks.len(), |row, cell| decider.sets(row, cell))
}

/// The map whose cells among the first `tasks` places are as decided, and all others 0.
pub fn map_from(tasks: usize, decide: impl Fn(usize, usize) -> bool) -> Map {
    let mut map = [0; MAP_ROWS];
    for (row, bits) in map.iter_mut().enumerate().take(tasks) {
        *bits = (0..tasks)
            .filter(|cell| decide(row, *cell))
            .fold(0, |bits, cell| bits | 1 << cell);
    }
    map
}

/// Whether the cell of places `row` and `cell` is set.
pub fn is_set(map: &[u64], row: usize, cell: usize) -> bool {
    map[row] >> cell & 1 == 1
}
