//! The thresholds of tasks: at the ends of their range, and at the edges of the first condition.

use crate::generate::random::Random;
use crate::record_faults::MOST_PRIORITY;
use crate::records::{Task, THRESHOLD_OF_PRIORITY};
use crate::table::Table;

/// Draws the thresholds of a table's tasks; in every third table they stay 0.
pub fn draw_thresholds(random: &mut Random, table: &mut Table) {
    if random.one_in(3) {
        return;
    }
    let others = table.tasks.clone();
    for task in &mut table.tasks {
        task.threshold = draw_threshold(random, task.priority, &others);
    }
}

/// The threshold of a task that is put among these, 0 in half of them.
pub fn draw_lone_threshold(random: &mut Random, priority: u16, others: &[Task]) -> u8 {
    match random.one_in(3) {
        true => THRESHOLD_OF_PRIORITY,
        false => draw_threshold(random, priority, others),
    }
}

/// A threshold for a task of this priority: 0, the priority, a value past it, or one that just keeps
/// another task from preempting or just lets it.
pub fn draw_threshold(random: &mut Random, priority: u16, others: &[Task]) -> u8 {
    let written = match random.rank(8) {
        0 | 1 => return THRESHOLD_OF_PRIORITY,
        2 | 3 => priority,
        4 => priority_above(random, priority, others),
        5 => (priority_above(random, priority, others) - 1).max(priority),
        6 => random.short(priority, MOST_PRIORITY),
        _ => MOST_PRIORITY,
    };
    written as u8
}

/// The priority of one of these tasks that is more urgent, or the priority itself where there is none.
fn priority_above(random: &mut Random, priority: u16, others: &[Task]) -> u16 {
    let priorities = others.iter().map(|task| task.priority);
    let is_above = |other: &u16| (priority + 1..=MOST_PRIORITY).contains(other);
    let above: Vec<u16> = priorities.filter(is_above).collect();
    match above.is_empty() {
        true => priority,
        false => random.pick(&above),
    }
}
