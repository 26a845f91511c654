//! The values of transactions and tasks: at the ends of their ranges, and at the edges of the decision.

use crate::generate::random::Random;
use crate::generate::thresholds::draw_lone_threshold;
use crate::preempt::distance;
use crate::record_faults::{MOST_PERIOD, MOST_PRIORITY, MOST_RESPONSE};
use crate::records::{Task, Transaction, MISSING_JITTER, THRESHOLD_OF_PRIORITY};
use crate::table::Table;

/// What the tasks of one table have in common.
pub struct Style {
    priorities: Vec<u16>,
    stacks: Vec<u16>,
    longest_period: u32,
    times: Times,
}

/// How the offsets, jitters and responses of a table are drawn.
#[derive(Clone, Copy)]
enum Times {
    /// Over their whole ranges, often at the ends.
    Any,
    /// As section 6 of the paper has them, but for the jitters that are missing: offsets in the first
    /// half of the period, jitters of 0, and from offset to response at most the period divided by `parts`.
    Brief { parts: u32 },
}

/// Tables with more tasks than this mostly have few priorities, and a thin map where they have many.
pub const MANY_TASKS: usize = 30;

impl Style {
    /// A style for a table of this many tasks.
    pub fn draw(random: &mut Random, tasks: usize) -> Style {
        let stacks = draw_stacks(random, tasks);
        let most = match tasks {
            ..=MANY_TASKS => random.pick(&[1, 4, 10, 255]),
            _ if stacks.len() <= 3 => 6,
            _ => random.pick(&[5, 8, 8, 255]),
        };
        Style {
            priorities: draw_priorities(random, most),
            stacks,
            longest_period: random.pick(&[1, 2, 10, 100, 10_000, MOST_PERIOD]),
            times: Times::Any,
        }
    }

    /// A style for a table of this many tasks with priorities from 1 to the most urgent, mostly as in
    /// section 6 of the paper.
    pub fn draw_large(random: &mut Random, tasks: usize, most_urgent: u16) -> Style {
        let stacks = match random.one_in(3) {
            true => draw_stacks(random, tasks),
            false => (0..tasks).map(|_| random.short(128, 2048)).collect(),
        };
        let times = match random.one_in(3) {
            true => Times::Any,
            false => Times::Brief {
                parts: random.pick(&[2, 5, 20]),
            },
        };
        Style {
            priorities: (1..=most_urgent).collect(),
            stacks,
            longest_period: 10_000,
            times,
        }
    }
}

/// Sizes to pick from, sometimes so few that many chains weigh the same.
fn draw_stacks(random: &mut Random, tasks: usize) -> Vec<u16> {
    match random.rank(5) {
        0 => vec![random.short(1, 9)],
        1 => vec![1, 2, 3],
        2 => vec![1, u16::MAX],
        _ => (0..tasks.max(1)).map(|_| random.short(1, 500)).collect(),
    }
}

/// This many priorities at most, often with both ends of the range among them.
fn draw_priorities(random: &mut Random, most: usize) -> Vec<u16> {
    match most {
        1 => vec![random.short(1, MOST_PRIORITY)],
        255 => (1..=MOST_PRIORITY).collect(),
        _ => (2..most)
            .map(|_| random.short(1, MOST_PRIORITY))
            .chain([1, MOST_PRIORITY])
            .collect(),
    }
}

/// A period that the style allows, often the longest.
pub fn draw_period(random: &mut Random, style: &Style) -> u32 {
    match random.rank(3) {
        0 => random.time(1, style.longest_period),
        _ => style.longest_period,
    }
}

/// A task of this transaction with every value in its range, and its priority as its threshold.
pub fn draw_task(random: &mut Random, style: &Style, id: u16, transaction: &Transaction) -> Task {
    let offset = draw_offset(random, style.times, transaction.period);
    Task {
        id,
        transaction: transaction.number,
        priority: random.pick(&style.priorities),
        offset,
        jitter: draw_jitter(random, style.times, transaction.period),
        response: draw_response(random, style.times, offset, transaction.period),
        stack: random.pick(&style.stacks),
        threshold: THRESHOLD_OF_PRIORITY,
    }
}

/// A task of its own style that is put among these others.
pub fn draw_lone_task(
    random: &mut Random,
    id: u16,
    transaction: &Transaction,
    others: &[Task],
) -> Task {
    let style = Style::draw(random, 1);
    let task = draw_task(random, &style, id, transaction);
    Task {
        threshold: draw_lone_threshold(random, task.priority, others),
        ..task
    }
}

fn draw_offset(random: &mut Random, times: Times, period: u32) -> u32 {
    if let Times::Brief { .. } = times {
        return random.time(0, (period - 1) / 2);
    }
    match random.rank(5) {
        0 => 0,
        1 => period - 1,
        _ => random.time(0, period - 1),
    }
}

/// A jitter, missing in two tasks of five.
fn draw_jitter(random: &mut Random, times: Times, period: u32) -> u32 {
    match random.rank(5) {
        0 | 1 => MISSING_JITTER,
        _ => draw_written_jitter(random, times, period),
    }
}

fn draw_written_jitter(random: &mut Random, times: Times, period: u32) -> u32 {
    if let Times::Brief { .. } = times {
        return 0;
    }
    match random.rank(8) {
        0..=2 => 0,
        3 => period,
        4 => MOST_PERIOD,
        5 => 1,
        6 => random.time(0, MOST_PERIOD),
        _ => random.time(0, period),
    }
}

fn draw_response(random: &mut Random, times: Times, offset: u32, period: u32) -> u32 {
    if let Times::Brief { parts } = times {
        return offset + random.time(0, period / parts);
    }
    match random.rank(6) {
        0 => offset,
        1 => offset + 1,
        2 => MOST_RESPONSE,
        3 => offset + period,
        _ => (offset + random.time(0, period)).min(MOST_RESPONSE),
    }
}

/// Sets some responses and written jitters to the last value that says no or the first that says yes.
pub fn sharpen(random: &mut Random, table: &mut Table) {
    for _ in 0..table.tasks.len() {
        let lower = random.rank(table.tasks.len());
        let upper = random.rank(table.tasks.len());
        let (below, above) = (table.tasks[lower], table.tasks[upper]);
        if !written_times_decide(&below, &above) {
            continue;
        }
        let period = table.period_of(below.transaction).unwrap_or(1);
        let apart = distance(above.offset, below.offset, period) as u32;
        let past_edge = random.time(0, 1);
        match random.rank(2) {
            0 => table.tasks[lower].response = below.offset + (period - apart) + past_edge,
            _ => table.tasks[upper].jitter = apart + past_edge,
        }
    }
}

/// Whether the two tasks leave their pair to written times; a missing jitter says yes at every distance.
fn written_times_decide(below: &Task, above: &Task) -> bool {
    below.transaction == above.transaction
        && below.yields_to(above)
        && above.jitter != MISSING_JITTER
}
