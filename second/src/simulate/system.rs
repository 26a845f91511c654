//! A random system: its table but for the responses, and how far its times vary.

use crate::generate::precedences::put_in_path;
use crate::generate::random::Random;
use crate::generate::tables::draw_pairs;
use crate::records::{Task, Transaction, MISSING_JITTER, THRESHOLD_OF_PRIORITY};
use crate::table::Table;

/// The periods that transactions have, all of them parts of 120.
const PERIODS: [u32; 6] = [20, 24, 30, 40, 60, 120];

/// A system whose responses are still to be measured.
pub struct System {
    /// The table, in which every response is the least that is accepted.
    pub table: Table,
    /// How many moments make up one unit of the table's times.
    pub grain: u64,
    /// For each transaction how many moments past its period the next activation comes at most.
    pub most_pause: Vec<u64>,
    /// For each task how many moments past its offset an instance is released at most.
    pub most_delay: Vec<u64>,
    /// For each task how many moments an instance executes at most.
    pub most_work: Vec<u64>,
}

/// A system of up to 4 transactions and up to 12 tasks.
pub fn draw_system(random: &mut Random) -> System {
    let table = draw_table(random);
    let grain = random.pick(&[1, 1, 2, 3]);
    let most_pause = (table.transactions.iter())
        .map(|transaction| grain * draw_pause(random, transaction))
        .collect();
    let most_delay = (table.tasks.iter())
        .map(|task| grain * draw_delay(random, task, period_of(&table, task)))
        .collect();
    let most_work = draw_work(random, &table, grain);
    System {
        table,
        grain,
        most_pause,
        most_delay,
        most_work,
    }
}

/// The period of a task's transaction.
fn period_of(table: &Table, task: &Task) -> u32 {
    let period = table.period_of(task.transaction);
    period.expect("the transaction of a drawn task is listed")
}

fn draw_table(random: &mut Random) -> Table {
    let transactions: Vec<Transaction> = (1..=random.short(1, 4))
        .map(|number| Transaction {
            number,
            period: random.pick(&PERIODS),
        })
        .collect();
    let style = Style::draw(random);
    let tasks: Vec<Task> = (1..=draw_count(random))
        .map(|id| {
            let transaction = random.pick(&transactions);
            draw_task(random, &style, id, &transaction)
        })
        .collect();
    let ids: Vec<u16> = tasks.iter().map(|task| task.id).collect();
    let pairs = random.pick(&[0, 2, 6]);
    let mut table = Table {
        transactions,
        pairs: draw_pairs(random, &ids, pairs),
        tasks,
    };
    if random.one_in(3) {
        put_in_path(random, &mut table);
    }
    Table::read(&table.records())
}

/// How many tasks: any number up to 12 in a third of the systems, 6 or more in the others.
fn draw_count(random: &mut Random) -> u16 {
    let fewest = random.pick(&[1, 6, 6]);
    random.short(fewest, 12)
}

/// What the tasks of one system have in common.
struct Style {
    most_urgent: u16,
    /// How many eighths of the period a measured jitter has at most.
    most_jitter: u32,
    /// Of how many tasks in ten the jitter is missing.
    missing_jitters: usize,
    /// How many tasks in ten have a threshold written.
    thresholds: usize,
}

impl Style {
    fn draw(random: &mut Random) -> Style {
        Style {
            most_urgent: random.pick(&[3, 6, 12]),
            most_jitter: random.pick(&[0, 1, 4, 16]),
            missing_jitters: random.pick(&[0, 0, 2, 5]),
            thresholds: random.pick(&[0, 0, 3, 6]),
        }
    }
}

fn draw_task(random: &mut Random, style: &Style, id: u16, transaction: &Transaction) -> Task {
    let offset = match random.one_in(4) {
        true => 0,
        false => random.time(0, transaction.period - 1),
    };
    let priority = random.short(1, style.most_urgent);
    Task {
        id,
        transaction: transaction.number,
        priority,
        offset,
        jitter: match random.rank(10) < style.missing_jitters {
            true => MISSING_JITTER,
            false => draw_jitter(random, style, transaction.period),
        },
        response: offset,
        stack: random.short(1, 200),
        threshold: match random.rank(10) < style.thresholds {
            true => random.short(priority, style.most_urgent) as u8,
            false => THRESHOLD_OF_PRIORITY,
        },
    }
}

/// A measured jitter, none in half of the tasks and more in the others where the style has it.
fn draw_jitter(random: &mut Random, style: &Style, period: u32) -> u32 {
    match random.one_in(2) {
        true => 0,
        false => random.time(0, period * style.most_jitter / 8),
    }
}

/// How long past the period a transaction's event stays away at most.
fn draw_pause(random: &mut Random, transaction: &Transaction) -> u64 {
    let period = u64::from(transaction.period);
    random.pick(&[0, 1, period / 4, period])
}

/// The latest release after the offset: the jitter, or any time up to two periods where it is missing.
fn draw_delay(random: &mut Random, task: &Task, period: u32) -> u64 {
    match task.jitter {
        MISSING_JITTER => random.between(0, 2 * u64::from(period)),
        measured => u64::from(measured),
    }
}

/// The longest executions, which would keep the processor busy for 20 to 140 of a hundred moments; as
/// most executions are shorter, it seldom falls behind for good.
fn draw_work(random: &mut Random, table: &Table, grain: u64) -> Vec<u64> {
    let load = random.between(20, 140);
    let weights: Vec<u64> = table.tasks.iter().map(|_| random.between(1, 10)).collect();
    let all: u64 = weights.iter().sum();
    let work = |(task, weight): (&Task, &u64)| {
        let period = u64::from(period_of(table, task)) * grain;
        (period * load * weight / (100 * all)).max(1)
    };
    table.tasks.iter().zip(&weights).map(work).collect()
}
