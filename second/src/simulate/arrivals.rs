//! What arrives at a system: the activations of its transactions, and the instances that each releases.

use crate::generate::random::Random;
use crate::records::{Task, Transaction};
use crate::simulate::kernel::Arrival;
use crate::simulate::system::System;

/// For how many periods of the slowest transaction there are activations.
const PERIODS: u64 = 300;

/// All instances of a run, in no order that matters but for releases at the same moment.
pub fn draw_arrivals(random: &mut Random, system: &System) -> Vec<Arrival> {
    let transactions = &system.table.transactions;
    let slowest = transactions.iter().map(|one| one.period).max();
    let end = PERIODS * system.grain * u64::from(slowest.unwrap_or(0));
    let mut arrivals = Vec::new();
    for (transaction, most_pause) in transactions.iter().zip(&system.most_pause) {
        let period = u64::from(transaction.period) * system.grain;
        let mut activation = random.between(0, period);
        while activation < end {
            arrivals.extend(draw_instances(random, system, transaction, activation));
            activation += period + low_high_or_between(random, 0, *most_pause);
        }
    }
    arrivals
}

/// One instance of each task of the transaction.
fn draw_instances(
    random: &mut Random,
    system: &System,
    transaction: &Transaction,
    activation: u64,
) -> Vec<Arrival> {
    let tasks = system.table.tasks.iter().enumerate();
    let own = tasks.filter(|(_, task)| task.transaction == transaction.number);
    let arrival = |(place, task): (usize, &Task)| {
        let offset = u64::from(task.offset) * system.grain;
        let delay = low_high_or_between(random, 0, system.most_delay[place]);
        Arrival {
            place,
            activation,
            release: activation + offset + delay,
            work: low_high_or_between(random, 1, system.most_work[place]),
        }
    };
    own.map(arrival).collect()
}

/// A number from `low` to `high`, which is often one of the two.
fn low_high_or_between(random: &mut Random, low: u64, high: u64) -> u64 {
    match random.rank(4) {
        0 => low,
        1 => high,
        _ => random.between(low, high),
    }
}
