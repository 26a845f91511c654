//! Whether a run keeps to a table: what the bound takes for granted of the kernel and of the measured times, as
//! `KeepsTo` of the definitions has it.

use std::fmt;

use crate::precedence::Bars;
use crate::records::MISSING_JITTER;
use crate::simulate::run::{Instance, Nesting, Run};
use crate::table::Table;

/// What a run is held to.
#[derive(Clone, Copy, PartialEq, Eq, Debug)]
pub enum Rule {
    /// An instance starts no earlier than its activation plus the offset, (5) of the paper.
    Offset,
    /// It is released by its activation plus the offset plus the jitter, where that is measured, (6) of the paper.
    Jitter,
    /// It starts no earlier than it is released.
    Release,
    /// It has finished by its activation plus the response.
    Response,
    /// Two activations of one transaction are the same or at least its period apart.
    Period,
    /// No two instances start at the same moment.
    OneStart,
    /// An instance that is preempted has a threshold below the other's priority.
    Threshold,
    /// No pair forbids the preemption, and neither task comes before the other.
    Pair,
    /// An instance that is preempted has started before the other was released: early blocking.
    EarlyBlocking,
    /// The instance that preempts finishes no later than the other.
    Nesting,
}

impl Rule {
    /// What an instance does that breaks the rule.
    fn breach(self) -> &'static str {
        match self {
            Rule::Offset => "starts before its offset has passed",
            Rule::Jitter => "is released later than its jitter allows",
            Rule::Release => "starts before it is released",
            Rule::Response => "finishes later than its response allows",
            Rule::Period => "is activated less than a period after another activation",
            Rule::OneStart => "starts at the moment at which another instance starts",
            Rule::Threshold => "preempts an instance whose threshold is not below its priority",
            Rule::Pair => "preempts an instance that pairs keep from it",
            Rule::EarlyBlocking => "preempts an instance that did not start before its release",
            Rule::Nesting => "finishes later than an instance that it preempts",
        }
    }
}

/// The rule that a run breaks, and the instance that breaks it.
#[derive(Clone, Copy, PartialEq, Eq, Debug)]
pub struct Breach {
    pub rule: Rule,
    pub id: u16,
    pub activation: u64,
}

impl fmt::Display for Breach {
    fn fmt(&self, line: &mut fmt::Formatter) -> fmt::Result {
        let (id, activation, breach) = (self.id, self.activation, self.rule.breach());
        write!(
            line,
            "the instance of task {id} activated at {activation} {breach}"
        )
    }
}

/// Refuses a run that does not keep to the table.
pub fn keeps(table: &Table, run: &Run) -> Result<(), Breach> {
    let keeps_times = |instance| keeps_its_times(table, run.grain, instance);
    run.instances.iter().try_for_each(keeps_times)?;
    keeps_periods(table, run)?;
    starts_one_by_one(table, run)?;
    let bars = Bars::of(&table.pairs);
    run.nestings()
        .try_for_each(|nesting| preempts_by_the_rules(table, &bars, &nesting))
}

/// Refuses the instance where the rule does not hold.
fn hold(table: &Table, instance: &Instance, rule: Rule, holds: bool) -> Result<(), Breach> {
    match holds {
        true => Ok(()),
        false => Err(Breach {
            rule,
            id: table.tasks[instance.place].id,
            activation: instance.activation,
        }),
    }
}

/// The times of one instance by itself.
fn keeps_its_times(table: &Table, grain: u64, instance: &Instance) -> Result<(), Breach> {
    let task = &table.tasks[instance.place];
    let after = |units: u64| instance.activation + units * grain;
    let (offset, jitter) = (u64::from(task.offset), u64::from(task.jitter));
    let in_time = task.jitter == MISSING_JITTER || instance.release <= after(offset + jitter);
    let done = instance.finish <= after(u64::from(task.response));
    let hold = |rule, holds| hold(table, instance, rule, holds);
    hold(Rule::Offset, after(offset) <= instance.start)?;
    hold(Rule::Jitter, in_time)?;
    hold(Rule::Release, instance.release <= instance.start)?;
    hold(Rule::Response, done)
}

/// The activations of each transaction.
fn keeps_periods(table: &Table, run: &Run) -> Result<(), Breach> {
    for transaction in &table.transactions {
        let period = u64::from(transaction.period) * run.grain;
        let is_own =
            |instance: &&Instance| table.tasks[instance.place].transaction == transaction.number;
        let mut own: Vec<&Instance> = run.instances.iter().filter(is_own).collect();
        own.sort_by_key(|instance| instance.activation);
        for two in own.windows(2) {
            let apart = two[1].activation - two[0].activation;
            hold(table, two[1], Rule::Period, apart == 0 || apart >= period)?;
        }
    }
    Ok(())
}

/// One start a moment.
fn starts_one_by_one(table: &Table, run: &Run) -> Result<(), Breach> {
    let mut in_order: Vec<&Instance> = run.instances.iter().collect();
    in_order.sort_by_key(|instance| instance.start);
    in_order.windows(2).try_for_each(|two| {
        let differ = two[0].start < two[1].start;
        hold(table, two[1], Rule::OneStart, differ)
    })
}

/// What an instance that starts must find with each that has started and not finished.
fn preempts_by_the_rules(table: &Table, bars: &Bars, nesting: &Nesting) -> Result<(), Breach> {
    let upper = &nesting.started;
    let hold = |rule, holds| hold(table, upper, rule, holds);
    nesting.unfinished.iter().try_for_each(|lower| {
        let [below, above] = [lower, upper].map(|instance| &table.tasks[instance.place]);
        hold(Rule::Threshold, below.yields_to(above))?;
        hold(Rule::Pair, !bars.forbid(below.id, above.id))?;
        hold(Rule::EarlyBlocking, lower.start < upper.release)?;
        hold(Rule::Nesting, upper.finish <= lower.finish)
    })
}
