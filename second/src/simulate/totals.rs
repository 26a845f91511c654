//! What the simulated systems show together.

use std::collections::BTreeMap;
use std::fmt;

use crate::preempt::reason_for;
use crate::reasons::Reason;
use crate::records::{Task, MISSING_JITTER};
use crate::simulate::Simulated;

/// Counts over systems, unless they say otherwise.
#[derive(Clone, PartialEq, Debug, Default)]
pub struct Totals {
    pub systems: usize,
    /// How many instances all runs have.
    pub instances: usize,
    /// Where the deepest stack is as deep as the bound.
    pub reached: usize,
    /// The ratios of bound and deepest stack, added up.
    pub ratios: f64,
    /// How many nest so deep and no deeper.
    pub nested: BTreeMap<usize, usize>,
    /// Where a threshold held an instance back.
    pub thresholds: usize,
    /// Where a one-way pair held an instance back.
    pub one_way_pairs: usize,
    /// Where a precedence pair held an instance back.
    pub precedence_pairs: usize,
    /// Where a path of precedence pairs through a third task held an instance back.
    pub paths: usize,
    /// Where tasks of one transaction nested by the jitter of the one that preempts.
    pub jitters: usize,
    /// Where they nested because it is missing, and would not if it were read as 0.
    pub missing_jitters: usize,
    /// Where they nested by the response of the one that is preempted.
    pub responses: usize,
}

impl Totals {
    /// Counts one more system.
    pub fn count(&mut self, simulated: &Simulated) {
        let (depth, held_back) = (simulated.deepest, simulated.held_back);
        self.systems += 1;
        self.instances += simulated.run.instances.len();
        self.reached += usize::from(depth.bytes == simulated.bound);
        self.ratios += simulated.bound as f64 / depth.bytes as f64;
        *self.nested.entry(depth.instances).or_insert(0) += 1;
        self.thresholds += usize::from(held_back.by_threshold);
        self.one_way_pairs += usize::from(held_back.by_one_way);
        self.precedence_pairs += usize::from(held_back.by_precedence);
        self.paths += usize::from(held_back.by_path);
        self.jitters += usize::from(nests_by(simulated, Reason::Jitter));
        self.missing_jitters += usize::from(nests_by_missing_jitter(simulated));
        self.responses += usize::from(nests_by(simulated, Reason::Response));
    }
}

/// Whether tasks nest in the run for this reason.
fn nests_by(simulated: &Simulated, reason: Reason) -> bool {
    nests(simulated, |lower, upper| {
        reason_for(&simulated.table, lower, upper) == reason
    })
}

/// Whether tasks nest in the run that may not if the missing jitter of the upper one is read as 0.
fn nests_by_missing_jitter(simulated: &Simulated) -> bool {
    nests(simulated, |lower, upper| {
        let punctual = Task {
            jitter: 0,
            ..*upper
        };
        let reason = reason_for(&simulated.table, lower, &punctual);
        upper.jitter == MISSING_JITTER && !reason.lets_nest()
    })
}

/// Whether two tasks nest in the run of which this is so.
fn nests(simulated: &Simulated, is_so: impl Fn(&Task, &Task) -> bool) -> bool {
    let tasks = &simulated.table.tasks;
    let mut preemptions = simulated.preemptions.iter();
    preemptions.any(|(lower, upper)| is_so(&tasks[*lower], &tasks[*upper]))
}

impl fmt::Display for Totals {
    fn fmt(&self, line: &mut fmt::Formatter) -> fmt::Result {
        let nested = |(depth, systems): (&usize, &usize)| format!("{depth} deep in {systems}");
        let nested: Vec<String> = self.nested.iter().map(nested).collect();
        write!(
            line,
            "{} systems, {} instances: bound never passed, reached in {}, on average {:.2} times the deepest stack; \
             nested at most {}; held back by thresholds in {}, by one-way pairs in {}, by precedence pairs in {}, \
             by paths through a third task in {}; \
             nested in one transaction by jitters in {}, by missing ones in {}, by responses in {}",
            self.systems,
            self.instances,
            self.reached,
            self.ratios / self.systems as f64,
            nested.join(", "),
            self.thresholds,
            self.one_way_pairs,
            self.precedence_pairs,
            self.paths,
            self.jitters,
            self.missing_jitters,
            self.responses
        )
    }
}
