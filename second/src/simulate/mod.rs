//! Random systems under a simulated kernel: no run that keeps to its table passes the table's bound.

pub mod arrivals;
pub mod keeps;
pub mod kernel;
pub mod run;
pub mod system;
pub mod totals;

use std::collections::BTreeSet;

use crate::blocks::{image_of, Form};
use crate::generate::random::Random;
use crate::preempt::may_be_preempted;
use crate::report::bounds_with_own_map;
use crate::simulate::arrivals::draw_arrivals;
use crate::simulate::keeps::keeps;
use crate::simulate::kernel::{run_all, HeldBack};
use crate::simulate::run::{Depth, Run};
use crate::simulate::system::draw_system;
use crate::simulate::totals::Totals;
use crate::table::Table;

/// A system with its run, the responses in the table being those of the run.
pub struct Simulated {
    pub table: Table,
    pub run: Run,
    pub held_back: HeldBack,
    /// The places of tasks that nested.
    pub preemptions: BTreeSet<(usize, usize)>,
    pub deepest: Depth,
    /// The chain bound of the table over its own map.
    pub bound: u64,
}

impl Simulated {
    /// Refuses a system whose tasks nest though the map says no, or whose stack passes the bound.
    fn checked(self) -> Result<Simulated, String> {
        self.nests_by_map_of(&self.table)?;
        self.fits_in(self.bound)?;
        Ok(self)
    }

    /// Refuses a table by whose map two tasks that nested may not: Lemma 2 of the paper.
    pub fn nests_by_map_of(&self, table: &Table) -> Result<(), String> {
        let task = |place: &usize| &table.tasks[*place];
        let mut nested = (self.preemptions.iter()).map(|(lower, upper)| (task(lower), task(upper)));
        match nested.find(|(lower, upper)| !may_be_preempted(table, lower, upper)) {
            None => Ok(()),
            Some((lower, upper)) => Err(format!(
                "task {} is preempted by task {}, and the map says that it is not",
                lower.id, upper.id
            )),
        }
    }

    /// Refuses a bound that the stack passes: Theorem 1 of the paper.
    pub fn fits_in(&self, bound: u64) -> Result<(), String> {
        let bytes = self.deepest.bytes;
        match bytes <= bound {
            true => Ok(()),
            false => Err(format!(
                "{bytes} bytes are on the stack, and the bound is {bound}"
            )),
        }
    }
}

/// Simulates this many systems, or says of the first one that is not as it should be what is wrong.
pub fn simulate(seed: u64, count: usize) -> Result<Totals, String> {
    let mut totals = Totals::default();
    for (number, simulated) in (1..=count).zip(systems(seed)) {
        let checked = simulated.and_then(Simulated::checked);
        let sentence = |fault| format!("system {number} of seed {seed}: {fault}");
        totals.count(&checked.map_err(sentence)?);
    }
    Ok(totals)
}

/// One simulated system after another; a run that does not keep to its table is told instead.
pub fn systems(seed: u64) -> impl Iterator<Item = Result<Simulated, String>> {
    let mut seeds = Random::from_seed(seed);
    std::iter::repeat_with(move || simulate_one(&mut Random::from_seed(seeds.bits())))
}

fn simulate_one(random: &mut Random) -> Result<Simulated, String> {
    let system = draw_system(random);
    let arrivals = draw_arrivals(random, &system);
    let ran = run_all(&system.table, arrivals);
    let run = Run {
        grain: system.grain,
        instances: ran.instances,
    };
    let table = with_responses(system.table, &run);
    keeps(&table, &run).map_err(|breach| breach.to_string())?;
    let deepest = run.deepest(&table);
    if deepest.bytes != ran.deepest_bytes {
        return Err(format!(
            "the kernel had {} bytes on its stack, and the run has {}",
            ran.deepest_bytes, deepest.bytes
        ));
    }
    Ok(Simulated {
        bound: chain_bound(&table)?,
        deepest,
        preemptions: run.preemptions(),
        table,
        run,
        held_back: ran.held_back,
    })
}

/// The table with the longest response of each task in the run, rounded up to whole units.
fn with_responses(mut table: Table, run: &Run) -> Table {
    for instance in &run.instances {
        let task = &mut table.tasks[instance.place];
        let response = (instance.finish - instance.activation).div_ceil(run.grain);
        task.response = task.response.max(response as u32);
    }
    table
}

/// The chain bound of a table over its own map, by the calls on its image.
pub fn chain_bound(table: &Table) -> Result<u64, String> {
    let image = image_of(Form::Table, &table.records());
    match bounds_with_own_map(&image) {
        Ok((bounds, _)) => Ok(bounds.chain),
        Err(refusal) => Err(format!(
            "the table is refused {} at {}",
            refusal.number, refusal.place
        )),
    }
}
