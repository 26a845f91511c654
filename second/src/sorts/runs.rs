//! The sorts of run.

use crate::afresh::Afresh;
use crate::sorts::precedences::{self, Change};
use crate::sorts::Told;
use crate::stream::Case;

/// What the sorts say of the run of this case; a sort of change is met where one of its steps is of it.
pub fn told(case: &Case) -> Vec<Told> {
    let changes = changes_of(case);
    let mut told = precedences::told(None);
    for change in &changes {
        let of_step = precedences::told(Some(change));
        for (run, step) in told.iter_mut().zip(of_step) {
            run.1 |= step.1;
        }
    }
    let kinds: [fn(&Change) -> bool; 3] = [Change::adds, Change::drops, Change::turns];
    let has_step = |kind: &fn(&Change) -> bool| {
        let mut accepted = changes.iter().filter(|change| !change.has_circle);
        accepted.any(kind)
    };
    let all_three = "precedence pairs put in, taken out and turned round";
    told.push((all_three.into(), kinds.iter().all(has_step)));
    let in_a_run = |(name, holds): Told| (format!("a run with {name}"), holds);
    told.into_iter().map(in_a_run).collect()
}

/// The changes of the run's steps that are accepted or would be but for a circle.
fn changes_of(case: &Case) -> Vec<Change> {
    let start = Afresh::start(&case.image, &case.map_read);
    let mut run = start.expect("a run starts from a valid table and its true map");
    let changes = case.steps.iter().filter_map(|step| {
        let change = Change::of(&run.standing().image, &step.patch);
        let is_accepted = run.step(step).is_ok();
        change.filter(|change| is_accepted || change.has_circle)
    });
    changes.collect()
}
