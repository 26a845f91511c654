//! The numbered cases 11 to 13: patches on figure 2, and the runs that they are put to.

use crate::blocks::{image_of, patch_image, Form, BLOCK_BYTES};
use crate::figure2::figure2;
use crate::preempt::{true_map, MAP_ROWS};
use crate::records::{Pair, PairSort, Task};
use crate::stream::step::Step;
use crate::stream::{Call, Case};

/// The patch that case 11 or 12 puts in, or the one of case 13 that takes out what is not there.
pub fn patch_of(number: u32) -> Option<Vec<u8>> {
    match number {
        11 => Some(patch_image(&[], &[pair_of_case_11().record()])),
        12 => Some(patch_image(&[], &[task_of_case_12().record()])),
        13 => Some(patch_image(&[task_of_case_13().record()], &[])),
        _ => None,
    }
}

/// The one-way pair (12, 23).
fn pair_of_case_11() -> Pair {
    Pair {
        sort: PairSort::OneWay,
        first: 12,
        second: 23,
    }
}

/// Task 10, whose id is before all others.
fn task_of_case_12() -> Task {
    Task {
        id: 10,
        transaction: 2,
        priority: 5,
        offset: 0,
        jitter: 0,
        response: 100,
        stack: 2,
        threshold: 0,
    }
}

/// Task 23 with size 4, where figure 2 has it with 3.
fn task_of_case_13() -> Task {
    Task {
        stack: 4,
        ..figure2().tasks[5]
    }
}

/// The runs of a case, each on figure 2: the patch of 11, that of 12, and for 13 that of 12 twice and its own.
pub fn runs_of(number: u32) -> Option<Vec<Case>> {
    let runs: &[&[u32]] = match number {
        11 => &[&[11]],
        12 => &[&[12]],
        13 => &[&[12, 12], &[13]],
        _ => return None,
    };
    runs.iter().map(|patches| run_of(patches)).collect()
}

/// The run of these cases' patches on figure 2 with its true map.
fn run_of(patches: &[u32]) -> Option<Case> {
    let base = figure2();
    let steps: Option<Vec<Step>> = patches.iter().map(|number| step_of(*number)).collect();
    Some(Case {
        map_read: true_map(&base).to_vec(),
        steps: steps?,
        ..Case::lending(Call::Run, image_of(Form::Table, &base.records()))
    })
}

/// The step with this case's patch, a map of 64 rows and a room of one block.
fn step_of(number: u32) -> Option<Step> {
    Some(Step {
        patch: patch_of(number)?,
        map_rows: MAP_ROWS,
        room_bytes: BLOCK_BYTES,
    })
}
