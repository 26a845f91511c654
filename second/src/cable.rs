//! What the cable may do to an image: bytes that became others, and two changes in one block that cancel.

use std::collections::BTreeMap;

use crate::blocks::{image_of, Form, BLOCK_BYTES, CHECK_AT, CHECK_MODULUS};
use crate::figure2::figure2;
use crate::report::bounds_with_own_map;

/// A byte that became another.
#[derive(Clone, Copy, PartialEq, Eq, Debug)]
pub struct Change {
    pub at: usize,
    pub value: u8,
}

/// The image with these bytes changed.
pub fn with_changes(image: &[u8], changes: &[Change]) -> Vec<u8> {
    let mut changed = image.to_vec();
    for change in changes {
        changed[change.at] = change.value;
    }
    changed
}

/// Every change of one byte of an image, by place and value.
pub fn changes_of(image: &[u8]) -> impl Iterator<Item = Change> + '_ {
    let changes_at = |at| (0..=u8::MAX).map(move |value| Change { at, value });
    (0..image.len())
        .flat_map(changes_at)
        .filter(|change| image[change.at] != change.value)
}

/// By how much a change of a block moves its sum away from its stored check, modulo 65,521.
fn shift_of(block: &[u8], change: Change) -> i64 {
    let weight = match change.at.checked_sub(CHECK_AT) {
        None => change.at as i64 + 1,
        Some(0) => -1,
        Some(_) => -256,
    };
    let difference = i64::from(change.value) - i64::from(block[change.at]);
    (weight * difference).rem_euclid(i64::from(CHECK_MODULUS))
}

/// Every two changes of a block, at two of its bytes, that shift it by a multiple of 65,521 together.
pub fn cancelling_pairs(block: &[u8]) -> Vec<[Change; 2]> {
    assert_eq!(
        block.len(),
        BLOCK_BYTES,
        "pairs are looked for in one block"
    );
    let mut by_shift: BTreeMap<i64, Vec<Change>> = BTreeMap::new();
    for change in changes_of(block) {
        let alike = by_shift.entry(shift_of(block, change)).or_default();
        alike.push(change);
    }
    let pairs_from = |first: Change| {
        let back = i64::from(CHECK_MODULUS) - shift_of(block, first);
        let cancelling = by_shift.get(&back).into_iter().flatten();
        let later = cancelling.filter(move |second| second.at > first.at);
        later.map(move |second| [first, *second])
    };
    changes_of(block).flat_map(pairs_from).collect()
}

/// The chain bound of an image with its own map, if the image is accepted.
fn chain_of(image: &[u8]) -> Option<u64> {
    let given = bounds_with_own_map(image);
    given.ok().map(|(bounds, _)| bounds.chain)
}

/// The pairs of changes that leave an image of one block accepted, with a chain bound that is too low.
pub fn lowering_pairs(image: &[u8]) -> Vec<[Change; 2]> {
    let right = chain_of(image);
    let lowers = |pair: &[Change; 2]| {
        let changed = chain_of(&with_changes(image, pair));
        changed.is_some() && changed < right
    };
    let mut pairs = cancelling_pairs(image);
    pairs.retain(lowers);
    pairs
}

/// Where the size of task 11 stands in figure 2.
const SIZE_OF_TASK_11: usize = 92;

/// Figure 2 with the first such pair that starts at the size of task 11.
pub fn cancelled() -> Vec<u8> {
    let image = image_of(Form::Table, &figure2().records());
    let pairs = lowering_pairs(&image);
    let pair = pairs.iter().find(|pair| pair[0].at == SIZE_OF_TASK_11);
    with_changes(&image, pair.expect("such a pair"))
}
