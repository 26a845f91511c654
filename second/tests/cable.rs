//! Images whose bytes changed on the cable: every single change is refused at its block, and two can cancel.

mod common;

use common::*;
use second::blocks::{check_is_right, patch_image, records_in, BLOCK_BYTES, CHECK_AT};
use second::bound_call::bound_call;
use second::cable::{
    cancelled, cancelling_pairs, changes_of, lowering_pairs, with_changes, Change,
};
use second::figure2::figure2;
use second::map_call::map_call;
use second::numbered_cases::patch_of;
use second::patch_call::patch_call;
use second::reason_call::reason_call;
use second::reverse_call::reverse_call;
use second::room_call::room_call;
use second::through_call::through_call;
use second::verdict::{records_of_table, Refusal};
use second::within_call::within_call;

/// An image with 45 blocks, as many as a patch can have: it takes out and puts in a full table.
fn full_patch() -> Vec<u8> {
    let records = records_in(&full_table());
    patch_image(&records, &records)
}

/// Some changes of each byte: to its neighbours in value, to the ends, and by its lowest and its highest bit.
fn some_changes_of(image: &[u8]) -> impl Iterator<Item = Change> + '_ {
    changes_of(image).filter(|Change { at, value }| {
        let was = image[*at];
        let by_one = [was.wrapping_add(1), was.wrapping_sub(1)];
        by_one.contains(value) || [0, u8::MAX, was ^ 1, was ^ 128].contains(value)
    })
}

/// The places of neighbours with different values that are both among the first 510 bytes of one block.
fn unequal_neighbours(image: &[u8]) -> impl Iterator<Item = usize> + '_ {
    (0..image.len() - 1)
        .filter(|at| at % BLOCK_BYTES + 1 < CHECK_AT && image[*at] != image[*at + 1])
}

/// Sees that each change, tried alone, is refused with this number at its block.
fn each_is_refused(
    image: &[u8],
    changes: impl Iterator<Item = Change>,
    verdict: fn(&[u8]) -> (u32, usize),
    number: u32,
) {
    assert_eq!(verdict(image), (0, 0));
    let mut changed = image.to_vec();
    for Change { at, value } in changes {
        changed[at] = value;
        assert_eq!(
            verdict(&changed),
            (number, at / BLOCK_BYTES),
            "byte {at} as {value}"
        );
        changed[at] = image[at];
    }
}

/// Sees that each two such neighbours, changed over alone, are refused with this number at their block.
fn each_exchange_is_refused(image: &[u8], verdict: fn(&[u8]) -> (u32, usize), number: u32) {
    assert_eq!(verdict(image), (0, 0));
    let mut changed = image.to_vec();
    let mut tried = 0;
    for at in unequal_neighbours(image) {
        changed.swap(at, at + 1);
        assert_eq!(
            verdict(&changed),
            (number, at / BLOCK_BYTES),
            "bytes {at} and {}",
            at + 1
        );
        changed.swap(at, at + 1);
        tried += 1;
    }
    assert!(tried > 0);
}

#[test]
fn every_byte_of_figure_2_is_covered_with_every_value() {
    let image = table_image(&figure2());
    assert_eq!(changes_of(&image).count(), 512 * 255);
    each_is_refused(&image, changes_of(&image), as_table, 2);
}

#[test]
fn every_byte_of_a_full_table_is_covered() {
    let image = full_table();
    assert_eq!(image.len(), 23 * BLOCK_BYTES);
    each_is_refused(&image, some_changes_of(&image), as_table, 2);
}

#[test]
fn every_byte_of_a_patch_is_covered() {
    for number in 11..=13 {
        let patch = patch_of(number).expect("a patch");
        each_is_refused(&patch, changes_of(&patch), as_patch, 22);
    }
    let patch = full_patch();
    assert_eq!(patch.len(), 45 * BLOCK_BYTES);
    each_is_refused(&patch, some_changes_of(&patch), as_patch, 22);
}

#[test]
fn every_two_neighbours_are_covered() {
    each_exchange_is_refused(&table_image(&figure2()), as_table, 2);
    each_exchange_is_refused(&full_table(), as_table, 2);
    each_exchange_is_refused(&patch_of(12).expect("a patch"), as_patch, 22);
    each_exchange_is_refused(&full_patch(), as_patch, 22);
}

#[test]
fn every_call_refuses_a_changed_table_and_writes_nothing() {
    let (image, patch) = (table_image(&figure2()), patch_of(11).expect("a patch"));
    let refused = Refusal::new(2, 0);
    for change in some_changes_of(&image) {
        let changed = with_changes(&image, &[change]);
        let (mut map, mut ids, mut room, mut new_map) = ([7; 64], [7; 64], [7; 1024], [7; 64]);
        let mut figures = [7; 64];
        assert_eq!(map_call(&changed, &mut map), Err(refused));
        assert_eq!(bound_call(&changed, &map, &mut ids), Err(refused));
        assert_eq!(room_call(&changed, &map, 8, &mut figures), Err(refused));
        assert_eq!(through_call(&changed, &map, 11, &mut ids), Err(refused));
        let called = within_call(&changed, &map, 12, &mut ids);
        assert_eq!(called, Err(refused.into()));
        let called = patch_call(&changed, &patch, &map, &mut room, &mut new_map);
        assert_eq!(called, Err(refused.into()));
        assert_eq!(
            (map, ids, figures, room, new_map),
            ([7; 64], [7; 64], [7; 64], [7; 1024], [7; 64])
        );
        assert_eq!(map_call(&changed, &mut []), Err(refused));
        assert_eq!(bound_call(&changed, &[], &mut []), Err(refused));
        assert_eq!(room_call(&changed, &[], 0, &mut []), Err(refused));
        assert_eq!(through_call(&changed, &[], 0, &mut []), Err(refused));
        let called = within_call(&changed, &[], 0, &mut []);
        assert_eq!(called, Err(refused.into()));
        assert_eq!(reason_call(&changed, 11, 12), Err(refused));
        assert_eq!(reason_call(&changed, 0, 0), Err(refused));
        assert_eq!(
            patch_call(&changed, &[], &[], &mut [], &mut []),
            Err(refused.into())
        );
    }
}

#[test]
fn a_patch_call_refuses_a_changed_patch_whatever_is_lent() {
    let base = table_image(&figure2());
    for patch in [11, 12, 13].map(|number| patch_of(number).expect("a patch")) {
        for change in some_changes_of(&patch) {
            let changed = with_changes(&patch, &[change]);
            let refused = Err(Refusal::new(22, 0).into());
            let (mut room, mut new_map) = ([7; 1024], [7; 64]);
            assert_eq!(
                patch_call(&base, &changed, &[0; 64], &mut room, &mut new_map),
                refused
            );
            assert_eq!((room, new_map), ([7; 1024], [7; 64]));
            assert_eq!(patch_call(&base, &changed, &[], &mut [], &mut []), refused);
        }
    }
}

#[test]
fn a_reverse_call_refuses_a_changed_patch_whatever_is_lent() {
    let full = full_patch();
    let further_block = (BLOCK_BYTES..2 * BLOCK_BYTES).step_by(10);
    let in_full = further_block.map(|at| Change {
        at,
        value: !full[at],
    });
    let patch = patch_of(12).expect("a patch");
    let in_first_block = some_changes_of(&patch).map(|change| (&patch, change));
    for (patch, change) in in_full.map(|change| (&full, change)).chain(in_first_block) {
        let changed = with_changes(patch, &[change]);
        let refused = Err(Refusal::new(22, change.at / BLOCK_BYTES));
        let mut room = vec![7; patch.len()];
        assert_eq!(reverse_call(&changed, &mut room), refused);
        assert!(room.iter().all(|byte| *byte == 7));
        assert_eq!(reverse_call(&changed, &mut []), refused);
    }
}

#[test]
fn two_changes_in_one_block_can_cancel() {
    let image = table_image(&figure2());
    let pairs = cancelling_pairs(&image);
    let accepted = |pair: &&[Change; 2]| records_of_table(&with_changes(&image, *pair)).is_ok();
    assert!(pairs
        .iter()
        .all(|pair| check_is_right(&with_changes(&image, pair))));
    assert_eq!(pairs.len(), 75_718);
    assert_eq!(pairs.iter().filter(accepted).count(), 2_178);
    assert_eq!(lowering_pairs(&image).len(), 100);
}

#[test]
fn no_pair_that_cancels_is_left_out() {
    let image = table_image(&figure2());
    let first = Change { at: 92, value: 2 };
    let later = changes_of(&image).filter(|second| second.at > first.at);
    let tried = later.map(|second| [first, second]);
    let found: Vec<_> = tried
        .filter(|pair| check_is_right(&with_changes(&image, pair)))
        .collect();
    let mut listed = cancelling_pairs(&image);
    listed.retain(|pair| pair[0] == first);
    assert_eq!(listed, found);
}

#[test]
fn the_example_has_two_changes_and_too_low_a_chain() {
    let image = table_image(&figure2());
    let pair = [Change { at: 92, value: 2 }, Change { at: 185, value: 2 }];
    assert_eq!((image[92], image[185]), (4, 1));
    assert_eq!(cancelled(), with_changes(&image, &pair));
}
