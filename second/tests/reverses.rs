//! Reverses of patches: what is turned and where it stands, what is written, and what is refused.

mod common;

use common::streams::REVERSES;
use common::*;
use second::answer::answer;
use second::blocks::{mend_checks, patch_image, records_in, right_check};
use second::numbered_cases::patch_of;
use second::records::{Record, Transaction};
use second::reverse_call::reverse_call;
use second::stream::{Call, Case};
use second::verdict::{records_of_patch, Refusal};

/// What every byte of a lent room holds before the call.
const BEFORE: u8 = 7;

/// What the call gives with a room of this length, and the room after it.
fn reverse_in(patch: &[u8], room_bytes: usize) -> (Result<usize, Refusal>, Vec<u8>) {
    let mut room = vec![BEFORE; room_bytes];
    (reverse_call(patch, &mut room), room)
}

/// The patches of the compared stream that are well-formed.
fn sound_patches() -> Vec<Vec<u8>> {
    let patches = REVERSES.cases().map(|case| case.image);
    let sound = patches.filter(|patch| records_of_patch(patch).is_ok());
    sound.collect()
}

/// A block of a patch by its bytes: the number of records, and what stands at some places from the first on.
fn block_with(records: u8, bytes: &[(usize, u8)]) -> Vec<u8> {
    let mut block = vec![0; 512];
    block[..5].copy_from_slice(&[b'P', b'A', 0, 1, records]);
    bytes.iter().for_each(|(at, byte)| block[8 + at] = *byte);
    mend_checks(&mut block);
    block
}

#[test]
fn byte_31_is_turned_and_the_parts_change_places() {
    let transaction = |at: usize, number: u8, period: u8, way: u8| {
        [(at, 1), (at + 2, number), (at + 8, period), (at + 31, way)]
    };
    let pair = |at: usize, way: u8| [(at, 3), (at + 2, 5), (at + 4, 4), (at + 31, way)];
    let patch = [
        transaction(0, 9, 100, 0),
        transaction(32, 3, 50, 1),
        transaction(64, 9, 70, 1),
        pair(96, 1),
    ];
    let expected = [
        transaction(0, 3, 50, 0),
        transaction(32, 9, 70, 0),
        pair(64, 0),
        transaction(96, 9, 100, 1),
    ];
    let [patch, expected] = [patch, expected].map(|records| block_with(4, &records.concat()));
    assert_eq!(as_patch(&patch), (0, 0));
    assert_eq!(reverse(&patch), expected);
    assert_eq!(reverse(&expected), patch);
}

#[test]
fn the_empty_patch_is_its_own_reverse() {
    let empty = block_with(0, &[]);
    assert_eq!(right_check(&empty), 214);
    assert_eq!(reverse(&empty), empty);
}

#[test]
fn patches_of_cases_are_taken_back_by_the_other_way() {
    for number in 11..=13 {
        let patch = patch_of(number).expect("a patch");
        let back = reverse(&patch);
        assert_eq!(back[39], 1 - patch[39]);
        assert_eq!(back[8..39], patch[8..39]);
    }
}

#[test]
fn records_move_across_blocks_where_the_parts_differ_in_size() {
    let many: Vec<Record> = (1..=40).map(|id| task(id, 1, 0, 1).record()).collect();
    let few = [
        Transaction {
            number: 1,
            period: PERIOD,
        }
        .record(),
        one_way(2, 3).record(),
    ];
    assert_eq!(reverse(&patch_image(&many, &few)), patch_image(&few, &many));
    let full = records_in(&full_table());
    let most = patch_image(&full, &many);
    assert_eq!(most.len(), 26 * 512);
    assert_eq!(reverse(&most), patch_image(&many, &full));
}

#[test]
fn a_reverse_is_well_formed_and_has_the_records_the_other_way() {
    let patches = sound_patches();
    assert!(patches.len() >= 1000);
    for patch in patches {
        let back = reverse(&patch);
        assert_eq!((as_patch(&back), back.len()), ((0, 0), patch.len()));
        let [mut there, mut turned] = [&patch, &back].map(|image| records_in(image));
        there.iter_mut().for_each(|record| record.0[31] ^= 1);
        there.sort();
        turned.sort();
        assert_eq!(turned, there);
    }
}

#[test]
fn the_reverse_of_a_reverse_is_the_patch() {
    for patch in sound_patches() {
        assert_eq!(reverse(&reverse(&patch)), patch);
    }
}

#[test]
fn a_room_one_byte_short_is_refused_and_a_longer_one_keeps_its_end() {
    for patch in sound_patches() {
        let length = patch.len();
        let too_short = (Err(Refusal::new(11, 0)), vec![BEFORE; length - 1]);
        assert_eq!(reverse_in(&patch, length - 1), too_short);
        let (given, room) = reverse_in(&patch, length + 3);
        assert_eq!(given, Ok(length));
        assert_eq!(room[..length], reverse(&patch));
        assert_eq!(room[length..], [BEFORE; 3]);
    }
}

#[test]
fn the_room_must_hold_the_blocks_and_not_the_records_alone() {
    let few = patch_image(&[one_way(1, 2).record()], &[]);
    for room_bytes in [0, 40, 488, 511] {
        assert_eq!(reverse_in(&few, room_bytes).0, Err(Refusal::new(11, 0)));
    }
    assert_eq!(reverse_in(&few, 512).0, Ok(512));
}

#[test]
fn a_refused_patch_hides_a_short_room_and_nothing_is_written() {
    let patches = REVERSES.cases().map(|case| case.image);
    let refused = patches.filter(|patch| records_of_patch(patch).is_err());
    let mut tried = 0;
    for patch in refused {
        let refusal = records_of_patch(&patch).expect_err("a refusal");
        for room_bytes in [0, patch.len(), patch.len() + 512] {
            let (given, room) = reverse_in(&patch, room_bytes);
            assert_eq!(given, Err(refusal));
            assert_eq!(room, vec![BEFORE; room_bytes]);
        }
        tried += 1;
    }
    assert!(tried >= 300);
}

/// The answer to a reverse call with this room.
fn answer_with(patch: Vec<u8>, room: Vec<u8>) -> String {
    let mut case = Case {
        room,
        ..Case::lending(Call::Reverse, patch)
    };
    answer(&mut case)
}

#[test]
fn the_answer_has_the_digest_of_the_whole_room() {
    let empty = patch_image(&[], &[]);
    assert_eq!(answer_with(empty.clone(), vec![]), "V 11 0 0 1");
    assert_eq!(answer_with(vec![], vec![]), "V 21 0 0 1");
    assert_eq!(answer_with(vec![], vec![8]), "V 21 0 0 65608");
    let exact = answer_with(empty.clone(), vec![9; 512]);
    let longer = answer_with(empty, vec![9; 513]);
    assert!(exact.starts_with("V 0 0 512 ") && longer.starts_with("V 0 0 512 "));
    assert_ne!(exact, longer);
}

#[test]
fn a_room_for_a_reverse_may_be_longer_than_one_for_a_table() {
    let with_room = |call, bytes| Case {
        room: vec![0; bytes],
        ..Case::lending(call, patch_image(&[], &[]))
    };
    for (call, most) in [(Call::Reverse, 24_576), (Call::Patch, 12_800)] {
        assert!(read_again(&with_room(call, most)).is_ok());
        assert!(read_again(&with_room(call, most + 1)).is_err());
    }
}
