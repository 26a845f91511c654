//! The verdict of images with one fault or two, at low and at high places.

mod common;

use common::*;
use second::blocks::{image_of, mend_checks, records_in, right_check, Form, BLOCK_BYTES};
use second::bytes::{put_u16, put_u32, u16_at};
use second::figure2::figure2;
use second::generate::random::Random;
use second::generate::tables::any_table;
use second::map_call::map_call;
use second::records::{Record, Transaction, PUT_IN};
use second::table::Table;
use second::verdict::records_of_table;

/// Number and place of a table of these records.
fn of_records(records: &[Record]) -> (u32, usize) {
    as_table(&image_of(Form::Table, records))
}

/// Figure 2 with two pairs: records 0 and 1 are transactions, 2 to 7 tasks, 8 and 9 pairs.
fn sound_records() -> Vec<Record> {
    let mut table = figure2();
    table.pairs = vec![one_way(11, 12), precedence(21, 13)];
    table.records()
}

/// A table of this many transactions and nothing else.
fn transactions(count: u16) -> Vec<Record> {
    let record = |number| Transaction { number, period: 5 }.record();
    (1..=count).map(record).collect()
}

/// The fullest image with one byte changed and its checks mended.
fn full_image_with(at: usize, value: u8) -> Vec<u8> {
    let mut image = full_table();
    image[at] = value;
    mend_checks(&mut image);
    image
}

#[test]
fn sound_images_are_accepted_and_read_back() {
    let mut random = Random::from_seed(21);
    for _ in 0..300 {
        let table = any_table(&mut random);
        let image = table_image(&table);
        let records = records_of_table(&image).expect("a sound table");
        assert_eq!(Table::read(&records), table);
        assert_eq!(image_of(Form::Table, &records), image);
        assert_eq!(records_in(&image), records);
    }
    assert_eq!(as_table(&full_image_with(0, b'T')), (0, 0));
}

#[test]
fn refusal_1_is_by_length_alone() {
    let one = table_image(&figure2());
    for length in [0, 1, 511, 513, 24 * BLOCK_BYTES] {
        let image: Vec<u8> = one.iter().copied().cycle().take(length).collect();
        assert_eq!(as_table(&image), (1, 0));
    }
    assert_eq!(as_table(&[0; 23 * BLOCK_BYTES]), (3, 0));
    assert_eq!(as_patch(&[0; 45 * BLOCK_BYTES]), (23, 0));
    assert_eq!(as_patch(&[0; 46 * BLOCK_BYTES]), (21, 0));
}

#[test]
fn refusal_2_comes_before_any_header() {
    let mut image = full_image_with(0, b'X');
    assert_eq!(as_table(&image), (3, 0));
    image[22 * BLOCK_BYTES + 510] ^= 1;
    assert_eq!(as_table(&image), (2, 22));
    image[BLOCK_BYTES + 20] ^= 1;
    assert_eq!(as_table(&image), (2, 1));
}

#[test]
fn a_stored_check_is_compared_and_not_its_remainder() {
    let mut image = table_image(&figure2());
    let jitter_at = 8 + 7 * 32 + 12;
    let tried = (0..1_000_000_000u32).step_by(12_347).find(|jitter| {
        put_u32(&mut image, jitter_at, *jitter);
        right_check(&image) <= 14
    });
    assert!(tried.is_some());
    mend_checks(&mut image);
    assert_eq!(as_table(&image), (0, 0));
    let raised = u16_at(&image, 510) + 65_521;
    put_u16(&mut image, 510, raised);
    assert_eq!(as_table(&image), (2, 0));
}

#[test]
fn refusal_3_covers_every_byte_of_the_frame() {
    for (in_block, value) in [(0, b'P'), (1, b'A'), (2, 99), (3, 22), (5, 1), (7, 1)] {
        for block in [0, 11, 22] {
            let image = full_image_with(block * BLOCK_BYTES + in_block, value);
            assert_eq!(as_table(&image), (3, block));
        }
    }
    for in_block in [488, 509] {
        assert_eq!(as_table(&full_image_with(in_block, 1)), (3, 0));
    }
    let first_unused = 22 * BLOCK_BYTES + 8 + 6 * 32;
    assert_eq!(as_table(&full_image_with(first_unused, 2)), (3, 22));
}

#[test]
fn refusal_3_covers_the_count_of_every_block() {
    for count in [0, 1, 14, 16, 255] {
        assert_eq!(as_table(&full_image_with(4, count)), (3, 0));
    }
    for count in [0, 5, 16, 255] {
        let image = full_image_with(22 * BLOCK_BYTES + 4, count);
        assert_eq!(as_table(&image), (3, 22));
    }
    let image = full_image_with(22 * BLOCK_BYTES + 4, 7);
    assert_eq!(as_table(&image), (4, 336));
    let mut emptied = image_of(Form::Table, &transactions(16));
    emptied[BLOCK_BYTES + 4] = 0;
    emptied[BLOCK_BYTES + 8..BLOCK_BYTES + 488].fill(0);
    mend_checks(&mut emptied);
    assert_eq!(as_table(&emptied), (3, 1));
}

#[test]
fn the_other_form_is_refusal_3() {
    let records = sound_records();
    assert_eq!(as_table(&image_of(Form::Patch, &records)), (3, 0));
    assert_eq!(as_patch(&image_of(Form::Table, &records)), (23, 0));
}

#[test]
fn refusal_4_covers_every_byte_said_to_be_zero() {
    let zeros: [(usize, &[(usize, usize)]); 3] = [
        (1, &[(1, 1), (4, 7), (12, 31)]),
        (7, &[(1, 1), (23, 31)]),
        (9, &[(6, 31)]),
    ];
    for (rank, ranges) in zeros {
        for at in 1..32 {
            let mut records = sound_records();
            records[rank].0[at] |= 128;
            let is_zero = ranges.iter().any(|(from, to)| (*from..=*to).contains(&at));
            assert_eq!(of_records(&records) == (4, rank), is_zero);
        }
    }
    for kind in [0, 4, 255] {
        let mut records = sound_records();
        records[9].0[0] = kind;
        assert_eq!(of_records(&records), (4, 9));
    }
}

#[test]
fn byte_31_of_a_patch_record_is_0_or_1() {
    let mut records = sound_records();
    records[9].0[31] = 1;
    assert_eq!(as_patch(&image_of(Form::Patch, &records)), (0, 0));
    records[9].0[31] = 2;
    assert_eq!(as_patch(&image_of(Form::Patch, &records)), (24, 9));
}

#[test]
fn refusal_5_compares_neighbours() {
    for rank in [0, 1, 4, 8] {
        let mut records = sound_records();
        records.swap(rank, rank + 1);
        assert_eq!(of_records(&records), (5, rank + 1));
    }
    let mut records = sound_records();
    let mut again = records[7];
    again.0[4] = 1;
    records.insert(8, again);
    assert_eq!(of_records(&records), (5, 8));
}

#[test]
fn a_patch_orders_each_way_afresh() {
    let taken_out = sound_records();
    let put_in = || sound_records().into_iter().map(|r| r.with_way(PUT_IN));
    let both: Vec<Record> = taken_out.iter().copied().chain(put_in()).collect();
    assert_eq!(as_patch(&image_of(Form::Patch, &both)), (0, 0));
    let reversed: Vec<Record> = put_in().chain(taken_out).collect();
    assert_eq!(as_patch(&image_of(Form::Patch, &reversed)), (25, 10));
}

/// Number and place of the sound records with a short number written into one of them.
fn with_short(rank: usize, at: usize, value: u16) -> (u32, usize) {
    let mut records = sound_records();
    put_u16(&mut records[rank].0, at, value);
    of_records(&records)
}

/// Number and place of the sound records with a long number written into one of them.
fn with_long(rank: usize, at: usize, value: u32) -> (u32, usize) {
    let mut records = sound_records();
    put_u32(&mut records[rank].0, at, value);
    of_records(&records)
}

#[test]
fn refusal_6_holds_ranges_at_both_ends() {
    assert_eq!(with_short(0, 2, 0), (6, 0));
    assert_eq!(with_long(1, 8, 0), (6, 1));
    assert_eq!(with_long(1, 8, 1_000_000_000), (0, 0));
    assert_eq!(with_long(1, 8, 1_000_000_001), (6, 1));
    assert_eq!(with_short(2, 2, 0), (6, 2));
    assert_eq!(with_short(7, 4, 0), (6, 7));
    assert_eq!(with_short(7, 6, 0), (6, 7));
    assert_eq!(with_short(7, 6, 255), (0, 0));
    assert_eq!(with_short(7, 6, 256), (6, 7));
    assert_eq!(with_long(7, 8, 3699), (0, 0));
    assert_eq!(with_long(7, 8, 3700), (6, 7));
    assert_eq!(with_long(7, 12, 1_000_000_000), (0, 0));
    assert_eq!(with_long(7, 12, 1_000_000_001), (6, 7));
    assert_eq!(with_long(7, 12, 4_294_967_294), (6, 7));
    assert_eq!(with_long(7, 12, 4_294_967_295), (0, 0));
    assert_eq!(with_long(7, 16, 2_000_000_000), (0, 0));
    assert_eq!(with_long(7, 16, 2_000_000_001), (6, 7));
    assert_eq!(with_short(7, 20, 0), (6, 7));
    assert_eq!(with_short(7, 20, 65_535), (0, 0));
    assert_eq!(with_short(9, 4, 21), (6, 9));
    assert_eq!(with_short(9, 4, 0), (6, 9));
    assert_eq!(with_short(8, 2, 0), (6, 8));
    let mut records = sound_records();
    records[8].0[1] = 2;
    assert_eq!(of_records(&records), (6, 8));
    put_u32(&mut records[7].0, 8, 1_000_000_000);
    put_u32(&mut records[7].0, 16, 2_000_000_000);
    assert_eq!(of_records(&records), (6, 7));
}

#[test]
fn refusal_7_names_the_kind() {
    assert_eq!(of_records(&transactions(16)), (0, 0));
    assert_eq!(of_records(&transactions(17)), (7, 1));
    let tasks = |count| -> Vec<_> { (1..=count).map(|id| task(id, 1, 0, 9)).collect() };
    assert_eq!(of_records(&table(&tasks(64), &[]).records()), (0, 0));
    assert_eq!(of_records(&table(&tasks(65), &[]).records()), (7, 2));
    let pairs: Vec<_> = (1..=257).map(|first| one_way(first, 999)).collect();
    assert_eq!(of_records(&table(&[], &pairs[..256]).records()), (8, 2));
    assert_eq!(of_records(&table(&[], &pairs).records()), (7, 3));
}

#[test]
fn refusal_27_counts_each_way_apart() {
    let all = |count: u16, way: u8| {
        transactions(count)
            .into_iter()
            .map(move |r| r.with_way(way))
    };
    let patch = |out: u16, put: u16| -> Vec<Record> { all(out, 0).chain(all(put, 1)).collect() };
    assert_eq!(as_patch(&image_of(Form::Patch, &patch(16, 16))), (0, 0));
    assert_eq!(as_patch(&image_of(Form::Patch, &patch(17, 16))), (27, 1));
    assert_eq!(as_patch(&image_of(Form::Patch, &patch(16, 17))), (27, 1));
}

#[test]
fn refusal_8_is_at_the_record_that_refers() {
    assert_eq!(with_short(7, 4, 3), (8, 7));
    assert_eq!(with_short(9, 4, 99), (8, 9));
    assert_eq!(with_short(9, 2, 99), (8, 9));
    for offset in [10_000, 10_001] {
        let mut records = sound_records();
        put_u32(&mut records[7].0, 8, offset);
        put_u32(&mut records[7].0, 16, 20_000);
        assert_eq!(of_records(&records), (8, 7));
    }
}

#[test]
fn a_refused_map_call_writes_nothing_and_an_accepted_one_64_rows() {
    let image = table_image(&figure2());
    let mut short = [5; 63];
    assert_eq!(map_call(&image, &mut short).unwrap_err().number, 11);
    assert_eq!(short, [5; 63]);
    let mut long = [5; 70];
    assert_eq!(map_call(&[], &mut long).unwrap_err().number, 1);
    assert_eq!(long, [5; 70]);
    map_call(&image, &mut long).unwrap();
    assert_eq!(long[6..64], [0; 58]);
    assert_eq!(long[64..], [5; 6]);
}
