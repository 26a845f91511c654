//! Deliberate damage to the records of an image, before the image is made of them.

use crate::blocks::Form;
use crate::generate::field_faults::break_a_range;
use crate::generate::misfits::{misfit_a_record, one_too_many};
use crate::generate::precedences::close_a_circle;
use crate::generate::random::Random;
use crate::records::{
    Pair, Record, KIND_AT, PUT_IN, STACK_AT, TAKEN_OUT, TASK, THRESHOLD_AT, WAY_AT,
};
use crate::table::Table;

/// Does one sort of damage to the records, where they leave room for it.
pub fn damage_records(random: &mut Random, form: Form, records: &mut Vec<Record>) {
    if records.is_empty() {
        return;
    }
    match random.rank(17) {
        0..=2 => stray_byte(random, records),
        3 => unknown_kind(random, records),
        4 => stray_last_byte(random, records),
        5 => equal_key(random, records),
        6 => swapped_neighbours(random, records),
        7..=11 => break_a_range(random, records),
        12 => too_many(random, form, records),
        13 => circle_or_range(random, form, records),
        _ => misfit_or_range(random, form, records),
    }
}

/// One of the records, often the first or the last.
fn some_record<'records>(
    random: &mut Random,
    records: &'records mut [Record],
) -> &'records mut Record {
    let rank = random.low_or_high_rank(records.len());
    &mut records[rank]
}

/// Sets a byte that is zero, mostly one that is said to be.
fn stray_byte(random: &mut Random, records: &mut [Record]) {
    let record = some_record(random, records);
    let zeros: Vec<usize> = (1..WAY_AT).filter(|at| record.0[*at] == 0).collect();
    let at = match random.one_in(3) {
        true => byte_near_threshold(record),
        false => random.pick(&zeros),
    };
    record.0[at] = random.byte_above_zero();
}

/// Where a task has its threshold in a record that is none, and the byte behind it in a task's.
fn byte_near_threshold(record: &Record) -> usize {
    match record.kind() {
        TASK => THRESHOLD_AT + 1,
        _ => THRESHOLD_AT,
    }
}

fn unknown_kind(random: &mut Random, records: &mut [Record]) {
    some_record(random, records).0[KIND_AT] = random.pick(&[0, 4, 255]);
}

fn stray_last_byte(random: &mut Random, records: &mut [Record]) {
    some_record(random, records).0[WAY_AT] = random.pick(&[1, 2, 255]);
}

/// Lists a record twice, sometimes with another byte in the second.
fn equal_key(random: &mut Random, records: &mut Vec<Record>) {
    let rank = random.low_or_high_rank(records.len());
    let mut again = records[rank];
    if random.one_in(2) {
        again.0[STACK_AT] ^= 1;
    }
    records.insert(rank + 1, again);
}

fn swapped_neighbours(random: &mut Random, records: &mut [Record]) {
    if records.len() >= 2 {
        let rank = random.low_or_high_rank(records.len() - 1);
        records.swap(rank, rank + 1);
    }
}

/// Adds records of one kind until there is one too many, in a patch one way or the other.
fn too_many(random: &mut Random, form: Form, records: &mut Vec<Record>) {
    let way = match form {
        Form::Table => TAKEN_OUT,
        Form::Patch => random.pick(&[TAKEN_OUT, PUT_IN]),
    };
    let (one_way, other_way): (Vec<Record>, Vec<Record>) =
        records.iter().partition(|record| record.way() == way);
    let added = one_too_many(random, &one_way);
    *records = one_way;
    records.extend(added.iter().map(|record| record.with_way(way)));
    records.extend(other_way);
    records.sort_by_key(Record::order);
}

/// In a table a record that does not fit with the others; a patch has no such fault.
fn misfit_or_range(random: &mut Random, form: Form, records: &mut [Record]) {
    match form {
        Form::Table => misfit_a_record(random, records),
        Form::Patch => break_a_range(random, records),
    }
}

/// In a table precedence pairs that make a circle; a patch has no such fault.
fn circle_or_range(random: &mut Random, form: Form, records: &mut Vec<Record>) {
    match form {
        Form::Table => {
            let mut table = Table::read(records);
            let listed = table.pairs.clone();
            close_a_circle(random, &mut table);
            table.pairs.retain(|pair| !listed.contains(pair));
            let put_in: Vec<Record> = table.pairs.iter().map(Pair::record).collect();
            records.retain(|record| put_in.iter().all(|new| new.key() != record.key()));
            records.extend(put_in);
            records.sort_by_key(Record::order);
        }
        Form::Patch => break_a_range(random, records),
    }
}
