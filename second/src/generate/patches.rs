//! Patches that fit a base, and patches that fail on it.

use crate::generate::edits::{edited, with_other_pairs, with_other_period, with_other_threshold};
use crate::generate::misfits::{misfit_a_record, one_too_many, unused_record};
use crate::generate::precedences::close_a_circle;
use crate::generate::random::Random;
use crate::generate::tables::any_table;
use crate::records::{
    patch_records, Pair, PairSort, Record, JITTER_AT, PAIR, PAIR_SORT_AT, PERIOD_AT, RESPONSE_AT,
    STACK_AT, TAKEN_OUT, TASK, TRANSACTION,
};
use crate::table::Table;

/// A patch that the base accepts.
pub fn fitting_patch(random: &mut Random, base: &Table) -> Vec<Record> {
    let target = match random.rank(26) {
        0 => base.clone(),
        1 => Table::default(),
        2 => any_table(random),
        3..=12 if base.tasks.is_empty() => any_table(random),
        13 | 14 => with_other_period(random, base),
        15 | 16 => with_other_threshold(random, base),
        17..=21 => return precedence_patch(random, base),
        _ => (0..random.count(1, 4)).fold(base.clone(), |table, _| edited(random, &table)),
    };
    patch_to(random, base, &target)
}

/// A patch of pairs alone that the base accepts, mostly of precedence pairs; every tenth one puts one back.
pub fn precedence_patch(random: &mut Random, base: &Table) -> Vec<Record> {
    let is_precedence = |pair: &&Pair| pair.sort == PairSort::Precedence;
    let precedences = base.pairs.iter().filter(is_precedence).map(Pair::record);
    let precedences: Vec<Record> = precedences.collect();
    if random.one_in(10) {
        let put_back = some_of(random, &precedences, 1);
        return patch_records(&put_back, &put_back);
    }
    let target = with_other_pairs(random, base);
    difference(&base.records(), &target.records(), &[])
}

/// A patch whose outcome has a circle, where the base has two tasks.
pub fn circle_patch(random: &mut Random, base: &[Record]) -> Vec<Record> {
    let mut target = Table::read(base);
    close_a_circle(random, &mut target);
    difference(base, &target.records(), &[])
}

/// The patch from one table to another, in every third case with some records put back unchanged.
fn patch_to(random: &mut Random, base: &Table, target: &Table) -> Vec<Record> {
    let put_back = match random.one_in(3) {
        true => random.count(1, 3),
        false => 0,
    };
    let put_back = some_of(random, &base.records(), put_back);
    difference(&base.records(), &target.records(), &put_back)
}

/// This many of the records, or fewer.
fn some_of(random: &mut Random, records: &[Record], count: usize) -> Vec<Record> {
    match records.is_empty() {
        true => Vec::new(),
        false => (0..count).map(|_| random.pick(records)).collect(),
    }
}

/// The patch from one table to another; records to put back that both have are taken out and put in.
fn difference(base: &[Record], target: &[Record], put_back: &[Record]) -> Vec<Record> {
    let moved = |from: &[Record], to: &[Record]| -> Vec<Record> {
        from.iter()
            .filter(|record| !to.contains(record) || put_back.contains(record))
            .copied()
            .collect()
    };
    patch_records(&moved(base, target), &moved(target, base))
}

/// A patch that takes out a record that is not in the base, byte for byte.
pub fn absent_record(random: &mut Random, base: &[Record]) -> Vec<Record> {
    let table = Table::read(base);
    let mut patch = fitting_patch(random, &table);
    let kind = random.pick(&[TRANSACTION, TASK, PAIR]);
    let rewritten = match random.one_in(2) {
        true => table.jitters_rewritten(),
        false => table.thresholds_rewritten(),
    };
    let absent = match random.rank(4) {
        0 | 1 if !rewritten.is_empty() => random.pick(&rewritten).record(),
        0..=2 if !base.is_empty() => {
            let present = base[random.low_or_high_rank(base.len())];
            slightly_changed(random, present)
        }
        _ => unused_record(random, base, kind),
    };
    patch.retain(|record| record.way() != TAKEN_OUT || record.key() != absent.key());
    patch.push(absent);
    patch.sort_by_key(Record::order);
    patch
}

/// The record with one byte changed that is not part of its key and keeps its range, mostly.
fn slightly_changed(random: &mut Random, mut record: Record) -> Record {
    let at = match record.kind() {
        TRANSACTION => random.pick(&[PERIOD_AT, PERIOD_AT + 1]),
        TASK => random.pick(&[STACK_AT, STACK_AT + 1, JITTER_AT, RESPONSE_AT + 1]),
        _ => PAIR_SORT_AT,
    };
    record.0[at] ^= 1;
    record
}

/// A patch whose outcome is no table.
pub fn breaking_patch(random: &mut Random, base: &[Record]) -> Vec<Record> {
    match random.rank(10) {
        0 | 1 => put_in_twice(random, base),
        2 => patch_records(&[], &one_too_many(random, base)),
        3..=5 => lose_reference(random, base),
        6 | 7 => circle_patch(random, base),
        _ => {
            let mut target = base.to_vec();
            misfit_a_record(random, &mut target);
            difference(base, &target, &[])
        }
    }
}

/// A patch that puts in a key which stays in the base, with the same bytes or others.
fn put_in_twice(random: &mut Random, base: &[Record]) -> Vec<Record> {
    if base.is_empty() {
        return vec![];
    }
    let present = base[random.low_or_high_rank(base.len())];
    let again = match random.one_in(2) {
        true => present,
        false => slightly_changed(random, present),
    };
    patch_records(&[], &[again])
}

/// A patch that takes out a transaction or a task, mostly one that other records name.
fn lose_reference(random: &mut Random, base: &[Record]) -> Vec<Record> {
    let table = Table::read(base);
    let named = |record: &&Record| match record.kind() {
        TRANSACTION => table
            .tasks
            .iter()
            .any(|task| task.transaction == record.number()),
        TASK => table.pairs.iter().any(|pair| pair.names(record.number())),
        _ => false,
    };
    let candidates: Vec<Record> = base.iter().filter(named).copied().collect();
    patch_records(&some_of(random, &candidates, 1), &[])
}
