//! Records that keep their own rules and do not fit with the others.

use crate::bytes::{put_u16, put_u32, u32_at};
use crate::generate::random::Random;
use crate::generate::tables::draw_sort;
use crate::generate::task_values::draw_lone_task;
use crate::record_faults::MOST_PERIOD;
use crate::records::{
    Pair, Record, Transaction, NUMBER_AT, OFFSET_AT, PAIR, RESPONSE_AT, SECOND_AT, TASK,
    TRANSACTION,
};
use crate::table::Table;
use crate::verdict::MOST_OF_KIND;

/// Makes one record name what is not listed, or its offset reach the period.
pub fn misfit_a_record(random: &mut Random, records: &mut [Record]) {
    let misfit = random.pick(&[unlist_transaction, unlist_task, raise_offset, raise_offset]);
    misfit(random, records);
    records.sort_by_key(Record::order);
}

/// The ranks of the records of this kind.
pub fn ranks_of(records: &[Record], kind: u8) -> Vec<usize> {
    (0..records.len())
        .filter(|rank| records[*rank].kind() == kind)
        .collect()
}

/// A number that no record of this kind has.
pub fn unused_number(random: &mut Random, records: &[Record], kind: u8) -> u16 {
    let used = |number: u16| {
        records
            .iter()
            .any(|record| record.kind() == kind && record.number() == number)
    };
    loop {
        let number = random.short(1, u16::MAX);
        if !used(number) {
            return number;
        }
    }
}

fn unlist_transaction(random: &mut Random, records: &mut [Record]) {
    let unused = unused_number(random, records, TRANSACTION);
    let tasks = ranks_of(records, TASK);
    if !tasks.is_empty() {
        let chosen = tasks[random.low_or_high_rank(tasks.len())];
        put_u16(&mut records[chosen].0, SECOND_AT, unused);
    }
}

fn unlist_task(random: &mut Random, records: &mut [Record]) {
    let unused = unused_number(random, records, TASK);
    let pairs = ranks_of(records, PAIR);
    if !pairs.is_empty() {
        let chosen = pairs[random.low_or_high_rank(pairs.len())];
        let at = random.pick(&[NUMBER_AT, SECOND_AT]);
        put_u16(&mut records[chosen].0, at, unused);
    }
}

fn raise_offset(random: &mut Random, records: &mut [Record]) {
    let table = Table::read(records);
    let tasks = ranks_of(records, TASK);
    if tasks.is_empty() {
        return;
    }
    let chosen = &mut records[tasks[random.low_or_high_rank(tasks.len())]];
    let period = table.period_of(chosen.second()).unwrap_or(1);
    let offset = period.min(MOST_PERIOD) + random.time(0, 1);
    let response = u32_at(&chosen.0, RESPONSE_AT).max(offset);
    put_u32(&mut chosen.0, OFFSET_AT, offset);
    put_u32(&mut chosen.0, RESPONSE_AT, response);
}

/// The records that must be put in so that there is one of some kind too many.
pub fn one_too_many(random: &mut Random, records: &[Record]) -> Vec<Record> {
    let (kind, most) = random.pick(&MOST_OF_KIND);
    let mut all = records.to_vec();
    for _ in ranks_of(records, kind).len()..=most {
        let added = unused_record(random, &all, kind);
        all.push(added);
    }
    all.split_off(records.len())
}

/// A record of this kind with a key that is not used yet.
pub fn unused_record(random: &mut Random, records: &[Record], kind: u8) -> Record {
    let table = Table::read(records);
    let number = unused_number(random, records, kind);
    match kind {
        TRANSACTION => {
            let period = random.time(1, 1000);
            Transaction { number, period }.record()
        }
        TASK => {
            let transaction = some_transaction(random, &table);
            draw_lone_task(random, number, &transaction, &table.tasks).record()
        }
        _ => unused_pair(random, &table, number).record(),
    }
}

/// A transaction of the table, or one that is not listed where it has none in range.
fn some_transaction(random: &mut Random, table: &Table) -> Transaction {
    let in_range = |transaction: &&Transaction| (1..=MOST_PERIOD).contains(&transaction.period);
    let listed: Vec<Transaction> = table
        .transactions
        .iter()
        .filter(in_range)
        .copied()
        .collect();
    match listed.is_empty() {
        true => Transaction {
            number: 1,
            period: 1000,
        },
        false => random.pick(&listed),
    }
}

/// A pair that is not listed, of listed tasks where they leave one.
fn unused_pair(random: &mut Random, table: &Table, unlisted: u16) -> Pair {
    for _ in 0..100 {
        let (first, second) = match table.tasks.is_empty() {
            true => break,
            false => (random.pick(&table.tasks).id, random.pick(&table.tasks).id),
        };
        let listed = |pair: &Pair| pair.first == first && pair.second == second;
        if first != second && !table.pairs.iter().any(listed) {
            return Pair {
                sort: draw_sort(random),
                first,
                second,
            };
        }
    }
    Pair {
        sort: draw_sort(random),
        first: unlisted,
        second: if unlisted == 1 { 2 } else { 1 },
    }
}
