//! The faults that one record can have by itself.

use std::ops::RangeInclusive;

use crate::blocks::Form;
use crate::records::{
    Record, Task, Transaction, MISSING_JITTER, PAIR, PAIR_SORT_AT, PUT_IN, TASK, TRANSACTION,
    WAY_AT,
};

/// The largest period and the largest measured jitter.
pub const MOST_PERIOD: u32 = 1_000_000_000;
/// The largest offset.
pub const MOST_OFFSET: u32 = 999_999_999;
/// The largest response.
pub const MOST_RESPONSE: u32 = 2_000_000_000;
/// The most urgent priority.
pub const MOST_PRIORITY: u16 = 255;

/// The bytes up to 30 that are said to be 0 in a record of this kind, or none for an unknown kind.
fn zero_bytes(kind: u8) -> Option<&'static [RangeInclusive<usize>]> {
    match kind {
        TRANSACTION => Some(&[1..=1, 4..=7, 12..=30]),
        TASK => Some(&[1..=1, 23..=30]),
        PAIR => Some(&[6..=30]),
        _ => None,
    }
}

/// Whether the kind is unknown, a byte said to be 0 is not, or byte 31 has no meaning in this form.
pub fn has_stray_byte(record: &Record, form: Form) -> bool {
    let most_way = match form {
        Form::Table => 0,
        Form::Patch => PUT_IN,
    };
    let stray = |range: &RangeInclusive<usize>| record.0[range.clone()].iter().any(|b| *b != 0);
    match zero_bytes(record.kind()) {
        None => true,
        Some(ranges) => ranges.iter().any(stray) || record.0[WAY_AT] > most_way,
    }
}

/// Whether a field is out of the range that needs no other record.
pub fn is_out_of_range(record: &Record) -> bool {
    match record.kind() {
        TRANSACTION => transaction_is_out_of_range(&Transaction::read(record)),
        TASK => task_is_out_of_range(&Task::read(record)),
        _ => pair_is_out_of_range(record),
    }
}

fn transaction_is_out_of_range(transaction: &Transaction) -> bool {
    transaction.number == 0 || !(1..=MOST_PERIOD).contains(&transaction.period)
}

fn task_is_out_of_range(task: &Task) -> bool {
    let jitter_is_right = task.jitter <= MOST_PERIOD || task.jitter == MISSING_JITTER;
    task.id == 0
        || task.transaction == 0
        || !(1..=MOST_PRIORITY).contains(&task.priority)
        || task.offset > MOST_OFFSET
        || !jitter_is_right
        || !(task.offset..=MOST_RESPONSE).contains(&task.response)
        || task.stack == 0
        || task.read_threshold() < task.priority
}

fn pair_is_out_of_range(record: &Record) -> bool {
    let (first, second) = (record.number(), record.second());
    record.0[PAIR_SORT_AT] > 1 || first == 0 || second == 0 || first == second
}
