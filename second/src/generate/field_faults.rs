//! Values just outside the range of one field.

use crate::bytes::{put_u16, put_u32};
use crate::generate::misfits::ranks_of;
use crate::generate::random::Random;
use crate::record_faults::{MOST_OFFSET, MOST_PERIOD, MOST_PRIORITY, MOST_RESPONSE};
use crate::records::{
    Record, Task, JITTER_AT, MISSING_JITTER, NUMBER_AT, OFFSET_AT, PAIR, PAIR_SORT_AT, PERIOD_AT,
    PRIORITY_AT, RESPONSE_AT, SECOND_AT, STACK_AT, TASK, THRESHOLD_AT, TRANSACTION,
};

/// What is written where in a record of some kind.
#[derive(Clone, Copy)]
enum Fault {
    Byte(usize, u8),
    Short(usize, u16),
    Long(usize, u32),
    OffsetTooLarge,
    ResponseBelowOffset,
    LowestThreshold,
    ThresholdJustBelowPriority,
    OneTaskTwice,
}

/// Every range but the thresholds', broken at each end that can be broken.
const FAULTS: [(u8, Fault); 20] = [
    (TRANSACTION, Fault::Short(NUMBER_AT, 0)),
    (TRANSACTION, Fault::Long(PERIOD_AT, 0)),
    (TRANSACTION, Fault::Long(PERIOD_AT, MOST_PERIOD + 1)),
    (TRANSACTION, Fault::Long(PERIOD_AT, u32::MAX)),
    (TASK, Fault::Short(NUMBER_AT, 0)),
    (TASK, Fault::Short(SECOND_AT, 0)),
    (TASK, Fault::Short(PRIORITY_AT, 0)),
    (TASK, Fault::Short(PRIORITY_AT, MOST_PRIORITY + 1)),
    (TASK, Fault::OffsetTooLarge),
    (TASK, Fault::Long(JITTER_AT, MOST_PERIOD + 1)),
    (TASK, Fault::Long(JITTER_AT, MISSING_JITTER - 1)),
    (TASK, Fault::ResponseBelowOffset),
    (TASK, Fault::Long(RESPONSE_AT, MOST_RESPONSE + 1)),
    (TASK, Fault::Long(RESPONSE_AT, u32::MAX)),
    (TASK, Fault::Short(STACK_AT, 0)),
    (PAIR, Fault::Byte(PAIR_SORT_AT, 2)),
    (PAIR, Fault::Byte(PAIR_SORT_AT, 255)),
    (PAIR, Fault::Short(NUMBER_AT, 0)),
    (PAIR, Fault::Short(SECOND_AT, 0)),
    (PAIR, Fault::OneTaskTwice),
];

/// The range of thresholds, broken at both ends of what is above 0 and below the priority.
const THRESHOLD_FAULTS: [(u8, Fault); 2] = [
    (TASK, Fault::LowestThreshold),
    (TASK, Fault::ThresholdJustBelowPriority),
];

/// Puts one field of one record out of its range, if there is a record that has the field.
pub fn break_a_range(random: &mut Random, records: &mut [Record]) {
    let (kind, fault) = match random.one_in(2) {
        true => random.pick(&THRESHOLD_FAULTS),
        false => random.pick(&FAULTS),
    };
    let of_kind = ranks_of(records, kind);
    if of_kind.is_empty() {
        return;
    }
    let chosen = match fault {
        Fault::Short(NUMBER_AT, 0) => 0,
        _ => random.low_or_high_rank(of_kind.len()),
    };
    apply(fault, &mut records[of_kind[chosen]]);
}

fn apply(fault: Fault, record: &mut Record) {
    match fault {
        Fault::Byte(at, value) => record.0[at] = value,
        Fault::Short(at, value) => put_u16(&mut record.0, at, value),
        Fault::Long(at, value) => put_u32(&mut record.0, at, value),
        Fault::OffsetTooLarge => {
            put_u32(&mut record.0, OFFSET_AT, MOST_OFFSET + 1);
            put_u32(&mut record.0, RESPONSE_AT, MOST_RESPONSE);
        }
        Fault::ResponseBelowOffset => {
            let offset = Task::read(record).offset.max(1);
            put_u32(&mut record.0, OFFSET_AT, offset);
            put_u32(&mut record.0, RESPONSE_AT, offset - 1);
        }
        Fault::LowestThreshold => {
            raise_priority_to_2(record);
            record.0[THRESHOLD_AT] = 1;
        }
        Fault::ThresholdJustBelowPriority => {
            raise_priority_to_2(record);
            record.0[THRESHOLD_AT] = (Task::read(record).priority - 1) as u8;
        }
        Fault::OneTaskTwice => {
            let first = record.number();
            put_u16(&mut record.0, SECOND_AT, first);
        }
    }
}

/// Gives a task of priority 1 the next one, so that some threshold is below it.
fn raise_priority_to_2(record: &mut Record) {
    let priority = Task::read(record).priority.max(2);
    put_u16(&mut record.0, PRIORITY_AT, priority);
}
