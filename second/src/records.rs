//! The 32 bytes of a record, and what they say of a transaction, a task or a pair.

use crate::bytes::{put_u16, put_u32, u16_at, u32_at};

/// Bytes of one record.
pub const RECORD_BYTES: usize = 32;
/// Where the kind stands.
pub const KIND_AT: usize = 0;
/// Where a pair says whether it is one-way or a precedence.
pub const PAIR_SORT_AT: usize = 1;
/// Where the number, the id or the first task stands.
pub const NUMBER_AT: usize = 2;
/// Where a task's transaction or a pair's second task stands.
pub const SECOND_AT: usize = 4;
/// Where a task's priority stands.
pub const PRIORITY_AT: usize = 6;
/// Where a transaction's period stands.
pub const PERIOD_AT: usize = 8;
/// Where a task's offset stands.
pub const OFFSET_AT: usize = 8;
/// Where a task's jitter stands.
pub const JITTER_AT: usize = 12;
/// Where a task's response stands.
pub const RESPONSE_AT: usize = 16;
/// Where a task's stack stands.
pub const STACK_AT: usize = 20;
/// Where a task's preemption threshold stands.
pub const THRESHOLD_AT: usize = 22;
/// Where a patch record says whether it is taken out or put in.
pub const WAY_AT: usize = 31;

/// The kind of a transaction's record.
pub const TRANSACTION: u8 = 1;
/// The kind of a task's record.
pub const TASK: u8 = 2;
/// The kind of a pair's record.
pub const PAIR: u8 = 3;

/// What byte 31 of a patch record says when the record is taken out.
pub const TAKEN_OUT: u8 = 0;
/// What byte 31 of a patch record says when the record is put in.
pub const PUT_IN: u8 = 1;

/// The jitter that means not measured.
pub const MISSING_JITTER: u32 = u32::MAX;
/// The threshold that means equal to the priority.
pub const THRESHOLD_OF_PRIORITY: u8 = 0;

/// The bytes of one record as they stand in an image.
#[derive(Clone, Copy, PartialEq, Eq, PartialOrd, Ord, Debug)]
pub struct Record(pub [u8; RECORD_BYTES]);

/// What the order of a table compares: kind, bytes 2-3, and bytes 4-5 of a pair.
pub type Key = (u8, u16, u16);

impl Record {
    /// The record whose bytes start at `start` in the image.
    pub fn starting_at(image: &[u8], start: usize) -> Record {
        let mut bytes = [0; RECORD_BYTES];
        bytes.copy_from_slice(&image[start..start + RECORD_BYTES]);
        Record(bytes)
    }

    /// A record of this kind and number with every other byte zero.
    fn blank(kind: u8, number: u16) -> Record {
        let mut record = Record([0; RECORD_BYTES]);
        record.0[KIND_AT] = kind;
        put_u16(&mut record.0, NUMBER_AT, number);
        record
    }

    /// Which kind of record this is.
    pub fn kind(&self) -> u8 {
        self.0[KIND_AT]
    }

    /// The number, the id or the first task.
    pub fn number(&self) -> u16 {
        u16_at(&self.0, NUMBER_AT)
    }

    /// A task's transaction or a pair's second task.
    pub fn second(&self) -> u16 {
        u16_at(&self.0, SECOND_AT)
    }

    /// Byte 31: taken out or put in.
    pub fn way(&self) -> u8 {
        self.0[WAY_AT]
    }

    /// The same record with another byte 31.
    pub fn with_way(mut self, way: u8) -> Record {
        self.0[WAY_AT] = way;
        self
    }

    /// The record of a patch that is put in where this one is taken out, and the other way round.
    pub fn turned(&self) -> Record {
        self.with_way(match self.way() {
            TAKEN_OUT => PUT_IN,
            _ => TAKEN_OUT,
        })
    }

    /// Where the record belongs in the order of a table.
    pub fn key(&self) -> Key {
        let second = if self.kind() == PAIR {
            self.second()
        } else {
            0
        };
        (self.kind(), self.number(), second)
    }

    /// Where the record belongs in the order of an image: all taken out before all put in.
    pub fn order(&self) -> (u8, Key) {
        (self.way(), self.key())
    }
}

/// The records of the patch that takes out and puts in these records, each part in table order.
pub fn patch_records(taken_out: &[Record], put_in: &[Record]) -> Vec<Record> {
    let put_in = put_in.iter().map(|record| record.with_way(PUT_IN));
    let mut records: Vec<Record> = taken_out.iter().copied().chain(put_in).collect();
    records.sort_by_key(Record::order);
    records
}

/// A transaction and its period.
#[derive(Clone, Copy, PartialEq, Eq, Debug)]
pub struct Transaction {
    pub number: u16,
    pub period: u32,
}

impl Transaction {
    /// What a transaction's record says.
    pub fn read(record: &Record) -> Transaction {
        Transaction {
            number: record.number(),
            period: u32_at(&record.0, PERIOD_AT),
        }
    }

    /// The record that says this.
    pub fn record(&self) -> Record {
        let mut record = Record::blank(TRANSACTION, self.number);
        put_u32(&mut record.0, PERIOD_AT, self.period);
        record
    }
}

/// A task with its values as they are written, a missing jitter and a threshold of 0 too.
#[derive(Clone, Copy, PartialEq, Eq, Debug)]
pub struct Task {
    pub id: u16,
    pub transaction: u16,
    pub priority: u16,
    pub offset: u32,
    pub jitter: u32,
    pub response: u32,
    pub stack: u16,
    pub threshold: u8,
}

impl Task {
    /// What a task's record says.
    pub fn read(record: &Record) -> Task {
        Task {
            id: record.number(),
            transaction: record.second(),
            priority: u16_at(&record.0, PRIORITY_AT),
            offset: u32_at(&record.0, OFFSET_AT),
            jitter: u32_at(&record.0, JITTER_AT),
            response: u32_at(&record.0, RESPONSE_AT),
            stack: u16_at(&record.0, STACK_AT),
            threshold: record.0[THRESHOLD_AT],
        }
    }

    /// The record that says this.
    pub fn record(&self) -> Record {
        let mut record = Record::blank(TASK, self.id);
        put_u16(&mut record.0, SECOND_AT, self.transaction);
        put_u16(&mut record.0, PRIORITY_AT, self.priority);
        put_u32(&mut record.0, OFFSET_AT, self.offset);
        put_u32(&mut record.0, JITTER_AT, self.jitter);
        put_u32(&mut record.0, RESPONSE_AT, self.response);
        put_u16(&mut record.0, STACK_AT, self.stack);
        record.0[THRESHOLD_AT] = self.threshold;
        record
    }

    /// The jitter that the decision reads: a missing one is the period of the task's own transaction.
    pub fn read_jitter(&self, own_period: u32) -> u32 {
        match self.jitter {
            MISSING_JITTER => own_period,
            measured => measured,
        }
    }

    /// The threshold that the task has: 0 is its priority.
    pub fn read_threshold(&self) -> u16 {
        match self.threshold {
            THRESHOLD_OF_PRIORITY => self.priority,
            written => u16::from(written),
        }
    }

    /// Whether task `upper` is urgent enough to preempt this one: its priority is above the threshold.
    pub fn yields_to(&self, upper: &Task) -> bool {
        self.read_threshold() < upper.priority
    }
}

/// Which preemptions a pair forbids.
#[derive(Clone, Copy, PartialEq, Eq, Debug)]
pub enum PairSort {
    /// The first task is not preempted by the second.
    OneWay,
    /// The first task comes before the second, so neither is preempted by the other.
    Precedence,
}

/// Two tasks between which some preemption is forbidden.
#[derive(Clone, Copy, PartialEq, Eq, Debug)]
pub struct Pair {
    pub sort: PairSort,
    pub first: u16,
    pub second: u16,
}

impl Pair {
    /// What a pair's record says.
    pub fn read(record: &Record) -> Pair {
        let sort = match record.0[PAIR_SORT_AT] {
            0 => PairSort::OneWay,
            _ => PairSort::Precedence,
        };
        Pair {
            sort,
            first: record.number(),
            second: record.second(),
        }
    }

    /// The record that says this.
    pub fn record(&self) -> Record {
        let mut record = Record::blank(PAIR, self.first);
        record.0[PAIR_SORT_AT] = match self.sort {
            PairSort::OneWay => 0,
            PairSort::Precedence => 1,
        };
        put_u16(&mut record.0, SECOND_AT, self.second);
        record
    }

    /// Whether the pair by itself forbids that `lower` is preempted by `upper`.
    pub fn forbids(&self, lower: u16, upper: u16) -> bool {
        let named = (self.first, self.second);
        let backwards = self.sort == PairSort::Precedence && named == (upper, lower);
        named == (lower, upper) || backwards
    }

    /// Whether the pair names this task.
    pub fn names(&self, id: u16) -> bool {
        self.first == id || self.second == id
    }
}
