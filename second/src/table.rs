//! What a table's records say together.

use crate::records::{
    Pair, Record, Task, Transaction, MISSING_JITTER, PAIR, TASK, THRESHOLD_OF_PRIORITY, TRANSACTION,
};

/// The transactions, tasks and pairs of a table, each in table order.
#[derive(Clone, PartialEq, Eq, Debug, Default)]
pub struct Table {
    pub transactions: Vec<Transaction>,
    pub tasks: Vec<Task>,
    pub pairs: Vec<Pair>,
}

impl Table {
    /// The table that these records make up.
    pub fn read(records: &[Record]) -> Table {
        let of_kind = |kind: u8| records.iter().filter(move |record| record.kind() == kind);
        Table {
            transactions: of_kind(TRANSACTION).map(Transaction::read).collect(),
            tasks: of_kind(TASK).map(Task::read).collect(),
            pairs: of_kind(PAIR).map(Pair::read).collect(),
        }
    }

    /// The table's records in table order.
    pub fn records(&self) -> Vec<Record> {
        let transactions = self.transactions.iter().map(Transaction::record);
        let tasks = self.tasks.iter().map(Task::record);
        let pairs = self.pairs.iter().map(Pair::record);
        let mut records: Vec<Record> = transactions.chain(tasks).chain(pairs).collect();
        records.sort_by_key(Record::key);
        records
    }

    /// The period of the transaction with this number, if it is listed.
    pub fn period_of(&self, number: u16) -> Option<u32> {
        self.transactions
            .iter()
            .find(|transaction| transaction.number == number)
            .map(|transaction| transaction.period)
    }

    /// The tasks whose jitter can be written otherwise and read alike, each written so: as the period
    /// where it is missing, as missing where it is the period.
    pub fn jitters_rewritten(&self) -> Vec<Task> {
        let rewritten = |task: &Task| {
            let period = self.period_of(task.transaction)?;
            let jitter = match task.jitter {
                MISSING_JITTER => period,
                written if written == period => MISSING_JITTER,
                _ => return None,
            };
            Some(Task { jitter, ..*task })
        };
        self.tasks.iter().filter_map(rewritten).collect()
    }

    /// The tasks whose threshold can be written otherwise and read alike, each written so: as the priority
    /// where it is 0, as 0 where it is the priority.
    pub fn thresholds_rewritten(&self) -> Vec<Task> {
        let rewritten = |task: &Task| {
            let priority = u8::try_from(task.priority).ok()?;
            let threshold = match task.threshold {
                THRESHOLD_OF_PRIORITY => priority,
                written if written == priority => THRESHOLD_OF_PRIORITY,
                _ => return None,
            };
            Some(Task { threshold, ..*task })
        };
        self.tasks.iter().filter_map(rewritten).collect()
    }

    /// The place of the task with this id, if it is listed.
    pub fn place_of(&self, id: u16) -> Option<usize> {
        self.tasks.iter().position(|task| task.id == id)
    }

    /// The place of the task with the id that a call names in 32 bits, if it is listed.
    pub fn place_of_named(&self, id: u32) -> Option<usize> {
        self.place_of(u16::try_from(id).ok()?)
    }
}
