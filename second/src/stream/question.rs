//! The questions of a case that asks for reasons; they stand where the map that is read stands.

/// The ids of two tasks: may the one with id `low` be preempted by the one with id `high`?
#[derive(Clone, Copy, PartialEq, Eq, Debug)]
pub struct Question {
    pub low: u32,
    pub high: u32,
}

impl Question {
    /// The question that this row says.
    pub fn from_row(row: u64) -> Question {
        Question {
            low: row as u32,
            high: (row >> 32) as u32,
        }
    }

    /// The row that says this question.
    pub fn row(self) -> u64 {
        u64::from(self.low) | u64::from(self.high) << 32
    }

    /// The question the other way round.
    pub fn turned(self) -> Question {
        Question {
            low: self.high,
            high: self.low,
        }
    }
}
