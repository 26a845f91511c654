//! The rules that decide a pair of tasks, each with its number and its word.

/// The rule that decides whether one task may be preempted by another.
#[derive(Clone, Copy, PartialEq, Eq, Debug)]
pub enum Reason {
    /// Yes: the tasks belong to different transactions.
    Transaction = 1,
    /// Yes: the jitter of the more urgent task passes the distance.
    Jitter = 2,
    /// Yes: the response of the less urgent task reaches past the next activation.
    Response = 3,
    /// No: the second task's priority is not above the first one's threshold.
    Priority = 4,
    /// No: a listed pair forbids it, or a path of precedence pairs leads from one task to the other.
    Pair = 5,
    /// No: the times of the two tasks keep them apart.
    Timing = 6,
}

impl Reason {
    /// Every reason, in the order of the numbers.
    pub const ALL: [Reason; 6] = [
        Reason::Transaction,
        Reason::Jitter,
        Reason::Response,
        Reason::Priority,
        Reason::Pair,
        Reason::Timing,
    ];

    /// The number of the reason, from 1 to 6.
    pub fn number(self) -> u8 {
        self as u8
    }

    /// The word that is printed for the reason.
    pub fn word(self) -> &'static str {
        match self {
            Reason::Transaction => "transaction",
            Reason::Jitter => "jitter",
            Reason::Response => "response",
            Reason::Priority => "priority",
            Reason::Pair => "pair",
            Reason::Timing => "timing",
        }
    }

    /// Whether the reason is one for a yes, so that the cell of the pair is set.
    pub fn lets_nest(self) -> bool {
        matches!(
            self,
            Reason::Transaction | Reason::Jitter | Reason::Response
        )
    }
}
