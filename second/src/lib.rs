//! An independent program that answers every call on table and patch images.
//!
//! It is written from the definition of the images, the relation, the bounds and the patches alone,
//! and shares no code with the proved library that it is compared with.

#![forbid(unsafe_code)]

pub mod afresh;
pub mod answer;
pub mod blocks;
pub mod bound_call;
pub mod bounds;
pub mod bytes;
pub mod cable;
pub mod chain;
pub mod digest;
pub mod figure2;
pub mod generate;
pub mod heaviest;
pub mod map_call;
pub mod numbered_cases;
pub mod opening;
pub mod patch_call;
pub mod precedence;
pub mod preempt;
pub mod reason_call;
pub mod reasons;
pub mod record_faults;
pub mod records;
pub mod report;
pub mod reverse_call;
pub mod room_call;
pub mod round_trip;
pub mod simulate;
pub mod sorts;
pub mod stream;
pub mod table;
pub mod through;
pub mod through_call;
pub mod verdict;
pub mod within_call;
