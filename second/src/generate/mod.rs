//! Streams of cases made from a seed: the same seed, letters and count give the same bytes anywhere.

mod bound_cases;
mod damaged_images;
mod edits;
mod field_faults;
mod frame_damage;
mod ids;
pub mod large_cases;
pub mod limit_cases;
mod map_cases;
mod maps;
mod misfits;
mod patch_cases;
mod patches;
pub mod precedences;
pub mod random;
mod reason_cases;
mod record_damage;
mod reverse_cases;
mod room_cases;
mod rooms;
mod run_cases;
pub mod tables;
mod task_values;
mod thresholds;
mod trip_cases;
mod verdict_cases;

use std::io::{self, Write};

use crate::blocks::Form;
use crate::generate::limit_cases::LimitCases;
use crate::generate::patch_cases::PatchRun;
use crate::generate::random::Random;
use crate::stream::{Call, Case};

/// What a stream is to hold: any cases of a call, or bound calls on large tables.
#[derive(Clone, Copy, PartialEq, Eq, Debug)]
pub enum Wanted {
    Any(Call),
    LargeBound,
}

impl Wanted {
    /// What this letter asks for: `L` for large tables, else the call's own letter.
    pub fn from_letter(letter: u8) -> Option<Wanted> {
        match letter {
            b'L' => Some(Wanted::LargeBound),
            _ => Call::from_letter(letter).map(Wanted::Any),
        }
    }
}

/// Makes one case after another, each depending on the seed and the cases before it.
pub struct Generator {
    random: Random,
    run: PatchRun,
    limits: LimitCases,
    /// How many bound calls on large tables there were, which gives the class of the next.
    large: usize,
}

impl Generator {
    /// A generator that starts afresh from this seed.
    pub fn from_seed(seed: u64) -> Generator {
        let mut random = Random::from_seed(seed);
        let run = PatchRun::start(&mut random);
        Generator {
            random,
            run,
            limits: LimitCases::default(),
            large: 0,
        }
    }

    /// The next case, of the sort that is wanted.
    pub fn next_wanted(&mut self, wanted: Wanted) -> Case {
        match wanted {
            Wanted::Any(call) => self.next_case(call),
            Wanted::LargeBound => self.next_large_case(),
        }
    }

    /// The next bound call on a large table, of the class after the last one's.
    pub fn next_large_case(&mut self) -> Case {
        let number = self.large;
        self.large += 1;
        large_cases::draw(&mut self.random, number)
    }

    /// The next case, for the call that is asked for.
    pub fn next_case(&mut self, call: Call) -> Case {
        match call {
            Call::TableVerdict => verdict_cases::draw(&mut self.random, Form::Table),
            Call::PatchVerdict => verdict_cases::draw(&mut self.random, Form::Patch),
            Call::Map => map_cases::draw(&mut self.random),
            Call::Bound => bound_cases::draw(&mut self.random),
            Call::Patch => self.run.next_case(&mut self.random),
            Call::Run => run_cases::draw(&mut self.random),
            Call::Reasons => reason_cases::draw(&mut self.random),
            Call::Reverse => reverse_cases::draw(&mut self.random),
            Call::RoundTrip => trip_cases::draw(&mut self.random),
            Call::RoomLeft => room_cases::draw(&mut self.random),
            Call::BoundWithin => self.limits.next_case(&mut self.random),
        }
    }
}

/// Writes `count` cases that cycle through what is wanted.
pub fn write_stream(
    seed: u64,
    wanted: &[Wanted],
    count: usize,
    output: &mut impl Write,
) -> io::Result<()> {
    let mut generator = Generator::from_seed(seed);
    wanted
        .iter()
        .cycle()
        .take(count)
        .try_for_each(|one| generator.next_wanted(*one).write(output))
}
