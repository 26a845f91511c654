//! The streams that the gate compares, and the tables, outcomes and refused records in them.

use second::afresh::Afresh;
use second::generate::{Generator, Wanted};
use second::patch_call::patch_call;
use second::records::Record;
use second::round_trip::RoundTrip;
use second::stream::step::Step;
use second::stream::{Call, Case};
use second::table::Table;
use second::verdict::records_of_table;

/// A stream by what `second generate` takes for it.
#[derive(Clone, Copy)]
pub struct Stream {
    pub seed: u64,
    pub letters: &'static str,
    pub count: usize,
}

const fn stream(seed: u64, letters: &'static str, count: usize) -> Stream {
    Stream {
        seed,
        letters,
        count,
    }
}

pub const VERDICTS: Stream = stream(1, "TP", 4000);
pub const BOUND_CALLS: Stream = stream(3, "B", 3000);
pub const PATCH_CALLS: Stream = stream(4, "A", 3000);
pub const RUNS: Stream = stream(6, "R", 400);
pub const REVERSES: Stream = stream(9, "V", 1500);
pub const ROUND_TRIPS: Stream = stream(10, "U", 1000);
pub const ROOMS_LEFT: Stream = stream(11, "G", 2000);
pub const LIMITS: Stream = stream(12, "H", 7200);

/// The streams of every letter whose calls read a table for its map, its bounds or its reasons.
pub const COMPARED: [Stream; 9] = [
    stream(2, "M", 2000),
    BOUND_CALLS,
    PATCH_CALLS,
    stream(7, "L", 840),
    RUNS,
    stream(8, "W", 1200),
    ROUND_TRIPS,
    ROOMS_LEFT,
    LIMITS,
];

/// The streams of the other letters, whose calls read an image by itself.
pub const OF_IMAGES: [Stream; 2] = [VERDICTS, REVERSES];

impl Stream {
    pub fn cases(self) -> impl Iterator<Item = Case> {
        let mut generator = Generator::from_seed(self.seed);
        let letters = self.letters.bytes().cycle().take(self.count);
        let wanted =
            letters.map(|letter| Wanted::from_letter(letter).expect("a letter of the stream"));
        wanted.map(move |wanted| generator.next_wanted(wanted))
    }

    /// The tables that are accepted, and what accepted patches make of them.
    pub fn tables(self) -> impl Iterator<Item = Table> {
        let images = self.cases().flat_map(|case| match case.call {
            Call::Patch => outcome_of(&case).into_iter().chain([case.image]).collect(),
            Call::Run => standing_images(&case, &case.steps),
            Call::RoundTrip => standing_images(&case, &RoundTrip::of(&case).steps),
            _ => vec![case.image],
        });
        images.filter_map(|image| Some(Table::read(&records_of_table(&image).ok()?)))
    }
}

/// The image that an accepted patch call writes.
pub fn outcome_of(case: &Case) -> Option<Vec<u8>> {
    let (mut room, mut map) = (case.room.clone(), case.map_written.clone());
    let given = patch_call(
        &case.image,
        &case.patch,
        &case.map_read,
        &mut room,
        &mut map,
    );
    room.truncate(given.ok()?.length);
    Some(room)
}

/// The images that stand at the start of these steps and after each accepted one.
pub fn standing_images(case: &Case, steps: &[Step]) -> Vec<Vec<u8>> {
    let mut afresh = Afresh::start(&case.image, &case.map_read).expect("a valid start");
    let accepted = steps.iter().filter_map(|step| {
        afresh.step(step).ok()?;
        Some(afresh.standing().image)
    });
    [case.image.clone()].into_iter().chain(accepted).collect()
}

/// The record that a patch call hands back with refusal 9.
pub fn absent_record(case: &Case) -> Option<Record> {
    let given = patch_call(&case.image, &case.patch, &[], &mut [], &mut []);
    let offending = given.err()?.offending;
    (!offending.is_empty()).then(|| Record::starting_at(offending, 0))
}
