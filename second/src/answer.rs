//! The line that answers a case.

use crate::afresh::{Afresh, Standing};
use crate::bound_call::{bound_call, Bounds, ID_ENTRIES};
use crate::digest;
use crate::map_call::map_call;
use crate::patch_call::{patch_call, PatchRefusal, Patched};
use crate::preempt::{all_reasons, MAP_ROWS};
use crate::reason_call::reason_call;
use crate::reasons::Reason;
use crate::reverse_call::reverse_call;
use crate::room_call::room_call;
use crate::round_trip::RoundTrip;
use crate::stream::question::Question;
use crate::stream::step::Step;
use crate::stream::{Call, Case};
use crate::table::Table;
use crate::through_call::through_call;
use crate::verdict::{records_of_patch, records_of_table, Refusal};
use crate::within_call::{within_call, Within};

/// What stands for number and place where a call is accepted.
const ACCEPTED: Refusal = Refusal::new(0, 0);

/// Makes the call of the case and writes the call's letter and numbers, without a line feed.
pub fn answer(case: &mut Case) -> String {
    let letter = char::from(case.call.letter());
    match case.call {
        Call::TableVerdict => line(letter, verdict_numbers(records_of_table(&case.image))),
        Call::PatchVerdict => line(letter, verdict_numbers(records_of_patch(&case.image))),
        Call::Map => line(letter, map_numbers(case)),
        Call::Bound => line(letter, bound_numbers(case)),
        Call::Patch => line(letter, patch_numbers(case)),
        Call::Run => parts_afresh(case, &case.steps).concat(),
        Call::Reasons => line(letter, reason_numbers(case)) + &parts_of_questions(case),
        Call::Reverse => line(letter, reverse_numbers(case)),
        Call::RoundTrip => line_of_trip(case),
        Call::RoomLeft => line(letter, room_numbers(case)) + &part(through_numbers(case)),
        Call::BoundWithin => line(letter, within_numbers(case)),
    }
}

/// A mark and the numbers behind it.
fn line(mark: char, numbers: Vec<u64>) -> String {
    let numbers: String = numbers.iter().map(|number| format!(" {number}")).collect();
    format!("{mark}{numbers}")
}

/// A part of a line: a bar and the numbers behind it.
fn part(numbers: Vec<u64>) -> String {
    format!(" {}", line('|', numbers))
}

/// Number and place of what a call gave.
fn verdict_numbers<Given>(given: Result<Given, Refusal>) -> Vec<u64> {
    let refusal = given.err().unwrap_or(ACCEPTED);
    vec![u64::from(refusal.number), refusal.place as u64]
}

fn map_numbers(case: &mut Case) -> Vec<u64> {
    let mut numbers = verdict_numbers(map_call(&case.image, &mut case.map_written));
    numbers.push(digest::of_rows(&case.map_written));
    numbers
}

fn bound_numbers(case: &mut Case) -> Vec<u64> {
    let given = bound_call(&case.image, &case.map_read, &mut case.ids);
    let mut numbers = found_numbers(given);
    numbers.push(digest::of_ids(&case.ids));
    numbers
}

/// Number and place of a bound call, the tasks, the four bounds and the chain's length.
fn found_numbers(given: Result<Bounds, Refusal>) -> Vec<u64> {
    let mut numbers = verdict_numbers(given);
    numbers.extend(numbers_of_bounds(given.unwrap_or_default()));
    numbers
}

/// The tasks, the four bounds and the chain's length.
fn numbers_of_bounds(bounds: Bounds) -> [u64; 6] {
    [
        bounds.tasks as u64,
        bounds.chain,
        bounds.path,
        bounds.transactions,
        bounds.levels,
        bounds.length as u64,
    ]
}

/// What a bound call has, with the chains that the rule opens before the digest.
fn within_numbers(case: &mut Case) -> Vec<u64> {
    let limit = case.limit;
    let given = within_call(&case.image, &case.map_read, limit, &mut case.ids);
    let within = given.unwrap_or_else(|refused| Within {
        bounds: refused.bounds,
        opened: 0,
    });
    let mut numbers = verdict_numbers(given.map_err(|refused| refused.refusal));
    numbers.extend(numbers_of_bounds(within.bounds));
    numbers.extend([u64::from(within.opened), digest::of_ids(&case.ids)]);
    numbers
}

fn patch_numbers(case: &mut Case) -> Vec<u64> {
    let given = patch_call(
        &case.image,
        &case.patch,
        &case.map_read,
        &mut case.room,
        &mut case.map_written,
    );
    let mut numbers = patched_numbers(&given);
    numbers.extend([
        digest::of_bytes(offending_part(&given).iter().copied()),
        digest::of_bytes(case.room.iter().copied()),
        digest::of_rows(&case.map_written),
    ]);
    numbers
}

/// Number and place of a patch call, the touched tasks, the outcome's length and that of the offending part.
fn patched_numbers(given: &Result<Patched, PatchRefusal>) -> Vec<u64> {
    let patched = given.unwrap_or_default();
    let mut numbers = verdict_numbers(given.map_err(|refused| refused.refusal));
    numbers.extend([
        patched.touched as u64,
        patched.length as u64,
        offending_part(given).len() as u64,
    ]);
    numbers
}

/// The part of the patch that a patch call hands back.
fn offending_part<'patch>(given: &Result<Patched, PatchRefusal<'patch>>) -> &'patch [u8] {
    given.err().map_or(&[], |refused| refused.offending)
}

/// The start of a line and a part for each of these steps, every one worked out afresh.
fn parts_afresh(case: &Case, steps: &[Step]) -> Vec<String> {
    let start = Afresh::start(&case.image, &case.map_read);
    let mut run = start.expect("steps start from a valid table and its true map");
    let mut parts = vec![start_of_steps(case.call, &run.standing())];
    for step in steps {
        let given = run.step(step);
        parts.push(part_of_step(&given, &run.standing()));
    }
    parts
}

/// The letter of a run or of a round trip and what stands at first.
pub fn start_of_steps(call: Call, standing: &Standing) -> String {
    line(char::from(call.letter()), standing_numbers(standing))
}

/// The part of a line for one step: what was given, and what stands after it.
pub fn part_of_step(given: &Result<Patched, PatchRefusal>, standing: &Standing) -> String {
    let mut numbers = patched_numbers(given);
    numbers.extend(offending_part(given).iter().map(|byte| u64::from(*byte)));
    numbers.extend(standing_numbers(standing));
    part(numbers)
}

/// The line of a round trip with every step worked out afresh.
fn line_of_trip(case: &Case) -> String {
    let RoundTrip { reverse, steps } = RoundTrip::of(case);
    with_reverse(parts_afresh(case, &steps), &reverse)
}

/// The line of a round trip from its start, its steps and its reverse, which stands behind the way there.
pub fn with_reverse(mut parts: Vec<String>, reverse: &Result<Vec<u8>, Refusal>) -> String {
    let written = reverse.as_deref().unwrap_or_default();
    let given = reverse.as_ref().map(Vec::len).map_err(|refusal| *refusal);
    parts.insert(2, part(reversed_numbers(given, written)));
    parts.concat()
}

fn reverse_numbers(case: &mut Case) -> Vec<u64> {
    let given = reverse_call(&case.image, &mut case.room);
    reversed_numbers(given, &case.room)
}

/// Number and place of a reverse call, the reverse's length, and the digest of these bytes.
fn reversed_numbers(given: Result<usize, Refusal>, bytes: &[u8]) -> Vec<u64> {
    let mut numbers = verdict_numbers(given);
    numbers.extend([
        given.unwrap_or_default() as u64,
        digest::of_bytes(bytes.iter().copied()),
    ]);
    numbers
}

/// The digests of table and map, the bounds over that map with the chain's ids, and the rows of the tasks.
fn standing_numbers(standing: &Standing) -> Vec<u64> {
    let mut ids = [0; ID_ENTRIES];
    let given = bound_call(&standing.image, &standing.map, &mut ids);
    let bounds = given.unwrap_or_default();
    let mut numbers = vec![
        digest::of_bytes(standing.image.iter().copied()),
        digest::of_rows(&standing.map),
    ];
    numbers.extend(found_numbers(given));
    numbers.extend(ids[..bounds.length].iter().map(|id| u64::from(*id)));
    numbers.extend(&standing.map[..bounds.tasks]);
    numbers
}

/// The verdict of the table, the digest of all its reasons, and how many pairs each reason has.
fn reason_numbers(case: &Case) -> Vec<u64> {
    let records = records_of_table(&case.image);
    let table = records.as_ref().map(|records| Table::read(records));
    let bytes = reason_bytes(&table.unwrap_or_default());
    let pairs_with = |reason: Reason| {
        bytes
            .iter()
            .filter(|byte| **byte == reason.number())
            .count()
    };
    let mut numbers = verdict_numbers(records);
    numbers.push(digest::of_bytes(bytes));
    numbers.extend(Reason::ALL.map(|reason| pairs_with(reason) as u64));
    numbers
}

/// The numbers of a table's reasons, those of places i and j at 64 · i + j; 0 where one of them holds no task.
fn reason_bytes(table: &Table) -> [u8; MAP_ROWS * MAP_ROWS] {
    let tasks = table.tasks.len();
    let mut bytes = [0; MAP_ROWS * MAP_ROWS];
    for (pair, reason) in all_reasons(table).into_iter().enumerate() {
        bytes[MAP_ROWS * (pair / tasks) + pair % tasks] = reason.number();
    }
    bytes
}

/// The reason call of each question: number, place and reason.
fn parts_of_questions(case: &Case) -> String {
    let part_of = |row: &u64| {
        let Question { low, high } = Question::from_row(*row);
        let given = reason_call(&case.image, low, high);
        let mut numbers = verdict_numbers(given);
        numbers.push(given.map_or(0, |reason| u64::from(reason.number())));
        part(numbers)
    };
    case.map_read.iter().map(part_of).collect()
}

/// Number and place of a room call, and the digest of the room for figures.
fn room_numbers(case: &mut Case) -> Vec<u64> {
    let lent = case.map_written.iter();
    let mut figures: Vec<i64> = lent.map(|bits| *bits as i64).collect();
    let given = room_call(
        &case.image,
        &case.map_read,
        case.asked.reserve,
        &mut figures,
    );
    case.map_written = figures.into_iter().map(|figure| figure as u64).collect();
    let mut numbers = verdict_numbers(given);
    numbers.push(digest::of_rows(&case.map_written));
    numbers
}

/// Number and place of the chain call for one task, the chain's weight and length, and the digest of the room for ids.
fn through_numbers(case: &mut Case) -> Vec<u64> {
    let given = through_call(&case.image, &case.map_read, case.asked.id, &mut case.ids);
    let shown = given.unwrap_or_default();
    let mut numbers = verdict_numbers(given);
    numbers.extend([shown.weight, shown.length as u64, digest::of_ids(&case.ids)]);
    numbers
}
