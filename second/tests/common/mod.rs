//! What several tests share: small tables, their images, and calls with ample rooms.

#![allow(dead_code)]

pub mod streams;

use std::collections::BTreeSet;
use std::io;

use second::afresh::Standing;
use second::answer::{part_of_step, start_of_steps};
use second::blocks::{image_of, patch_image, Form};
use second::bound_call::{bound_call, Bounds};
use second::generate::random::Random;
use second::generate::tables::fullest_table;
use second::patch_call::{patch_call, Patched};
use second::preempt::true_map;
use second::records::{Pair, PairSort, Task, Transaction, MISSING_JITTER};
use second::reverse_call::reverse_call;
use second::sorts::Sorts;
use second::stream::step::{Step, LENT_BYTE, LENT_ROW};
use second::stream::{Call, Case};
use second::table::Table;
use second::verdict::{records_of_patch, records_of_table, Refusal};

/// The period of every transaction in the numbered cases.
pub const PERIOD: u32 = 10_000;

/// A task of transaction 1 with size 1 and no jitter.
pub fn task(id: u16, priority: u16, offset: u32, response: u32) -> Task {
    Task {
        id,
        transaction: 1,
        priority,
        offset,
        jitter: 0,
        response,
        stack: 1,
        threshold: 0,
    }
}

/// A task of transaction 1 that is done at once, with size 1 and a jitter that is not measured.
pub fn unmeasured(id: u16, priority: u16, offset: u32) -> Task {
    Task {
        jitter: MISSING_JITTER,
        ..task(id, priority, offset, offset)
    }
}

/// The same task with this threshold written.
pub fn with_threshold(threshold: u8, task: Task) -> Task {
    Task { threshold, ..task }
}

/// Whether the upper task's priority is above the lower one's threshold, or above its priority where that is 0.
pub fn is_urgent_enough(lower: &Task, upper: &Task) -> bool {
    let written = u16::from(lower.threshold);
    upper.priority > lower.priority && (written == 0 || upper.priority > written)
}

/// A table of these tasks and pairs with transactions 1 and 2.
pub fn table(tasks: &[Task], pairs: &[Pair]) -> Table {
    let transaction = |number| Transaction {
        number,
        period: PERIOD,
    };
    Table {
        transactions: vec![transaction(1), transaction(2)],
        tasks: tasks.to_vec(),
        pairs: pairs.to_vec(),
    }
}

/// A one-way pair.
pub fn one_way(first: u16, second: u16) -> Pair {
    Pair {
        sort: PairSort::OneWay,
        first,
        second,
    }
}

/// A precedence pair.
pub fn precedence(first: u16, second: u16) -> Pair {
    Pair {
        sort: PairSort::Precedence,
        first,
        second,
    }
}

/// Every two tasks of which the first comes before the second.
pub type Led = BTreeSet<(u16, u16)>;

/// Who comes before whom along these pairs: precedence pairs put end to end until they make no new path.
pub fn led_along(pairs: &[Pair]) -> Led {
    let precedences = pairs
        .iter()
        .filter(|pair| pair.sort == PairSort::Precedence);
    let links: Led = precedences.map(|pair| (pair.first, pair.second)).collect();
    let mut led = links.clone();
    loop {
        let longer: Led = led
            .iter()
            .flat_map(|(first, middle)| {
                let behind = links.range((*middle, 0)..=(*middle, u16::MAX));
                behind.map(move |(_, last)| (*first, *last))
            })
            .filter(|ends| !led.contains(ends))
            .collect();
        if longer.is_empty() {
            return led;
        }
        led.extend(longer);
    }
}

/// The image of a table.
pub fn table_image(table: &Table) -> Vec<u8> {
    image_of(Form::Table, &table.records())
}

/// The image of a table with as many records of every kind as there may be, which takes 23 blocks.
pub fn full_table() -> Vec<u8> {
    table_image(&fullest_table(&mut Random::from_seed(1)))
}

/// Number and place of an image as a table.
pub fn as_table(image: &[u8]) -> (u32, usize) {
    match records_of_table(image) {
        Ok(_) => (0, 0),
        Err(refusal) => (refusal.number, refusal.place),
    }
}

/// Number and place of an image as a patch.
pub fn as_patch(image: &[u8]) -> (u32, usize) {
    match records_of_patch(image) {
        Ok(_) => (0, 0),
        Err(refusal) => (refusal.number, refusal.place),
    }
}

/// The bounds of a table with this map, and the chain's ids.
pub fn bounds_with(table: &Table, map: &[u64]) -> (Bounds, Vec<u16>) {
    let mut ids = [0; 64];
    let bounds = bound_call(&table_image(table), map, &mut ids).expect("a sound table");
    (bounds, ids[..bounds.length].to_vec())
}

/// The bounds of a table with its own map, and the chain's ids.
pub fn own_bounds(table: &Table) -> (Bounds, Vec<u16>) {
    bounds_with(table, &true_map(table))
}

/// Every two tasks of a table, in both orders and each with itself.
pub fn pairs_of_tasks(table: &Table) -> impl Iterator<Item = (&Task, &Task)> {
    let with_all = |lower| table.tasks.iter().map(move |upper| (lower, upper));
    table.tasks.iter().flat_map(with_all)
}

/// By how much a rule on times holds for two tasks of one transaction; above 0 it does.
pub struct Margins {
    /// By how much the upper task's jitter passes the distance.
    pub jitter: i64,
    /// By how much the lower task's response passes the wait until the upper task's next activation.
    pub response: i64,
}

/// The margins of two tasks, worked out from the wait.
pub fn margins(table: &Table, lower: &Task, upper: &Task) -> Margins {
    let period = own_period(table, lower);
    let ahead = i64::from(upper.offset) - i64::from(lower.offset);
    let wait = if ahead > 0 { ahead } else { ahead + period };
    let jitter = match upper.jitter {
        MISSING_JITTER => own_period(table, upper),
        measured => i64::from(measured),
    };
    let unfinished_for = i64::from(lower.response) - i64::from(lower.offset);
    Margins {
        jitter: jitter - (period - wait),
        response: unfinished_for - wait,
    }
}

/// The period of the transaction that a task is in.
fn own_period(table: &Table, task: &Task) -> i64 {
    let is_own = |transaction: &&Transaction| transaction.number == task.transaction;
    let own = table.transactions.iter().find(is_own);
    i64::from(own.expect("a listed transaction").period)
}

/// The numbers of an answer, or of the part of one before or behind a bar.
pub fn numbers_in(part: &str) -> Vec<u32> {
    part.trim_start_matches(char::is_alphabetic)
        .split_whitespace()
        .map(|number| number.parse().expect("a decimal number"))
        .collect()
}

/// The number that a call's part of an answer starts with.
pub fn first_number(part: &str) -> u32 {
    let number = part.split(' ').next().expect("a number");
    number.parse().expect("a decimal number")
}

/// Why a patch that takes this task's record out of a table with this other record of it is refused.
pub fn refusal_of_taking_out(taken_out: Task, listed: Task) -> Option<Refusal> {
    let base = table(&[task(1, 1, 0, 0), listed], &[]);
    let patch = patch_image(&[taken_out.record()], &[]);
    apply(&table_image(&base), &patch, &true_map(&base)).err()
}

/// What an accepted patch leaves.
pub struct Outcome {
    pub patched: Patched,
    pub image: Vec<u8>,
    pub map: Vec<u64>,
}

/// The outcome of a patch call with ample rooms, or its refusal.
pub fn apply(base: &[u8], patch: &[u8], map: &[u64]) -> Result<Outcome, Refusal> {
    let mut room = vec![0; 11_776];
    let mut new_map = vec![0; 64];
    let patched =
        patch_call(base, patch, map, &mut room, &mut new_map).map_err(|refused| refused.refusal)?;
    room.truncate(patched.length);
    Ok(Outcome {
        patched,
        image: room,
        map: new_map,
    })
}

/// The reverse of a patch that is well-formed.
pub fn reverse(patch: &[u8]) -> Vec<u8> {
    let mut room = vec![0; patch.len()];
    assert_eq!(reverse_call(patch, &mut room), Ok(patch.len()));
    room
}

/// The sorts that one call is of.
pub fn sorts_of(case: &Case) -> Vec<String> {
    let mut sorts = Sorts::default();
    sorts.count(case);
    let lines = sorts.lines();
    let met = lines.lines().filter_map(|line| line.strip_prefix("1 "));
    met.map(String::from).collect()
}

/// The case as it stands in a stream.
pub fn stream_of(case: &Case) -> Vec<u8> {
    let mut stream = Vec::new();
    case.write(&mut stream).expect("a stream in memory");
    stream
}

/// The case as it is read from a stream that holds it.
pub fn read_again(case: &Case) -> io::Result<Option<Case>> {
    Case::read(&mut stream_of(case).as_slice())
}

/// A round trip from a table with its true map, with this much map and room for each outcome.
pub fn round_trip(base: &Table, patch: Vec<u8>, map_rows: usize, room_bytes: usize) -> Case {
    Case {
        patch,
        map_read: true_map(base).to_vec(),
        map_written: vec![LENT_ROW; map_rows],
        room: vec![LENT_BYTE; room_bytes],
        ..Case::lending(Call::RoundTrip, table_image(base))
    }
}

/// The start of a line and a part for each of these steps, as patch calls on what the last accepted one left.
pub fn parts_of_calls(case: &Case, steps: &[Step]) -> Vec<String> {
    let mut standing = Standing {
        image: case.image.clone(),
        map: case.map_read.clone(),
    };
    let mut parts = vec![start_of_steps(case.call, &standing)];
    for step in steps {
        let mut image = vec![LENT_BYTE; step.room_bytes];
        let mut map = vec![LENT_ROW; step.map_rows];
        let given = patch_call(
            &standing.image,
            &step.patch,
            &standing.map,
            &mut image,
            &mut map,
        );
        if let Ok(patched) = &given {
            image.truncate(patched.length);
            standing = Standing { image, map };
        }
        parts.push(part_of_step(&given, &standing));
    }
    parts
}
