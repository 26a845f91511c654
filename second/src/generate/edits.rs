//! Changes to a table after which it still keeps every rule.

use crate::generate::misfits::{unused_number, unused_record};
use crate::generate::precedences::{
    change_one_way, put_in_path, put_in_precedence, take_out_precedence, turn_precedence,
};
use crate::generate::random::Random;
use crate::generate::task_values::draw_lone_task;
use crate::generate::thresholds::draw_threshold;
use crate::precedence::Paths;
use crate::record_faults::MOST_PERIOD;
use crate::records::{Pair, PairSort, Task, Transaction, PAIR, TASK, TRANSACTION};
use crate::table::Table;
use crate::verdict::MOST_PAIRS;

/// A change to a table, which may leave its records out of order.
type Edit = fn(&mut Random, &mut Table);

/// The table after one change, or as it was where the change has nothing to work on.
pub fn edited(random: &mut Random, table: &Table) -> Table {
    let edit = random.pick::<Edit>(&[
        put_in_task,
        put_in_task,
        put_in_task,
        put_in_task,
        take_out_task,
        change_task,
        change_task,
        rewrite_jitter,
        change_threshold,
        rewrite_threshold,
        put_in_transaction,
        take_out_transaction,
        change_period,
        change_period,
        put_in_pair,
        put_in_pair,
        put_in_pair,
        take_out_pair,
        change_pair,
    ]);
    after(edit, random, table)
}

/// The table with one period changed and nothing else.
pub fn with_other_period(random: &mut Random, table: &Table) -> Table {
    after(change_period, random, table)
}

/// The table with one threshold changed and nothing else, in what it is read as or in its byte alone.
pub fn with_other_threshold(random: &mut Random, table: &Table) -> Table {
    let edit = random.pick::<Edit>(&[change_threshold, rewrite_threshold]);
    after(edit, random, table)
}

/// The table with precedence pairs put in, taken out, turned round or exchanged for one-way pairs, or with a
/// one-way pair put in or taken out, and nothing else.
pub fn with_other_pairs(random: &mut Random, table: &Table) -> Table {
    let edit = random.pick::<Edit>(&[
        put_in_precedence,
        put_in_precedence,
        put_in_path,
        take_out_precedence,
        take_out_precedence,
        turn_precedence,
        turn_precedence,
        turn_precedence,
        change_pair,
        change_pair,
        change_one_way,
    ]);
    after(edit, random, table)
}

/// The table after this change, in table order, or as it was where the change closes a circle.
fn after(edit: Edit, random: &mut Random, table: &Table) -> Table {
    let mut new = table.clone();
    edit(random, &mut new);
    match Paths::along(&new.pairs).circular().next() {
        None => Table::read(&new.records()),
        Some(_) => table.clone(),
    }
}

fn put_in_task(random: &mut Random, table: &mut Table) {
    if table.tasks.len() < 64 && !table.transactions.is_empty() {
        let id = match random.one_in(2) {
            true => unused_number(random, &table.records(), TASK),
            false => lowest_unused_id(table),
        };
        let transaction = random.pick(&table.transactions);
        let task = draw_lone_task(random, id, &transaction, &table.tasks);
        table.tasks.push(task);
    }
}

/// The lowest id that no task has, so that the places of others shift.
fn lowest_unused_id(table: &Table) -> u16 {
    (1..=u16::MAX)
        .find(|id| table.place_of(*id).is_none())
        .expect("64 tasks leave ids unused")
}

fn take_out_task(random: &mut Random, table: &mut Table) {
    if !table.tasks.is_empty() {
        let id = random.pick(&table.tasks).id;
        take_out_tasks(table, &[id]);
    }
}

/// Takes out these tasks and every pair that names one of them.
fn take_out_tasks(table: &mut Table, ids: &[u16]) {
    table.tasks.retain(|task| !ids.contains(&task.id));
    table
        .pairs
        .retain(|pair| !ids.iter().any(|id| pair.names(*id)));
}

fn change_task(random: &mut Random, table: &mut Table) {
    if !table.tasks.is_empty() {
        let place = random.rank(table.tasks.len());
        let transaction = random.pick(&table.transactions);
        let id = table.tasks[place].id;
        table.tasks[place] = draw_lone_task(random, id, &transaction, &table.tasks);
    }
}

/// Changes the bytes of a jitter and not what it is read as.
fn rewrite_jitter(random: &mut Random, table: &mut Table) {
    let rewritten = table.jitters_rewritten();
    replace_by_one_of(random, table, &rewritten);
}

/// Changes what the threshold of a task is read as, where its priority leaves a choice.
fn change_threshold(random: &mut Random, table: &mut Table) {
    if table.tasks.is_empty() {
        return;
    }
    let old = random.pick(&table.tasks);
    let drawn = (0..20).map(|_| Task {
        threshold: draw_threshold(random, old.priority, &table.tasks),
        ..old
    });
    let mut others = drawn.filter(|new| new.read_threshold() != old.read_threshold());
    let new = others.next();
    replace_by_one_of(random, table, new.as_slice());
}

/// Changes the byte of a threshold and not what it is read as.
fn rewrite_threshold(random: &mut Random, table: &mut Table) {
    let rewritten = table.thresholds_rewritten();
    replace_by_one_of(random, table, &rewritten);
}

/// Puts one of these tasks, where there are any, in the place of the task with its id.
fn replace_by_one_of(random: &mut Random, table: &mut Table, tasks: &[Task]) {
    if !tasks.is_empty() {
        let new = random.pick(tasks);
        table.tasks.retain(|task| task.id != new.id);
        table.tasks.push(new);
    }
}

fn put_in_transaction(random: &mut Random, table: &mut Table) {
    if table.transactions.len() < 16 {
        let record = unused_record(random, &table.records(), TRANSACTION);
        table.transactions.push(Transaction::read(&record));
    }
}

fn take_out_transaction(random: &mut Random, table: &mut Table) {
    if !table.transactions.is_empty() {
        let number = random.pick(&table.transactions).number;
        let own = table.tasks.iter().filter(|task| task.transaction == number);
        let ids: Vec<u16> = own.map(|task| task.id).collect();
        take_out_tasks(table, &ids);
        table.transactions.retain(|kept| kept.number != number);
    }
}

/// Changes the period of a transaction, mostly of one that has tasks.
fn change_period(random: &mut Random, table: &mut Table) {
    if table.transactions.is_empty() {
        return;
    }
    let number = match table.tasks.is_empty() || random.one_in(4) {
        true => random.pick(&table.transactions).number,
        false => random.pick(&table.tasks).transaction,
    };
    let own = table.tasks.iter().filter(|task| task.transaction == number);
    let shortest = own.map(|task| task.offset + 1).max().unwrap_or(1);
    let period = match random.rank(3) {
        0 => shortest,
        1 => random.time(shortest, (shortest + 100).min(MOST_PERIOD)),
        _ => random.time(shortest, MOST_PERIOD),
    };
    table.transactions.retain(|kept| kept.number != number);
    table.transactions.push(Transaction { number, period });
}

fn put_in_pair(random: &mut Random, table: &mut Table) {
    if table.tasks.len() >= 2 && table.pairs.len() < MOST_PAIRS {
        let pair = Pair::read(&unused_record(random, &table.records(), PAIR));
        if table.place_of(pair.first).is_some() && table.place_of(pair.second).is_some() {
            table.pairs.push(pair);
        }
    }
}

fn take_out_pair(random: &mut Random, table: &mut Table) {
    if !table.pairs.is_empty() {
        let rank = random.rank(table.pairs.len());
        table.pairs.remove(rank);
    }
}

fn change_pair(random: &mut Random, table: &mut Table) {
    if !table.pairs.is_empty() {
        let rank = random.rank(table.pairs.len());
        let pair = &mut table.pairs[rank];
        pair.sort = match pair.sort {
            PairSort::OneWay => PairSort::Precedence,
            PairSort::Precedence => PairSort::OneWay,
        };
    }
}
