//! Cases that ask for reasons.

use crate::blocks::{image_of, Form};
use crate::generate::damaged_images::damaged_table;
use crate::generate::ids::{some_id, unlisted_id};
use crate::generate::precedences::table_of_paths;
use crate::generate::random::Random;
use crate::generate::tables::{any_table, table_of_shape, Shape};
use crate::stream::question::Question;
use crate::stream::{Call, Case};
use crate::table::Table;
use crate::verdict::MOST_PAIRS;

/// The reasons of a table, mostly an accepted one, with three to six questions.
pub fn draw(random: &mut Random) -> Case {
    let table = match random.rank(16) {
        0..=2 => any_table(random),
        3 | 4 => table_of_paths(random),
        _ => table_where_times_decide(random),
    };
    let image = match random.one_in(7) {
        true => damaged_table(random),
        false => image_of(Form::Table, &table.records()),
    };
    let questions = draw_questions(random, &table);
    Case {
        map_read: questions.into_iter().map(Question::row).collect(),
        ..Case::lending(Call::Reasons, image)
    }
}

/// A table with few transactions, and sometimes with many pairs.
fn table_where_times_decide(random: &mut Random) -> Table {
    let tasks = match random.rank(20) {
        0 => 64,
        1..=6 => random.count(10, 30),
        _ => random.count(2, 12),
    };
    let most_pairs = random
        .pick(&[0, tasks, tasks * (tasks - 1)])
        .min(MOST_PAIRS);
    let shape = Shape {
        transactions: random.pick(&[1, 1, 2, 3]),
        tasks,
        pairs: random.count(0, most_pairs),
    };
    table_of_shape(random, shape)
}

/// A question about two tasks, the same the other way round, and one to four further ones.
fn draw_questions(random: &mut Random, table: &Table) -> Vec<Question> {
    let first = question_of_tasks(random, table);
    let mut questions = vec![first, first.turned()];
    let further = random.count(1, 4);
    questions.extend((0..further).map(|_| draw_question(random, table)));
    questions
}

/// A question about two tasks, about one task twice, or about what is not listed.
fn draw_question(random: &mut Random, table: &Table) -> Question {
    let asked = question_of_tasks(random, table);
    match random.rank(6) {
        0 => Question {
            high: asked.low,
            ..asked
        },
        1 => Question {
            low: unlisted_id(random, table),
            ..asked
        },
        2 => Question {
            high: unlisted_id(random, table),
            ..asked
        },
        _ => asked,
    }
}

fn question_of_tasks(random: &mut Random, table: &Table) -> Question {
    Question {
        low: some_id(random, table),
        high: some_id(random, table),
    }
}
