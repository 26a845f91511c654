//! Bound calls on large tables: 60 to 64 tasks, in classes that are met in turn.

use crate::blocks::{image_of, Form};
use crate::generate::maps::{map_of_percent, map_of_triples};
use crate::generate::random::Random;
use crate::generate::rooms::{enough_rows, entries};
use crate::generate::tables::{table_of_style, Shape};
use crate::generate::task_values::Style;
use crate::preempt::{true_map, MAP_ROWS};
use crate::stream::{Call, Case};
use crate::table::Table;
use crate::verdict::records_of_table;

/// What the tables of a class have in common; of tasks and pairs the fewest and the most.
#[derive(Clone, Copy)]
struct LargeTables {
    transactions: usize,
    most_urgent: u16,
    tasks: (usize, usize),
    pairs: (usize, usize),
}

/// Tables of 60 to 64 tasks with few pairs.
const fn tables_of(transactions: usize, most_urgent: u16) -> LargeTables {
    LargeTables {
        transactions,
        most_urgent,
        tasks: (60, 64),
        pairs: (0, 40),
    }
}

/// The sorts of table; the last has as much of everything as there may be.
const LARGE_TABLES: [LargeTables; 6] = [
    LargeTables {
        tasks: (60, 60),
        ..tables_of(5, 32)
    },
    tables_of(16, 32),
    tables_of(16, 255),
    tables_of(4, 255),
    tables_of(1, 255),
    LargeTables {
        tasks: (64, 64),
        pairs: (256, 256),
        ..tables_of(16, 255)
    },
];

/// The map that is lent with a table.
#[derive(Clone, Copy)]
enum LentMap {
    /// The table's own.
    Own,
    /// A random one with so many of a hundred cells set.
    Percent(usize),
    /// One in which all tasks may nest but those of one triple.
    Triples,
}

/// The sorts of map.
const LENT_MAPS: [LentMap; 7] = [
    LentMap::Own,
    LentMap::Percent(50),
    LentMap::Percent(80),
    LentMap::Percent(90),
    LentMap::Percent(95),
    LentMap::Percent(98),
    LentMap::Triples,
];

/// How many classes there are: each sort of table is met with each sort of map.
pub const CLASSES: usize = LARGE_TABLES.len() * LENT_MAPS.len();

/// An accepted bound call of the class with this number; behind the last class comes the first again.
pub fn draw(random: &mut Random, number: usize) -> Case {
    let tables = LARGE_TABLES[number % LARGE_TABLES.len()];
    let lent = LENT_MAPS[number / LARGE_TABLES.len() % LENT_MAPS.len()];
    let table = draw_table(random, tables, lent);
    let mut map = draw_map(random, lent, &table);
    map.resize_with(enough_rows(random), || random.bits());
    let entry_count = enough_rows(random);
    Case {
        map_read: map,
        ids: entries(random, entry_count),
        ..Case::lending(Call::Bound, image_of(Form::Table, &table.records()))
    }
}

/// The table of such a call of any class, and the 64 rows that count of its map.
pub fn draw_table_and_map(random: &mut Random) -> (Table, Vec<u64>) {
    let class = random.rank(CLASSES);
    let mut case = draw(random, class);
    let records = records_of_table(&case.image).expect("a sound table");
    case.map_read.truncate(MAP_ROWS);
    (Table::read(&records), case.map_read)
}

/// A table of this sort, of whole triples where the map has them.
fn draw_table(random: &mut Random, tables: LargeTables, lent: LentMap) -> Table {
    let tasks = random.count(tables.tasks.0, tables.tasks.1);
    let shape = Shape {
        transactions: tables.transactions,
        tasks: match lent {
            LentMap::Triples => tasks / 3 * 3,
            _ => tasks,
        },
        pairs: random.count(tables.pairs.0, tables.pairs.1),
    };
    let style = Style::draw_large(random, shape.tasks, tables.most_urgent);
    table_of_style(random, shape, &style)
}

fn draw_map(random: &mut Random, lent: LentMap, table: &Table) -> Vec<u64> {
    match lent {
        LentMap::Own => true_map(table).to_vec(),
        LentMap::Percent(percent) => map_of_percent(random, percent),
        LentMap::Triples => map_of_triples(random, table.tasks.len()),
    }
}
