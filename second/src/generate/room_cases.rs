//! Cases that ask how much the tasks may grow, and for the heaviest chain through one of them.

use crate::blocks::{image_of, Form};
use crate::bounds::Relation;
use crate::chain::heaviest_chain;
use crate::generate::damaged_images::damaged_table;
use crate::generate::ids::{some_id, unlisted_id};
use crate::generate::large_cases;
use crate::generate::maps::map_often_random;
use crate::generate::random::Random;
use crate::generate::rooms::{entries, rows, rows_or_entries};
use crate::generate::tables::any_table;
use crate::stream::asked::Asked;
use crate::stream::{Call, Case};
use crate::table::Table;
use crate::through::Through;

/// Both calls on one table and map, more often accepted than not.
pub fn draw(random: &mut Random) -> Case {
    let (table, mut map) = draw_table_and_map(random);
    let asked = draw_asked(random, &table, &map);
    let image = match random.one_in(8) {
        true => damaged_table(random),
        false => image_of(Form::Table, &table.records()),
    };
    let [map_rows, figure_count, entry_count] = [(); 3].map(|()| rows_or_entries(random));
    map.resize_with(map_rows, || random.bits());
    Case {
        map_read: map,
        map_written: rows(random, figure_count),
        ids: entries(random, entry_count),
        asked,
        ..Case::lending(Call::RoomLeft, image)
    }
}

/// A table of any shape, every twelfth one large, and a map of 64 rows to be read along with it.
fn draw_table_and_map(random: &mut Random) -> (Table, Vec<u64>) {
    if random.one_in(12) {
        return large_cases::draw_table_and_map(random);
    }
    let table = any_table(random);
    let map = map_often_random(random, &table);
    (table, map)
}

/// A reserve and an id to ask for.
fn draw_asked(random: &mut Random, table: &Table, map: &[u64]) -> Asked {
    let relation = Relation::read(&table.tasks, map);
    let chain = heaviest_chain(&relation);
    let weight = relation.weight_of(&chain);
    let id = draw_id(random, table, &chain);
    let named = table.place_of_named(id);
    let through = named.map_or(weight, |place| Through::over(&relation).weight(place));
    Asked {
        reserve: draw_reserve(random, weight, through),
        id,
    }
}

/// The id of a task of the heaviest chain, of one outside it, of any, or a number that is not listed.
fn draw_id(random: &mut Random, table: &Table, chain: &[usize]) -> u32 {
    let ids_where = |is_in_chain: bool| -> Vec<u32> {
        let places = 0..table.tasks.len();
        places
            .filter(|place| chain.contains(place) == is_in_chain)
            .map(|place| u32::from(table.tasks[place].id))
            .collect()
    };
    let ids = match random.rank(8) {
        0..=2 => ids_where(true),
        3..=5 => ids_where(false),
        6 => Vec::new(),
        _ => return unlisted_id(random, table),
    };
    match ids.is_empty() {
        true => some_id(random, table),
        false => random.pick(&ids),
    }
}

/// A reserve: at the chain bound, next to it, at the named task's heaviest chain, at an end of the range, or any.
fn draw_reserve(random: &mut Random, chain: u64, through: u64) -> u32 {
    let reserve = match random.rank(12) {
        0 => 0,
        1 | 2 => chain,
        3 => chain.saturating_sub(1),
        4 => chain + 1,
        5 => through,
        6 => through.saturating_sub(1),
        7 | 8 => random.between(0, 2 * chain + 1),
        9 => random.between(0, chain),
        10 => random.bits(),
        _ => u64::from(u32::MAX),
    };
    reserve as u32
}
