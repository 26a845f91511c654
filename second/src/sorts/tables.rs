//! The sorts of accepted table that verdicts, maps and reasons are asked for.

use crate::precedence::Paths;
use crate::preempt::{is_set, true_map, Map, MAP_ROWS};
use crate::records::{Pair, PairSort, Task};
use crate::sorts::{Sort, Told};
use crate::stream::Case;
use crate::table::Table;
use crate::verdict::records_of_table;

/// Every sort that a comparison is to meet.
const SORTS: [Sort<Tried>; 7] = [
    (
        "tasks kept apart by nothing but a path through a third task",
        Tried::is_barred_by_paths_alone,
    ),
    ("tasks before one task that may nest", |tried| {
        tried.nests_beside(|one, third| tried.paths.lead(one, third))
    }),
    ("tasks after one task that may nest", |tried| {
        tried.nests_beside(|one, third| tried.paths.lead(third, one))
    }),
    (
        "tasks that may nest because a one-way pair is no part of a path",
        Tried::nests_past_a_one_way_pair,
    ),
    ("a one-way pair that leads back along a path", |tried| {
        let mut one_way = tried.one_way_pairs();
        one_way.any(|pair| tried.paths.lead(pair.second, pair.first))
    }),
    (
        "a path across transactions and against priorities",
        |tried| {
            tried.led().iter().any(|(first, second)| {
                first.transaction != second.transaction && first.priority > second.priority
            })
        },
    ),
    ("a path of 64 tasks", |tried| {
        tried.led().len() == MAP_ROWS * (MAP_ROWS - 1) / 2
    }),
];

/// What the sorts say of the table of this case.
pub fn told(case: &Case) -> Vec<Told> {
    let tried = Tried::of(case);
    let told = |(name, holds): &Sort<Tried>| {
        let is_met = tried.as_ref().is_some_and(holds);
        (String::from(*name), is_met)
    };
    SORTS.iter().map(told).collect()
}

/// An accepted table and what follows from it.
struct Tried {
    table: Table,
    paths: Paths,
    map: Map,
    /// The map that the table would have if nobody came before anybody but by a pair that names both.
    map_by_names: Map,
}

impl Tried {
    fn of(case: &Case) -> Option<Tried> {
        let table = Table::read(&records_of_table(&case.image).ok()?);
        Some(Tried {
            paths: Paths::along(&table.pairs),
            map: true_map(&table),
            map_by_names: true_map(&by_names(&table)),
            table,
        })
    }

    /// Whether a cell is unset that would be set if pairs barred nobody but the tasks that they name.
    fn is_barred_by_paths_alone(&self) -> bool {
        self.map != self.map_by_names
    }

    /// Every two tasks of which the first comes before the second.
    fn led(&self) -> Vec<(&Task, &Task)> {
        let tasks = &self.table.tasks;
        let behind = |first| {
            let is_led = move |second: &&Task| self.paths.lead(first, second.id);
            tasks.iter().filter(is_led)
        };
        let led = tasks
            .iter()
            .flat_map(|first| behind(first.id).map(move |second| (first, second)));
        led.collect()
    }

    /// Whether one of these tasks may be preempted by the other.
    fn nest(&self, one: u16, other: u16) -> bool {
        match [one, other].map(|id| self.table.place_of(id)) {
            [Some(one), Some(other)] => {
                is_set(&self.map, one, other) || is_set(&self.map, other, one)
            }
            _ => false,
        }
    }

    /// Whether two tasks may nest that are both so to a third one.
    fn nests_beside(&self, is_so: impl Fn(u16, u16) -> bool) -> bool {
        let ids: Vec<u16> = self.table.tasks.iter().map(|task| task.id).collect();
        ids.iter().any(|third| {
            let beside: Vec<u16> = ids
                .iter()
                .copied()
                .filter(|one| is_so(*one, *third))
                .collect();
            let mut ones = beside.iter();
            ones.any(|one| beside.iter().any(|other| self.nest(*one, *other)))
        })
    }

    fn one_way_pairs(&self) -> impl Iterator<Item = &Pair> {
        let pairs = self.table.pairs.iter();
        pairs.filter(|pair| pair.sort == PairSort::OneWay)
    }

    /// Whether a path leads to the first task of a one-way pair from one that may nest with the second.
    fn nests_past_a_one_way_pair(&self) -> bool {
        let ids = || self.table.tasks.iter().map(|task| task.id);
        self.one_way_pairs().any(|pair| {
            let mut before = ids().filter(|id| self.paths.lead(*id, pair.first));
            before.any(|id| self.nest(id, pair.second))
        })
    }
}

/// The table with one-way pairs, both ways, in place of its precedence pairs.
fn by_names(table: &Table) -> Table {
    let both_ways = |pair: &Pair| {
        let one_way = |first, second| Pair {
            sort: PairSort::OneWay,
            first,
            second,
        };
        match pair.sort {
            PairSort::OneWay => vec![*pair],
            PairSort::Precedence => vec![
                one_way(pair.first, pair.second),
                one_way(pair.second, pair.first),
            ],
        }
    };
    Table {
        pairs: table.pairs.iter().flat_map(both_ways).collect(),
        ..table.clone()
    }
}
