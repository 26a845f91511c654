//! The sorts of bound call with a limit.

use std::collections::BTreeMap;

use crate::bound_call::Bounds;
use crate::bounds::Relation;
use crate::chain::{heaviest_chain, Search};
use crate::generate::limit_cases::MOST_OPENED;
use crate::opening::open_chains;
use crate::preempt::{true_map, MAP_ROWS};
use crate::records::THRESHOLD_OF_PRIORITY;
use crate::sorts::slips::{Slip, Slipped};
use crate::sorts::{told_by, Sort, Told};
use crate::stream::Case;
use crate::table::Table;
use crate::verdict::records_of_table;
use crate::within_call::within_call;

/// The refusals of a table, each of which is a sort by itself.
const TABLE_REFUSALS: [u32; 9] = [1, 2, 3, 4, 5, 6, 7, 8, 14];

/// What a limit is to the count of its table, which is above 2; each is a sort for the table's own map and for others.
const LIMITS: [Sort<Tried>; 6] = [
    ("a limit of 0", |tried| {
        tried.number == 13 && tried.limit == 0
    }),
    ("a limit of 1", |tried| {
        tried.number == 13 && tried.limit == 1
    }),
    ("a limit one below the count", |tried| {
        tried.number == 13 && tried.limit == tried.count - 1
    }),
    ("the count as the limit", |tried| {
        tried.number == 0 && tried.limit == tried.count
    }),
    ("a limit one above the count", |tried| {
        tried.number == 0 && tried.limit - 1 == tried.count
    }),
    ("the largest limit", |tried| {
        tried.number == 0 && tried.limit == u32::MAX
    }),
];

/// Slips in the rule, each of which some count is to tell.
const SLIPS: [(&str, Slip); 10] = [
    ("it were asked anew before each extension", Slip::AskedAnew),
    ("it were asked of each extension", Slip::AskedOfExtension),
    (
        "a bound as heavy as the best were enough",
        Slip::TiesExtended,
    ),
    ("no bound were asked", Slip::NeverAsked),
    (
        "the last task's cells alone were asked",
        Slip::LastTaskAlone,
    ),
    ("the path bound were of all tasks", Slip::PathOfAll),
    (
        "the path bound were of the last task, too",
        Slip::PathWithLast,
    ),
    (
        "the level bound stood for the path bound",
        Slip::LevelsForPath,
    ),
    (
        "the heaviest chain stood for the path bound",
        Slip::ChainForPath,
    ),
    ("extensions came in order of priority", Slip::ByPriority),
];

/// Every other sort that a comparison is to meet. Where a sort says nothing of map and room, they are long enough.
const SORTS: [Sort<Tried>; 24] = [
    ("a limit of 0, and a short map", |tried| {
        tried.number == 11 && tried.limit == 0 && tried.map_rows < 64
    }),
    ("a limit of 0, and a short room for ids", |tried| {
        tried.number == 11 && tried.limit == 0 && tried.id_entries < 64
    }),
    ("a map of 63 rows", |tried| {
        tried.number == 11 && tried.map_rows == 63 && tried.id_entries >= 64
    }),
    ("a map of no rows", |tried| {
        tried.number == 11 && tried.map_rows == 0 && tried.id_entries >= 64
    }),
    ("a room for ids of 63", |tried| {
        tried.number == 11 && tried.id_entries == 63 && tried.map_rows >= 64
    }),
    ("a room for ids of 0", |tried| {
        tried.number == 11 && tried.id_entries == 0 && tried.map_rows >= 64
    }),
    ("the largest limit, and a short map or room", |tried| {
        tried.number == 11 && tried.limit == u32::MAX
    }),
    ("more than 64 rows and entries, accepted", |tried| {
        tried.number == 0 && tried.map_rows > 64 && tried.id_entries > 64
    }),
    ("more than 64 rows or entries, given up", |tried| {
        tried.number == 13 && tried.map_rows.max(tried.id_entries) > 64
    }),
    ("a refused table, and a limit of 0", |tried| {
        tried.is_refused_table() && tried.limit == 0
    }),
    ("a refused table, and the largest limit", |tried| {
        tried.is_refused_table() && tried.limit == u32::MAX
    }),
    ("a refused table, and a short map or room", |tried| {
        tried.is_refused_table() && tried.map_rows.min(tried.id_entries) < 64
    }),
    ("a table without tasks, given up", |tried| {
        tried.number == 13 && tried.table.tasks.is_empty()
    }),
    ("a table without tasks, and a limit of 1", |tried| {
        tried.number == 0 && tried.limit == 1 && tried.table.tasks.is_empty()
    }),
    ("a table of one task, and a limit of 2", |tried| {
        tried.is_at_its_count() && tried.count == 2 && tried.table.tasks.len() == 1
    }),
    ("a count above 1,000 as the limit", |tried| {
        tried.is_at_its_count() && tried.count > 1000
    }),
    ("a count above 10,000 as the limit", |tried| {
        tried.is_at_its_count() && tried.count > 10_000
    }),
    ("a count above 20,000, given up past 10,000", |tried| {
        tried.number == 13 && tried.limit > 10_000 && tried.is_past_counting()
    }),
    ("a count above 20,000 with the table's own map", |tried| {
        tried.number == 13 && tried.is_past_counting() && tried.is_own
    }),
    ("a count as large as it can be, above 1,000", |tried| {
        tried.is_at_its_count() && tried.count > 1000 && tried.count == most_chains(&tried.table)
    }),
    ("64 tasks, and the count as the limit", |tried| {
        tried.is_at_its_count() && tried.table.tasks.len() == 64
    }),
    (
        "bounds by path and transactions that differ, given up",
        |tried| tried.number == 13 && tried.bounds.path != tried.bounds.transactions,
    ),
    ("a tie that ids decide", |tried| {
        tried.is_at_its_count() && tried.has_tie()
    }),
    (
        "a count that would be another if thresholds were not read",
        |tried| tried.is_at_its_count() && tried.count_without_thresholds() != tried.count,
    ),
];

/// What the sorts say of the call of this case.
pub fn told(case: &Case) -> Vec<Told> {
    let tried = Tried::of(case);
    let refused = TABLE_REFUSALS.map(|number| {
        (
            format!("a call refused with {number}"),
            tried.number == number,
        )
    });
    let limits = [(true, "the table's own map"), (false, "another map")].map(|(is_own, map)| {
        let is_such = tried.count > 2 && tried.is_own == is_own;
        LIMITS.map(|(name, holds)| (format!("{name}, {map}"), is_such && holds(&tried)))
    });
    let slips = SLIPS.map(|(name, slip)| {
        let name = format!("a count that would be another if {name}");
        (name, tried.is_at_its_count() && tried.tells(slip))
    });
    [
        refused.to_vec(),
        limits.concat(),
        slips.to_vec(),
        told_by(&SORTS, &tried),
    ]
    .concat()
}

/// The product, over the priorities in use, of one plus the number of tasks there; no chain has two of one priority.
fn most_chains(table: &Table) -> u32 {
    let mut tasks_of: BTreeMap<u16, u32> = BTreeMap::new();
    for task in &table.tasks {
        *tasks_of.entry(task.priority).or_insert(0) += 1;
    }
    let ways = tasks_of.values().map(|tasks| tasks + 1);
    ways.fold(1, u32::saturating_mul)
}

/// The call of a case and what it is about.
struct Tried {
    number: u32,
    /// The bounds of the answer.
    bounds: Bounds,
    limit: u32,
    map_rows: usize,
    id_entries: usize,
    /// An accepted table, or none.
    table: Table,
    /// The rows of the map that count; none of them is set where the map is short.
    map: Vec<u64>,
    /// Whether the map is the table's own.
    is_own: bool,
    /// How many chains the rule opens, or the largest number where they are too many to count, or 0 where the map is
    /// short or the table refused.
    count: u32,
}

impl Tried {
    fn of(case: &Case) -> Tried {
        let given = within_call(
            &case.image,
            &case.map_read,
            case.limit,
            &mut case.ids.clone(),
        );
        let (number, bounds) = match given {
            Ok(within) => (0, within.bounds),
            Err(refused) => (refused.refusal.number, refused.bounds),
        };
        let records = records_of_table(&case.image);
        let table = records.map_or_else(|_| Table::default(), |records| Table::read(&records));
        let lent = case.map_read.get(..MAP_ROWS);
        let map = lent.map_or_else(|| vec![0; MAP_ROWS], <[u64]>::to_vec);
        let mut tried = Tried {
            number,
            bounds,
            limit: case.limit,
            map_rows: case.map_read.len(),
            id_entries: case.ids.len(),
            is_own: map == true_map(&table),
            table,
            map,
            count: 0,
        };
        if [0, 13].contains(&number) {
            tried.count = count_of(&tried.relation());
        }
        tried
    }

    fn relation(&self) -> Relation {
        Relation::read(&self.table.tasks, &self.map)
    }

    fn is_refused_table(&self) -> bool {
        TABLE_REFUSALS.contains(&self.number)
    }

    /// Whether the call is accepted with no chain to spare.
    fn is_at_its_count(&self) -> bool {
        self.number == 0 && self.limit == self.count
    }

    /// Whether the rule opens more chains than are counted.
    fn is_past_counting(&self) -> bool {
        self.count == u32::MAX
    }

    /// Whether the count would be another with this slip.
    fn tells(&self, slip: Slip) -> bool {
        let most = self.count.saturating_add(1);
        let slipped = Slipped::count(slip, &self.table.tasks, &self.relation(), most);
        slipped != self.count
    }

    /// The count if every task could be preempted by all of higher priority.
    fn count_without_thresholds(&self) -> u32 {
        let mut freed = self.table.tasks.clone();
        let tasks = freed.iter_mut();
        tasks.for_each(|task| task.threshold = THRESHOLD_OF_PRIORITY);
        count_of(&Relation::read(&freed, &self.map))
    }

    /// Whether another chain weighs as much as the shown one.
    fn has_tie(&self) -> bool {
        let relation = self.relation();
        let mut search = Search::new(&relation);
        let chain = heaviest_chain(&relation);
        let mut without = chain
            .iter()
            .map(|place| relation.everyone() & !(1 << place));
        without.any(|allowed| search.heaviest(allowed) == self.bounds.chain)
    }
}

/// How many chains the rule opens, or the largest number where they are too many to count.
fn count_of(relation: &Relation) -> u32 {
    open_chains(relation, MOST_OPENED).map_or(u32::MAX, |opened| opened.count)
}
