//! The sorts of case that ask how much tasks may grow, and for the heaviest chain through one of them.

use crate::bounds::Relation;
use crate::chain::heaviest_chain;
use crate::preempt::MAP_ROWS;
use crate::room_call::room_call;
use crate::sorts::{told_by, Sort, Told};
use crate::stream::Case;
use crate::table::Table;
use crate::through::Through;
use crate::through_call::through_call;
use crate::verdict::{records_of_table, Refusal};

/// The refusals of a table, each of which is a sort by itself.
const TABLE_REFUSALS: [u32; 9] = [1, 2, 3, 4, 5, 6, 7, 8, 14];

/// Every other sort that a comparison is to meet. Where a sort says nothing of map and rooms, they are long enough.
const SORTS: [Sort<Tried>; 38] = [
    ("an id of 0", |tried| {
        tried.chain_number == 15 && tried.id == 0
    }),
    ("an id that is not listed", |tried| {
        tried.chain_number == 15 && (1..1 << 16).contains(&tried.id)
    }),
    ("an id above 65,535 whose low half is listed", |tried| {
        tried.chain_number == 15 && tried.id >= 1 << 16 && tried.is_listed(tried.id % (1 << 16))
    }),
    ("an id that is not listed, and a short map", |tried| {
        tried.chain_number == 15 && tried.map_rows < 64
    }),
    (
        "an id that is not listed, and a short room for ids",
        |tried| tried.chain_number == 15 && tried.id_entries < 64,
    ),
    ("a refused table, and an id that no table lists", |tried| {
        tried.is_refused_table() && !(1..1 << 16).contains(&tried.id)
    }),
    ("a refused table, and a short map", |tried| {
        tried.is_refused_table() && tried.map_rows < 64
    }),
    ("a refused table, and a short room for figures", |tried| {
        tried.is_refused_table() && tried.figure_entries < 64
    }),
    ("a refused table, and a short room for ids", |tried| {
        tried.is_refused_table() && tried.id_entries < 64
    }),
    ("both calls refused for the map", |tried| {
        tried.room_number == 11 && tried.chain_number == 11 && tried.map_rows < 64
    }),
    ("a map of 63 rows and a room of 64", |tried| {
        tried.room_number == 11 && tried.map_rows == 63 && tried.figure_entries == 64
    }),
    ("a room for figures of 63, refused alone", |tried| {
        tried.room_number == 11 && tried.chain_number == 0 && tried.figure_entries == 63
    }),
    ("a room for figures of 0, refused alone", |tried| {
        tried.room_number == 11 && tried.chain_number == 0 && tried.figure_entries == 0
    }),
    ("a room for ids of 63, refused alone", |tried| {
        tried.room_number == 0 && tried.chain_number == 11 && tried.id_entries == 63
    }),
    ("a room for ids of 0, refused alone", |tried| {
        tried.room_number == 0 && tried.chain_number == 11 && tried.id_entries == 0
    }),
    ("a room or a map of more than 64", |tried| {
        let lengths = [tried.map_rows, tried.figure_entries, tried.id_entries];
        tried.is_answered() && lengths.iter().any(|length| *length > 64)
    }),
    ("a negative figure", |tried| {
        tried.has_figure(|figure| figure < 0)
    }),
    ("a figure of 0", |tried| {
        tried.has_figure(|figure| figure == 0)
    }),
    ("figures below 0 and above it", |tried| {
        tried.has_figure(|figure| figure < 0) && tried.has_figure(|figure| figure > 0)
    }),
    ("no figure but negative ones", |tried| {
        !tried.figures.is_empty() && !tried.has_figure(|figure| figure >= 0)
    }),
    ("a figure above 65,535", |tried| {
        tried.has_figure(|figure| figure > 65_535)
    }),
    ("a reserve of 0", |tried| tried.has_reserve(0)),
    ("the chain bound as the reserve", |tried| {
        tried.has_reserve(tried.chain_bound)
    }),
    ("a reserve one below the chain bound", |tried| {
        tried.chain_bound > 0 && tried.has_reserve(tried.chain_bound - 1)
    }),
    ("a reserve one above the chain bound", |tried| {
        tried.has_reserve(tried.chain_bound + 1)
    }),
    ("the largest reserve", |tried| {
        tried.has_reserve(u64::from(u32::MAX))
    }),
    ("the first task of the shown chain", |tried| {
        tried.rank_in(&tried.chain) == Some(0)
    }),
    ("the last task of the shown chain, of several", |tried| {
        tried.is_last_of_several(&tried.chain)
    }),
    ("a task between others of the shown chain", |tried| {
        tried.is_between(&tried.chain)
    }),
    ("a task outside the shown chain", Tried::is_outside),
    ("a task outside the shown chain, between others", |tried| {
        tried.is_outside() && tried.is_between(&tried.shown)
    }),
    (
        "a task outside the shown chain, first of several",
        |tried| tried.is_outside() && tried.is_first_of_several(&tried.shown),
    ),
    ("a task outside the shown chain, last of several", |tried| {
        tried.is_outside() && tried.is_last_of_several(&tried.shown)
    }),
    ("a task that nests with none, of several", |tried| {
        tried.table.tasks.len() > 1 && tried.shown.len() == 1
    }),
    ("a tie that ids decide", |tried| tried.is_tie),
    ("a tie that ids decide outside the shown chain", |tried| {
        tried.is_tie && tried.is_outside()
    }),
    ("a table without tasks", |tried| {
        tried.room_number == 0 && tried.table.tasks.is_empty()
    }),
    ("a table of 64 tasks", |tried| {
        tried.is_answered() && tried.table.tasks.len() == 64
    }),
];

/// What the sorts say of the calls of this case.
pub fn told(case: &Case) -> Vec<Told> {
    let tried = Tried::of(case);
    let refused = TABLE_REFUSALS.map(|number| {
        let holds = tried.room_number == number && tried.chain_number == number;
        (format!("both calls refused with {number}"), holds)
    });
    [refused.to_vec(), told_by(&SORTS, &tried)].concat()
}

/// The two calls of a case and what they are about.
struct Tried {
    /// The number of the room call, and of the chain call.
    room_number: u32,
    chain_number: u32,
    reserve: u32,
    id: u32,
    map_rows: usize,
    figure_entries: usize,
    id_entries: usize,
    /// An accepted table, or none.
    table: Table,
    /// The figures of the tasks, where the room call is accepted.
    figures: Vec<i64>,
    /// The heaviest chain of all and its weight, where the map is long enough.
    chain: Vec<usize>,
    chain_bound: u64,
    /// The heaviest chain that contains the named task, where the chain call is accepted.
    shown: Vec<usize>,
    /// Whether another chain that contains the named task weighs as much.
    is_tie: bool,
}

impl Tried {
    fn of(case: &Case) -> Tried {
        let records = records_of_table(&case.image);
        let table = records.map_or_else(|_| Table::default(), |records| Table::read(&records));
        let mut tried = Tried::calling(case, table);
        if let Some(map) = case.map_read.get(..MAP_ROWS) {
            tried.look_at_chains(&Relation::read(&tried.table.tasks, map));
        }
        tried
    }

    /// The calls of a case on this table, with nothing said of chains.
    fn calling(case: &Case, table: Table) -> Tried {
        let asked = case.asked;
        let lent = case.map_written.iter();
        let mut figures: Vec<i64> = lent.map(|bits| *bits as i64).collect();
        let room = room_call(&case.image, &case.map_read, asked.reserve, &mut figures);
        let mut ids = case.ids.clone();
        let through = through_call(&case.image, &case.map_read, asked.id, &mut ids);
        figures.truncate(room.map_or(0, |()| table.tasks.len()));
        Tried {
            room_number: number_of(room),
            chain_number: number_of(through),
            reserve: asked.reserve,
            id: asked.id,
            map_rows: case.map_read.len(),
            figure_entries: case.map_written.len(),
            id_entries: case.ids.len(),
            table,
            figures,
            chain: Vec::new(),
            chain_bound: 0,
            shown: Vec::new(),
            is_tie: false,
        }
    }

    /// Finds the chains of the table, and whether a tie is among those of the named task.
    fn look_at_chains(&mut self, relation: &Relation) {
        self.chain = heaviest_chain(relation);
        self.chain_bound = relation.weight_of(&self.chain);
        let Some(named) = self.named().filter(|_| self.chain_number == 0) else {
            return;
        };
        let mut through = Through::over(relation);
        let weight = through.weight(named);
        self.shown = through.chain(named);
        let others = self.shown.iter().filter(|place| **place != named);
        let mut without = others.map(|place| relation.everyone() & !(1 << place));
        self.is_tie = without.any(|allowed| through.weight_among(allowed, named) == weight);
    }

    /// The place of the named task, if it is listed.
    fn named(&self) -> Option<usize> {
        self.table.place_of_named(self.id)
    }

    fn is_listed(&self, id: u32) -> bool {
        self.table.place_of_named(id).is_some()
    }

    fn is_refused_table(&self) -> bool {
        TABLE_REFUSALS.contains(&self.room_number)
    }

    /// Whether both calls are accepted.
    fn is_answered(&self) -> bool {
        self.room_number == 0 && self.chain_number == 0
    }

    /// Whether the room call is accepted with such a figure for some task.
    fn has_figure(&self, is_such: fn(i64) -> bool) -> bool {
        self.figures.iter().any(|figure| is_such(*figure))
    }

    /// Whether the room call is accepted with this reserve for some task.
    fn has_reserve(&self, reserve: u64) -> bool {
        !self.figures.is_empty() && u64::from(self.reserve) == reserve
    }

    /// The rank of the named task in a chain, where the chain call is accepted.
    fn rank_in(&self, chain: &[usize]) -> Option<usize> {
        let named = self.named().filter(|_| self.chain_number == 0)?;
        chain.iter().position(|place| *place == named)
    }

    /// Whether the named task is the first in this chain, and others follow.
    fn is_first_of_several(&self, chain: &[usize]) -> bool {
        chain.len() > 1 && self.rank_in(chain) == Some(0)
    }

    /// Whether the named task is the last in this chain, and others are before it.
    fn is_last_of_several(&self, chain: &[usize]) -> bool {
        chain.len() > 1 && self.rank_in(chain) == Some(chain.len() - 1)
    }

    /// Whether the named task stands between two others in this chain.
    fn is_between(&self, chain: &[usize]) -> bool {
        let rank = self.rank_in(chain);
        rank.is_some_and(|rank| rank > 0 && rank + 1 < chain.len())
    }

    /// Whether the named task is outside the heaviest chain of all.
    fn is_outside(&self) -> bool {
        !self.shown.is_empty() && self.rank_in(&self.chain).is_none()
    }
}

/// The number of what a call gave, 0 where it is accepted.
fn number_of<Given>(given: Result<Given, Refusal>) -> u32 {
    given.map_or_else(|refusal| refusal.number, |_| 0)
}
