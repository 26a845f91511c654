//! The sorts of what a patch does to the precedence pairs of its base.

use std::collections::BTreeSet;

use crate::afresh::touched_ids;
use crate::patch_call::patched;
use crate::precedence::Paths;
use crate::preempt::{is_set, true_map};
use crate::records::{Pair, PairSort, Record, PAIR, PAIR_SORT_AT, TAKEN_OUT};
use crate::sorts::{puts_back_unchanged, Sort, Told};
use crate::table::Table;
use crate::verdict::{
    records_of_patch, records_of_table, refuse_circles, refuse_disorder, refuse_too_many,
    refuse_unlisted,
};

/// Every sort of outcome without a circle that a comparison is to meet.
const SORTS: [Sort<Change>; 9] = [
    ("a precedence pair put in", Change::adds),
    ("a precedence pair taken out", Change::drops),
    ("a precedence pair turned round", Change::turns),
    ("a precedence pair exchanged for a one-way pair", |change| {
        change.exchanges(PairSort::Precedence)
    }),
    ("a one-way pair exchanged for a precedence pair", |change| {
        change.exchanges(PairSort::OneWay)
    }),
    (
        "nothing but a precedence pair put back, and a task touched along a path",
        |change| change.puts_back_alone() && !change.touched_along_paths().is_empty(),
    ),
    (
        "a cell freed between tasks that are touched along a path alone",
        |change| change.changes_a_cell_along_paths(true),
    ),
    (
        "a cell barred between tasks that are touched along a path alone",
        |change| change.changes_a_cell_along_paths(false),
    ),
    (
        "nothing but a one-way pair of a task on a path changed",
        Change::is_of_a_one_way_pair_on_a_path,
    ),
];

/// The sort of outcome that nothing but a circle speaks against.
const CIRCLE: &str = "an outcome refused for a circle alone";

/// What the sorts say of a change, if there is one.
pub fn told(change: Option<&Change>) -> Vec<Told> {
    let is_open = |change: &&Change| !change.has_circle;
    let open = change.filter(is_open);
    let told = |(name, holds): &Sort<Change>| (String::from(*name), open.is_some_and(holds));
    let circle = (String::from(CIRCLE), change.is_some() && open.is_none());
    SORTS.iter().map(told).chain([circle]).collect()
}

/// A patch that fits its base, but that its outcome may have a circle.
pub struct Change {
    base: Table,
    patch: Vec<Record>,
    outcome: Table,
    /// Whether the outcome has a circle.
    pub has_circle: bool,
}

impl Change {
    /// The change that a patch makes to a base, if nothing refuses it but a circle or what is lent.
    pub fn of(base: &[u8], patch: &[u8]) -> Option<Change> {
        let base = records_of_table(base).ok()?;
        let patch = records_of_patch(patch).ok()?;
        let is_there = |record: &Record| record.way() != TAKEN_OUT || base.contains(record);
        let outcome = patched(&base, &patch);
        let fits = patch.iter().all(is_there)
            && refuse_disorder(&outcome).is_ok()
            && refuse_too_many(&outcome).is_ok()
            && refuse_unlisted(&outcome).is_ok();
        fits.then(|| Change {
            base: Table::read(&base),
            patch,
            has_circle: refuse_circles(&outcome).is_err(),
            outcome: Table::read(&outcome),
        })
    }

    /// Whether two tasks get a precedence pair that no pair named.
    pub fn adds(&self) -> bool {
        has_new_precedence(&self.base, &self.outcome)
    }

    /// Whether two tasks lose a precedence pair and no pair names them then.
    pub fn drops(&self) -> bool {
        has_new_precedence(&self.outcome, &self.base)
    }

    /// Whether a precedence pair leads the other way than before.
    pub fn turns(&self) -> bool {
        precedences(&self.base).iter().any(|pair| {
            let turned = Pair {
                first: pair.second,
                second: pair.first,
                ..*pair
            };
            self.outcome.pairs.contains(&turned) && !self.outcome.pairs.contains(pair)
        })
    }

    /// Whether a pair of this sort becomes one of the other sort.
    fn exchanges(&self, old: PairSort) -> bool {
        let becomes_other = |pair: &Pair| {
            let names = |other: &&Pair| (other.first, other.second) == (pair.first, pair.second);
            let mut pairs = self.outcome.pairs.iter();
            pairs.find(names).is_some_and(|new| new.sort != old)
        };
        let mut pairs = self.base.pairs.iter().filter(|pair| pair.sort == old);
        pairs.any(becomes_other)
    }

    /// Whether the patch is one precedence pair, taken out and put in again.
    fn puts_back_alone(&self) -> bool {
        self.patch.len() == 2
            && puts_back_unchanged(&self.patch)
            && self.patch.iter().all(is_precedence)
    }

    /// The tasks of the outcome that nothing touches but a path.
    pub fn touched_along_paths(&self) -> BTreeSet<u16> {
        let touched = |patch: &[Record]| {
            let [base, outcome] = [&self.base, &self.outcome].map(Table::records);
            touched_ids(&base, &outcome, patch)
        };
        let one_way: Vec<Record> = self.patch.iter().map(made_one_way).collect();
        &touched(&self.patch) - &touched(&one_way)
    }

    /// Whether the cell of two such tasks becomes set, or where asked for that unset.
    fn changes_a_cell_along_paths(&self, becomes_set: bool) -> bool {
        let (old_map, new_map) = (true_map(&self.base), true_map(&self.outcome));
        let places = |id: &u16| Some((self.base.place_of(*id)?, self.outcome.place_of(*id)?));
        let touched = self.touched_along_paths();
        let places: Vec<(usize, usize)> = touched.iter().filter_map(places).collect();
        let changes = |row: &(usize, usize), cell: &(usize, usize)| {
            let is = is_set(&new_map, row.1, cell.1);
            is == becomes_set && is != is_set(&old_map, row.0, cell.0)
        };
        let mut rows = places.iter();
        rows.any(|row| places.iter().any(|cell| changes(row, cell)))
    }

    /// Whether the patch is one one-way pair, and a path leads from or to one of its tasks.
    fn is_of_a_one_way_pair_on_a_path(&self) -> bool {
        let paths = Paths::along(&self.base.pairs);
        let is_on_path = |pair: Pair| {
            let ids = [pair.first, pair.second];
            ids.iter().any(|id| !paths.joined_to(*id).is_empty())
        };
        match self.patch[..] {
            [one] => one.kind() == PAIR && !is_precedence(&one) && is_on_path(Pair::read(&one)),
            _ => false,
        }
    }
}

/// Whether a record is a precedence pair's.
fn is_precedence(record: &Record) -> bool {
    record.kind() == PAIR && Pair::read(record).sort == PairSort::Precedence
}

/// The record, of a pair with its sort one-way.
fn made_one_way(record: &Record) -> Record {
    let mut changed = *record;
    if record.kind() == PAIR {
        changed.0[PAIR_SORT_AT] = 0;
    }
    changed
}

fn precedences(table: &Table) -> Vec<Pair> {
    let pairs = table.pairs.iter().copied();
    pairs
        .filter(|pair| pair.sort == PairSort::Precedence)
        .collect()
}

/// Whether the new table has a precedence pair of two tasks that no pair of the old one names together.
fn has_new_precedence(old: &Table, new: &Table) -> bool {
    let together = |pair: &Pair| {
        let mut listed = old.pairs.iter();
        listed.any(|other| other.names(pair.first) && other.names(pair.second))
    };
    precedences(new).iter().any(|pair| !together(pair))
}
