//! The sorts of circle: of tables that are refused for one, and of patches, which never are.

use std::collections::BTreeSet;

use crate::blocks::records_in;
use crate::precedence::Paths;
use crate::records::{Pair, PairSort, Record, PUT_IN, TAKEN_OUT};
use crate::sorts::{told_by, Sort, Told};
use crate::stream::Case;
use crate::table::Table;
use crate::verdict::{records_of_patch, records_of_table};

/// Every sort of table that a comparison is to meet.
const IN_TABLES: [Sort<Circles>; 9] = [
    ("a circle of 2 tasks", |circles| circles.shortest_is(2)),
    ("a circle of 3 tasks", |circles| circles.shortest_is(3)),
    ("a circle of 4 tasks", |circles| circles.shortest_is(4)),
    ("a circle of 5 tasks", |circles| circles.shortest_is(5)),
    ("a circle of 6 tasks", |circles| circles.shortest_is(6)),
    ("a circle with a lower id that leads into it", |circles| {
        circles.has_lower(|low, circular| circles.paths.lead(low, circular))
    }),
    ("a circle with a lower id behind it", |circles| {
        circles.has_lower(|low, circular| circles.paths.lead(circular, low))
    }),
    ("circles that no path joins", |circles| {
        circles.number == 14 && circles.are_apart()
    }),
    ("a circle behind another refusal", |circles| {
        (5..=8).contains(&circles.number) && !circles.ids.is_empty()
    }),
];

/// What the sorts say of the table of this case.
pub fn told_of_table(case: &Case) -> Vec<Told> {
    told_by(&IN_TABLES, &Circles::of(case))
}

/// The circles of an image as a table, and the number of its refusal.
struct Circles {
    number: u32,
    pairs: Vec<Pair>,
    paths: Paths,
    /// The tasks that come before themselves.
    ids: BTreeSet<u16>,
}

impl Circles {
    fn of(case: &Case) -> Circles {
        let number = records_of_table(&case.image).map_or_else(|refusal| refusal.number, |_| 0);
        let has_records = number == 0 || number >= 5;
        let records = has_records.then(|| records_in(&case.image));
        let pairs = Table::read(&records.unwrap_or_default()).pairs;
        let paths = Paths::along(&pairs);
        Circles {
            number,
            ids: paths.circular().collect(),
            pairs,
            paths,
        }
    }

    /// Whether the image is refused for circles of which the shortest has so many tasks.
    fn shortest_is(&self, tasks: usize) -> bool {
        let lengths = self.ids.iter().map(|id| self.length_of_circle(*id));
        self.number == 14 && lengths.min() == Some(tasks)
    }

    /// How many pairs lead from this task back to it at least.
    fn length_of_circle(&self, id: u16) -> usize {
        let precedences = || {
            let pairs = self.pairs.iter();
            pairs.filter(|pair| pair.sort == PairSort::Precedence)
        };
        let mut reached = BTreeSet::from([id]);
        let mut length = 0;
        while length == 0 || !reached.contains(&id) {
            let leading = precedences().filter(|pair| reached.contains(&pair.first));
            reached = leading.map(|pair| pair.second).collect();
            length += 1;
        }
        length
    }

    /// Whether a task that is in no circle has an id below all that are, and is so to one of them.
    fn has_lower(&self, is_so: impl Fn(u16, u16) -> bool) -> bool {
        let named = self.pairs.iter().flat_map(|pair| [pair.first, pair.second]);
        let lowest = self.ids.first().copied().unwrap_or(0);
        let mut lower = named.filter(|id| *id < lowest);
        self.number == 14 && lower.any(|low| self.ids.iter().any(|id| is_so(low, *id)))
    }

    /// Whether no path joins some two of the circular tasks.
    fn are_apart(&self) -> bool {
        let is_apart = |one: &u16| self.ids.iter().any(|other| !self.paths.join(*one, *other));
        self.ids.iter().any(is_apart)
    }
}

/// Every sort of well-formed patch that a comparison is to meet.
const IN_PATCHES: [Sort<Vec<Record>>; 2] = [
    ("a patch that puts in a circle", |patch| {
        has_circle(patch, PUT_IN)
    }),
    ("a patch that takes out a circle", |patch| {
        has_circle(patch, TAKEN_OUT)
    }),
];

/// What the sorts say of the patch of this case.
pub fn told_of_patch(case: &Case) -> Vec<Told> {
    told_by(
        &IN_PATCHES,
        &records_of_patch(&case.image).unwrap_or_default(),
    )
}

/// Whether the precedence pairs that a patch takes out, or those that it puts in, make a circle.
fn has_circle(patch: &[Record], way: u8) -> bool {
    let records = patch.iter().filter(|record| record.way() == way);
    let table = Table::read(&records.copied().collect::<Vec<Record>>());
    Paths::along(&table.pairs).circular().next().is_some()
}
