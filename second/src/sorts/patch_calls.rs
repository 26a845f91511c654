//! The sorts of patch call.

use std::collections::BTreeSet;

use crate::afresh::touched_ids;
use crate::blocks::{records_in, Form};
use crate::patch_call::patch_call;
use crate::preempt::{is_set, true_map, MAP_ROWS};
use crate::records::{Pair, Record, Task, MISSING_JITTER, TRANSACTION};
use crate::sorts::precedences::{self, Change};
use crate::sorts::{puts_back_unchanged, Told};
use crate::stream::Case;
use crate::table::Table;

/// A sort of patch call. Where a sort says that a map or the room is too short, nothing else is.
#[derive(Clone, Copy)]
enum Sort {
    UnchangedPutBack,
    PeriodChanged,
    CellChangedByPeriod,
    OnlyPeriodChanged,
    JitterRewritten,
    OnlyThresholdChanged,
    ThresholdRewritten,
    PairTakenOut,
    PairPutIn,
    TaskMoved,
    SetCellMoved,
    WrongCellCarried,
    WrongCellMended,
    RoomLeaving(usize),
    RoomLacking(usize),
    BaseRows(usize),
    NewRows(usize),
}

/// Every sort that a comparison is to meet.
const SORTS: [Sort; 21] = [
    Sort::UnchangedPutBack,
    Sort::PeriodChanged,
    Sort::CellChangedByPeriod,
    Sort::OnlyPeriodChanged,
    Sort::JitterRewritten,
    Sort::OnlyThresholdChanged,
    Sort::ThresholdRewritten,
    Sort::PairTakenOut,
    Sort::PairPutIn,
    Sort::TaskMoved,
    Sort::SetCellMoved,
    Sort::WrongCellCarried,
    Sort::WrongCellMended,
    Sort::RoomLeaving(0),
    Sort::RoomLacking(1),
    Sort::BaseRows(63),
    Sort::BaseRows(64),
    Sort::BaseRows(70),
    Sort::NewRows(63),
    Sort::NewRows(64),
    Sort::NewRows(70),
];

impl Sort {
    /// What the sort is called.
    fn name(self) -> String {
        match self {
            Sort::UnchangedPutBack => "an unchanged record put back".into(),
            Sort::PeriodChanged => "a period changed under a task".into(),
            Sort::CellChangedByPeriod => "a cell changed by a period alone".into(),
            Sort::OnlyPeriodChanged => "nothing but a period changed under a missing jitter".into(),
            Sort::JitterRewritten => {
                "a missing jitter and the period written for it exchanged".into()
            }
            Sort::OnlyThresholdChanged => "nothing but a threshold changed".into(),
            Sort::ThresholdRewritten => {
                "a threshold of 0 and the priority written for it exchanged".into()
            }
            Sort::PairTakenOut => "a pair taken out".into(),
            Sort::PairPutIn => "a pair put in".into(),
            Sort::TaskMoved => "a task moved by another's coming".into(),
            Sort::SetCellMoved => "a set cell moved in row and column".into(),
            Sort::WrongCellCarried => "a wrong cell carried".into(),
            Sort::WrongCellMended => "a wrong cell decided anew along a path".into(),
            Sort::RoomLeaving(bytes) => format!("a room that leaves {bytes} bytes"),
            Sort::RoomLacking(bytes) => format!("a room that lacks {bytes} byte"),
            Sort::BaseRows(rows) => format!("a base map of {rows} rows"),
            Sort::NewRows(rows) => format!("a new map of {rows} rows"),
        }
    }

    /// Whether the call is of this sort.
    fn holds(self, call: &Tried) -> bool {
        let fits = call.short() == [false; 3];
        let (base_rows, new_rows) = (call.case.map_read.len(), call.case.map_written.len());
        let room = call.case.room.len();
        match self {
            Sort::UnchangedPutBack => fits && puts_back_unchanged(&call.patch),
            Sort::PeriodChanged => fits && call.changes_a_period(),
            Sort::CellChangedByPeriod => fits && call.changes_a_cell_by_period(),
            Sort::OnlyPeriodChanged => fits && call.changes_nothing_but_a_period(),
            Sort::JitterRewritten => fits && call.rewrites_a_jitter(),
            Sort::OnlyThresholdChanged => fits && call.changes_nothing_but_a_threshold(),
            Sort::ThresholdRewritten => fits && call.rewrites_a_threshold(),
            Sort::PairTakenOut => fits && has_further_pair(&call.base, &call.outcome),
            Sort::PairPutIn => fits && has_further_pair(&call.outcome, &call.base),
            Sort::TaskMoved => fits && call.moves_a_task(),
            Sort::SetCellMoved => fits && call.moves_a_set_cell(),
            Sort::WrongCellCarried => fits && call.carries_a_wrong_cell(),
            Sort::WrongCellMended => fits && call.mends_a_wrong_cell(),
            Sort::RoomLeaving(bytes) => fits && room == call.length + bytes,
            Sort::RoomLacking(bytes) => {
                call.short() == [false, false, true] && room + bytes == call.length
            }
            Sort::BaseRows(rows) => {
                call.short() == [rows < MAP_ROWS, false, false] && base_rows == rows
            }
            Sort::NewRows(rows) => {
                call.short() == [false, rows < MAP_ROWS, false] && new_rows == rows
            }
        }
    }
}

/// What the sorts say of the call of this case.
pub fn told(case: &Case) -> Vec<Told> {
    let tried = Tried::of(case);
    let holds = |sort: Sort| tried.as_ref().is_some_and(|call| sort.holds(call));
    let fits = tried
        .as_ref()
        .is_some_and(|call| call.short() == [false; 3]);
    let change = Change::of(&case.image, &case.patch);
    let change = change.filter(|change| fits || change.has_circle);
    let mut told = SORTS.map(|sort| (sort.name(), holds(sort))).to_vec();
    told.extend(precedences::told(change.as_ref()));
    told
}

/// Where a task stands in the base and in the outcome.
type Places = (usize, usize);

/// A patch call that nothing refuses but a map or room too short, and what it is about.
struct Tried {
    case: Case,
    base: Table,
    outcome: Table,
    patch: Vec<Record>,
    /// Bytes of the outcome's image.
    length: usize,
    /// The tasks that are not touched.
    untouched: Vec<Places>,
    /// The tasks that are not touched, or by their transaction's record alone.
    steady: Vec<Places>,
    /// The tasks that are touched along a path alone.
    along_paths: Vec<Places>,
}

impl Tried {
    /// The call as it goes with maps and a room that are long enough, if it is accepted then.
    fn of(case: &Case) -> Option<Tried> {
        let mut room = vec![0; Form::Table.most_bytes()];
        let (map, mut new_map) = ([0; MAP_ROWS], [0; MAP_ROWS]);
        let tried = patch_call(&case.image, &case.patch, &map, &mut room, &mut new_map);
        let length = tried.ok()?.length;
        let records = records_in(&room[..length]);
        let listed = records_in(&case.image);
        let base = Table::read(&listed);
        let patch = records_in(&case.patch);
        let no_transaction = |record: &&Record| record.kind() != TRANSACTION;
        let others: Vec<Record> = patch.iter().filter(no_transaction).copied().collect();
        let touched_by = |patch: &[Record]| touched_ids(&listed, &records, patch);
        let along_paths = Change::of(&case.image, &case.patch)?.touched_along_paths();
        let outcome = Table::read(&records);
        let places = |asked: &dyn Fn(u16) -> bool| places_of(&base, &outcome, asked);
        let (touched, by_others) = (touched_by(&patch), touched_by(&others));
        Some(Tried {
            case: case.clone(),
            untouched: places(&|id| !touched.contains(&id)),
            steady: places(&|id| !by_others.contains(&id)),
            along_paths: places(&|id| along_paths.contains(&id)),
            base,
            outcome,
            patch,
            length,
        })
    }

    /// Whether the base map, the new map and the room are too short.
    fn short(&self) -> [bool; 3] {
        [
            self.case.map_read.len() < MAP_ROWS,
            self.case.map_written.len() < MAP_ROWS,
            self.case.room.len() < self.length,
        ]
    }

    /// Whether the period changes of a task that nothing else touches.
    fn changes_a_period(&self) -> bool {
        self.some_steady_task(|task| self.has_other_period(task))
    }

    /// Whether a decision between two such tasks changes.
    fn changes_a_cell_by_period(&self) -> bool {
        let (old, new) = (true_map(&self.base), true_map(&self.outcome));
        some_cell(&self.steady, |row, cell| {
            is_set(&old, row.0, cell.0) != is_set(&new, row.1, cell.1)
        })
    }

    /// Whether the patch is the two records of a changed period, and a task under it has no jitter.
    fn changes_nothing_but_a_period(&self) -> bool {
        let is_missing = |task: &Task| task.jitter == MISSING_JITTER;
        self.patch.len() == 2
            && self.some_steady_task(|task| is_missing(task) && self.has_other_period(task))
    }

    /// Whether a task changes in the bytes of its jitter alone, and not in what they are read as.
    fn rewrites_a_jitter(&self) -> bool {
        let rewritten = self.base.jitters_rewritten();
        let is_rewritten = |new: &Task| rewritten.contains(new) && !self.has_other_period(new);
        self.outcome.tasks.iter().any(is_rewritten)
    }

    /// Whether the patch is the two records of a task whose threshold alone is read as another.
    fn changes_nothing_but_a_threshold(&self) -> bool {
        let has_other_threshold = |old: &Task, new: &Task| {
            let threshold = new.threshold;
            Task { threshold, ..*old } == *new && old.read_threshold() != new.read_threshold()
        };
        let mut tasks = self.base.tasks.iter().zip(&self.outcome.tasks);
        self.patch.len() == 2 && tasks.any(|(old, new)| has_other_threshold(old, new))
    }

    /// Whether a task changes in the byte of its threshold alone, and not in what it is read as.
    fn rewrites_a_threshold(&self) -> bool {
        let rewritten = self.base.thresholds_rewritten();
        let is_rewritten = |new: &Task| rewritten.contains(new);
        self.outcome.tasks.iter().any(is_rewritten)
    }

    /// Whether some task that nothing but its transaction's record touches is as asked.
    fn some_steady_task(&self, asked: impl Fn(&Task) -> bool) -> bool {
        let tasks = &self.outcome.tasks;
        self.steady.iter().any(|(_, place)| asked(&tasks[*place]))
    }

    /// Whether the period of this task's transaction is another one than in the base.
    fn has_other_period(&self, task: &Task) -> bool {
        let number = task.transaction;
        self.base.period_of(number) != self.outcome.period_of(number)
    }

    /// Whether a task that is not touched comes to a later place.
    fn moves_a_task(&self) -> bool {
        self.untouched.iter().any(|(old, new)| old < new)
    }

    /// Whether a set cell is carried to another row and another column.
    fn moves_a_set_cell(&self) -> bool {
        some_cell(&self.untouched, |row, cell| {
            row.0 != row.1 && cell.0 != cell.1 && is_set(&self.case.map_read, row.0, cell.0)
        })
    }

    /// Whether a cell is carried that is not as the base decides it.
    fn carries_a_wrong_cell(&self) -> bool {
        self.has_wrong_cell(&self.untouched)
    }

    /// Whether such a cell is decided anew because a path touches both of its tasks, and nothing else does.
    fn mends_a_wrong_cell(&self) -> bool {
        self.has_wrong_cell(&self.along_paths)
    }

    /// Whether the base map's cell of some two of these tasks is not as the base decides it.
    fn has_wrong_cell(&self, tasks: &[Places]) -> bool {
        let decided = true_map(&self.base);
        some_cell(tasks, |row, cell| {
            is_set(&decided, row.0, cell.0) != is_set(&self.case.map_read, row.0, cell.0)
        })
    }
}

/// The places of the tasks that are as asked, where both tables have them.
fn places_of(base: &Table, outcome: &Table, asked: &dyn Fn(u16) -> bool) -> Vec<Places> {
    let tasks = outcome.tasks.iter().enumerate();
    let places = tasks.filter_map(|(new, task)| {
        let old = base.place_of(task.id).filter(|_| asked(task.id))?;
        Some((old, new))
    });
    places.collect()
}

/// Whether the cell of some two of these tasks is as asked.
fn some_cell(tasks: &[Places], asked: impl Fn(Places, Places) -> bool) -> bool {
    tasks
        .iter()
        .any(|row| tasks.iter().any(|cell| asked(*row, *cell)))
}

/// Whether a table has a pair of tasks that the other has not.
fn has_further_pair(table: &Table, other: &Table) -> bool {
    let names = |pair: &Pair| (pair.first, pair.second);
    let listed: BTreeSet<(u16, u16)> = other.pairs.iter().map(names).collect();
    table
        .pairs
        .iter()
        .any(|pair| !listed.contains(&names(pair)))
}
