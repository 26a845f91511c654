//! Precedence pairs: along an order of the tasks, so that none comes before itself, and in circles.

use std::collections::{BTreeMap, BTreeSet};

use crate::generate::random::Random;
use crate::generate::tables::{draw_pairs, table_of_shape, Shape};
use crate::precedence::Paths;
use crate::records::{Pair, PairSort};
use crate::table::Table;
use crate::verdict::MOST_PAIRS;

/// An order of tasks in groups; precedence pairs lead along it and stay in a group.
pub struct Order {
    ids: Vec<u16>,
    ranks: BTreeMap<u16, usize>,
    group: usize,
}

impl Order {
    /// An order of these tasks in groups of 2, 3 or 4, or of all of them.
    pub fn draw(random: &mut Random, ids: &[u16]) -> Order {
        let ids = shuffled(random, ids);
        Order {
            ranks: ids.iter().copied().zip(0..).collect(),
            group: random.pick(&[2, 3, 4, ids.len().max(1)]),
            ids,
        }
    }

    /// Whether a precedence pair may lead from the first task to the second.
    fn leads(&self, first: u16, second: u16) -> bool {
        let (first, second) = (self.ranks[&first], self.ranks[&second]);
        first < second && first / self.group == second / self.group
    }

    /// The first and the second task of a pair, in every second draw two of one group along the order.
    pub fn draw_names(&self, random: &mut Random) -> (u16, u16) {
        let (one, other) = (random.rank(self.ids.len()), random.pick(&self.ids));
        let first_of_group = one / self.group * self.group;
        let group = &self.ids[first_of_group..self.ids.len().min(first_of_group + self.group)];
        let mate = random.pick(group);
        match random.one_in(2) {
            true if self.leads(mate, self.ids[one]) => (mate, self.ids[one]),
            true => (self.ids[one], mate),
            false => (self.ids[one], other),
        }
    }

    /// The sort of a pair of these tasks: one-way where the order does not lead from the first to the second.
    pub fn draw_sort(&self, random: &mut Random, first: u16, second: u16) -> PairSort {
        match self.leads(first, second) && !random.one_in(3) {
            true => PairSort::Precedence,
            false => PairSort::OneWay,
        }
    }
}

/// These ids in an order by chance.
fn shuffled(random: &mut Random, ids: &[u16]) -> Vec<u16> {
    let mut ids = ids.to_vec();
    for rank in 0..ids.len() {
        ids.swap(rank, random.rank(rank + 1));
    }
    ids
}

fn precedence((first, second): (u16, u16)) -> Pair {
    Pair {
        sort: PairSort::Precedence,
        first,
        second,
    }
}

/// A table whose precedence pairs make a path, several paths or a branching order, every sixth of 64 tasks.
pub fn table_of_paths(random: &mut Random) -> Table {
    let tasks = match random.rank(6) {
        0 => 64,
        1 => random.count(10, 30),
        _ => random.count(3, 9),
    };
    let (mut table, ids) = table_without_pairs(random, tasks);
    let links = match random.rank(10) {
        0..=3 => path_through(&ids),
        4 | 5 if tasks == 64 => path_through(&ids),
        4..=6 => broken_path(random, &ids),
        7 => tree(random, &ids),
        8 => turned(tree(random, &ids)),
        _ => [tree(random, &ids), tree(random, &ids)].concat(),
    };
    table.pairs = links.into_iter().map(precedence).collect();
    make_some_one_way(random, &mut table);
    put_in_one_way_pairs(random, &mut table);
    in_order(table)
}

/// A table of so many tasks in up to four transactions, and the ids of the tasks in an order by chance.
fn table_without_pairs(random: &mut Random, tasks: usize) -> (Table, Vec<u16>) {
    let shape = Shape {
        transactions: random.count(1, 4),
        tasks,
        pairs: 0,
    };
    let table = table_of_shape(random, shape);
    let ids = shuffled(random, &ids_of(&table));
    (table, ids)
}

fn ids_of(table: &Table) -> Vec<u16> {
    table.tasks.iter().map(|task| task.id).collect()
}

/// The table with its pairs in table order, each listed once.
fn in_order(mut table: Table) -> Table {
    let mut met = BTreeSet::new();
    table
        .pairs
        .retain(|pair| met.insert((pair.first, pair.second)));
    Table::read(&table.records())
}

/// The names of a pair.
type Link = (u16, u16);

/// One path through these tasks in their order.
fn path_through(ids: &[u16]) -> Vec<Link> {
    ids.windows(2).map(|two| (two[0], two[1])).collect()
}

/// Several paths through these tasks in their order.
fn broken_path(random: &mut Random, ids: &[u16]) -> Vec<Link> {
    let mut links = path_through(ids);
    links.retain(|_| !random.one_in(4));
    links
}

/// For each task but the first one of those in front of it that leads to it, often one of the last two.
fn tree(random: &mut Random, ids: &[u16]) -> Vec<Link> {
    let leading = |rank: usize| match random.one_in(2) {
        true => random.rank(rank),
        false => rank - random.count(1, 2).min(rank),
    };
    let fronts: Vec<usize> = (1..ids.len()).map(leading).collect();
    let links = fronts.into_iter().zip(1..);
    links.map(|(front, rank)| (ids[front], ids[rank])).collect()
}

fn turned(links: Vec<Link>) -> Vec<Link> {
    let turn = |(first, second)| (second, first);
    links.into_iter().map(turn).collect()
}

/// In every third table, makes one-way pairs of some of the precedence pairs, so that a path ends there.
fn make_some_one_way(random: &mut Random, table: &mut Table) {
    if random.one_in(3) {
        for pair in table.pairs.iter_mut().filter(|_| random.one_in(6)) {
            pair.sort = PairSort::OneWay;
        }
    }
}

/// Puts up to 4 one-way pairs in, between any tasks.
fn put_in_one_way_pairs(random: &mut Random, table: &mut Table) {
    for _ in 0..random.count(0, 4) {
        put_in_one_way(random, table);
    }
}

/// Puts a one-way pair in, where the two tasks that are drawn for it have no pair.
fn put_in_one_way(random: &mut Random, table: &mut Table) {
    let ids = ids_of(table);
    let (first, second) = (random.pick(&ids), random.pick(&ids));
    let is_listed = |pair: &Pair| (pair.first, pair.second) == (first, second);
    if first != second && !table.pairs.iter().any(is_listed) {
        table.pairs.push(Pair {
            sort: PairSort::OneWay,
            first,
            second,
        });
    }
}

/// A table in which 2 to 6 tasks make a circle, with up to 3 tasks that lead into it and up to 3 behind it.
pub fn table_with_circle(random: &mut Random) -> Table {
    let tasks = match random.one_in(12) {
        true => 64,
        false => random.count(6, 16),
    };
    let (mut table, ids) = table_without_pairs(random, tasks);
    let (circle, others) = ids.split_at(random.count(2, 6));
    let (leading, others) = others.split_at(random.count(0, 3).min(others.len()));
    let (behind, others) = others.split_at(random.count(0, 3).min(others.len()));
    let way_in = [leading, &[random.pick(circle)]].concat();
    let way_out = [&[random.pick(circle)], behind].concat();
    let links = [
        around(circle),
        path_through(&way_in),
        path_through(&way_out),
    ]
    .concat();
    table.pairs = links.into_iter().map(precedence).collect();
    if others.len() >= 2 {
        table.pairs.extend(pairs_beside(random, others));
    }
    put_in_one_way_pairs(random, &mut table);
    in_order(table)
}

/// A circle through these tasks.
fn around(ids: &[u16]) -> Vec<Link> {
    let back = (ids[ids.len() - 1], ids[0]);
    let mut links = path_through(ids);
    links.push(back);
    links
}

/// Pairs of the tasks that are no part of a circle, sometimes a circle of their own.
fn pairs_beside(random: &mut Random, others: &[u16]) -> Vec<Pair> {
    match random.one_in(5) {
        true => around(&others[..2]).into_iter().map(precedence).collect(),
        false => {
            let count = random.count(0, 4);
            draw_pairs(random, others, count)
        }
    }
}

/// Closes a circle in the table, where it has two tasks: mostly by one pair that leads back along a path, and
/// else by a circle of 2 to 6 tasks.
pub fn close_a_circle(random: &mut Random, table: &mut Table) {
    let ids = ids_of(table);
    let paths = Paths::along(&table.pairs);
    let all_pairs = ids
        .iter()
        .flat_map(|one| ids.iter().map(|two| (*one, *two)));
    let led: Vec<Link> = all_pairs
        .filter(|(first, second)| paths.lead(*first, *second))
        .collect();
    let links = match led.is_empty() || random.one_in(4) {
        true if ids.len() < 2 => return,
        true => {
            let most = ids.len().min(6);
            around(&shuffled(random, &ids)[..random.count(2, most)])
        }
        false => turned(vec![random.pick(&led)]),
    };
    table
        .pairs
        .retain(|pair| !links.contains(&(pair.first, pair.second)));
    table.pairs.extend(links.into_iter().map(precedence));
}

/// Puts a precedence pair in, mostly one that makes a path of two.
pub fn put_in_precedence(random: &mut Random, table: &mut Table) {
    let ids = ids_of(table);
    let paths = Paths::along(&table.pairs);
    let is_on_path = |id: &u16| !paths.joined_to(*id).is_empty();
    let on_paths: Vec<u16> = ids.iter().copied().filter(is_on_path).collect();
    let candidates: Vec<Link> = path_of(random, &on_paths, on_paths.len());
    let is_unjoined = |(first, second): &Link| !paths.join(*first, *second);
    let joining = candidates
        .into_iter()
        .find(is_unjoined)
        .filter(|_| !random.one_in(3));
    match joining {
        Some(link) => put_in_links(table, &[link]),
        None => put_in_links(table, &path_of(random, &ids, 2)),
    }
}

/// Puts a path of 3 to 6 tasks in.
pub fn put_in_path(random: &mut Random, table: &mut Table) {
    let ids = ids_of(table);
    let tasks = random.count(3, 6);
    put_in_links(table, &path_of(random, &ids, tasks));
}

/// A path through so many of these tasks, or through fewer where there are not so many.
fn path_of(random: &mut Random, ids: &[u16], tasks: usize) -> Vec<Link> {
    let chosen = shuffled(random, ids);
    path_through(&chosen[..tasks.min(ids.len())])
}

/// Puts precedence pairs in that are not listed and leave room, each turned round where a path leads back.
fn put_in_links(table: &mut Table, links: &[Link]) {
    for (first, second) in links.iter().copied() {
        let leads_back = Paths::along(&table.pairs).lead(second, first);
        let names = match leads_back {
            true => (second, first),
            false => (first, second),
        };
        let mut listed = table.pairs.iter().map(|pair| (pair.first, pair.second));
        if table.pairs.len() < MOST_PAIRS && !listed.any(|link| link == names) {
            table.pairs.push(precedence(names));
        }
    }
}

/// Puts a one-way pair in, or takes one out.
pub fn change_one_way(random: &mut Random, table: &mut Table) {
    let is_one_way = |rank: &usize| table.pairs[*rank].sort == PairSort::OneWay;
    let ranks: Vec<usize> = (0..table.pairs.len()).filter(is_one_way).collect();
    if !ranks.is_empty() && random.one_in(2) {
        table.pairs.remove(random.pick(&ranks));
    } else if table.tasks.len() >= 2 && table.pairs.len() < MOST_PAIRS {
        put_in_one_way(random, table);
    }
}

/// Takes a precedence pair out.
pub fn take_out_precedence(random: &mut Random, table: &mut Table) {
    if let Some(rank) = some_precedence(random, table) {
        table.pairs.remove(rank);
    }
}

/// Turns a precedence pair round, and with it a one-way pair of the same tasks the other way.
pub fn turn_precedence(random: &mut Random, table: &mut Table) {
    if let Some(rank) = some_precedence(random, table) {
        let (first, second) = (table.pairs[rank].first, table.pairs[rank].second);
        for pair in &mut table.pairs {
            if [(first, second), (second, first)].contains(&(pair.first, pair.second)) {
                (pair.first, pair.second) = (pair.second, pair.first);
            }
        }
    }
}

/// The rank of a precedence pair among the pairs, if there is one.
fn some_precedence(random: &mut Random, table: &Table) -> Option<usize> {
    let is_precedence = |rank: &usize| table.pairs[*rank].sort == PairSort::Precedence;
    let ranks: Vec<usize> = (0..table.pairs.len()).filter(is_precedence).collect();
    (!ranks.is_empty()).then(|| random.pick(&ranks))
}
