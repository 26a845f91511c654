//! Which task comes before which: where paths of precedence pairs lead, and whom the pairs keep apart.

use std::collections::{BTreeMap, BTreeSet};

use crate::records::{Pair, PairSort};

/// The tasks that stand second in a precedence pair, by the task that stands first.
type Followers = BTreeMap<u16, Vec<u16>>;

/// The tasks to which a path of one or more precedence pairs leads, by the task that it starts from.
#[derive(Clone, PartialEq, Eq, Debug, Default)]
pub struct Paths {
    after: BTreeMap<u16, BTreeSet<u16>>,
}

impl Paths {
    /// The paths along these pairs, of which one-way pairs are no part.
    pub fn along(pairs: &[Pair]) -> Paths {
        let followers = followers_in(pairs);
        let starts = followers.keys();
        Paths {
            after: starts.map(|id| (*id, met_from(*id, &followers))).collect(),
        }
    }

    /// The tasks that this one comes before.
    fn after(&self, id: u16) -> impl Iterator<Item = u16> + '_ {
        self.after.get(&id).into_iter().flatten().copied()
    }

    /// Whether the first task comes before the second.
    pub fn lead(&self, first: u16, second: u16) -> bool {
        let after = self.after.get(&first);
        after.is_some_and(|after| after.contains(&second))
    }

    /// Whether one of the two tasks comes before the other.
    pub fn join(&self, one: u16, other: u16) -> bool {
        self.lead(one, other) || self.lead(other, one)
    }

    /// The tasks that come before this one or after it.
    pub fn joined_to(&self, id: u16) -> BTreeSet<u16> {
        let starts = self.after.keys().copied();
        let before = starts.filter(|first| self.lead(*first, id));
        before.chain(self.after(id)).collect()
    }

    /// The tasks that come before themselves, lowest first.
    pub fn circular(&self) -> impl Iterator<Item = u16> + '_ {
        let starts = self.after.keys().copied();
        starts.filter(|id| self.lead(*id, *id))
    }
}

fn followers_in(pairs: &[Pair]) -> Followers {
    let mut followers = Followers::new();
    let is_precedence = |pair: &&Pair| pair.sort == PairSort::Precedence;
    for pair in pairs.iter().filter(is_precedence) {
        followers.entry(pair.first).or_default().push(pair.second);
    }
    followers
}

/// The tasks that a walk from this one meets, which goes on from each task when it is first met.
fn met_from(start: u16, followers: &Followers) -> BTreeSet<u16> {
    let followers_of = |id: u16| followers.get(&id).into_iter().flatten().copied();
    let mut met = BTreeSet::new();
    let mut to_visit: Vec<u16> = followers_of(start).collect();
    while let Some(id) = to_visit.pop() {
        if met.insert(id) {
            to_visit.extend(followers_of(id));
        }
    }
    met
}

/// Which preemptions the pairs of a table forbid.
pub struct Bars<'table> {
    pairs: &'table [Pair],
    paths: Paths,
}

impl Bars<'_> {
    /// What these pairs forbid.
    pub fn of(pairs: &[Pair]) -> Bars<'_> {
        Bars {
            pairs,
            paths: Paths::along(pairs),
        }
    }

    /// Whether `lower` may not be preempted by `upper`: a pair that names both forbids it, or one of them
    /// comes before the other.
    pub fn forbid(&self, lower: u16, upper: u16) -> bool {
        let mut pairs = self.pairs.iter();
        pairs.any(|pair| pair.forbids(lower, upper)) || self.paths.join(lower, upper)
    }
}
