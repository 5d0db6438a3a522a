//! The sharp rule.
//!
//! The job that blocks, of a string q, has its deadline after the interval, and so has every later job of q: from the day on which it got
//! the bank none of them counts. The rule counts q's jobs all the same where q has late days, so it asks for more than it must. Where the
//! demand without q's own jobs is nowhere too much, no list misses. Where it is too much even with free moving, a list does.

use crate::rules::plan::{Length, Plan};
use crate::rules::rule::jobs;

/// The same plan, moving free.
pub fn freely(plan: &Plan) -> Plan {
    let mut free = plan.clone();
    free.set_moving(0);
    free
}

/// Where the demand without the blocker's own jobs is too much.
#[derive(Clone, Copy)]
pub struct Break {
    interval: Length,
    blocking: Length,
    /// The string that blocks, by its place counted from 0; nobody where the blocking is 0.
    blocker: Option<usize>,
}

/// All breaks of the first pair, an interval and a blocking, that has any. A load over H counts for nothing by itself here: such a plan
/// breaks at some pair too.
pub fn sharp_breaks(plan: &Plan, cycle: Length) -> Vec<Break> {
    let pairs = (1..plan.largest_d() + cycle)
        .flat_map(|interval| (0..=longest_blocking(plan, interval)).map(move |b| (interval, b)));
    let breaks = pairs.map(|(interval, blocking)| breaks_at(plan, interval, blocking));
    breaks
        .into_iter()
        .find(|breaks| !breaks.is_empty())
        .unwrap_or_default()
}

/// Where a list makes the plan miss, whatever moving costs: the breaks with free moving.
pub fn free_breaks(plan: &Plan, cycle: Length) -> Vec<Break> {
    sharp_breaks(&freely(plan), cycle)
}

pub fn passes_sharply(plan: &Plan, cycle: Length) -> bool {
    sharp_breaks(plan, cycle).is_empty()
}

/// A job that is due later blocks for a day less than it can hold the bank, and no longer than the interval.
fn longest_blocking(plan: &Plan, interval: Length) -> Length {
    let later = plan.strings.iter().filter(|string| string.d > interval);
    let longest = later.map(|string| plan.hold(string) - 1).max();
    longest.map_or(0, |days| days.min(interval))
}

fn breaks_at(plan: &Plan, interval: Length, blocking: Length) -> Vec<Break> {
    let blocker = |at: usize| {
        let string = &plan.strings[at];
        string.d > interval && plan.hold(string) > blocking
    };
    let blockers: Vec<Option<usize>> = match blocking {
        0 => vec![None],
        _ => (0..plan.strings.len())
            .filter(|at| blocker(*at))
            .map(Some)
            .collect(),
    };
    let all = blockers.into_iter().map(|blocker| Break {
        interval,
        blocking,
        blocker,
    });
    all.filter(|one| one.demand(plan) > interval).collect()
}

impl Break {
    /// The jobs that every string but the blocker can have released and due in the interval, those of takers once the blocking is over.
    fn counts<'a>(&'a self, plan: &'a Plan) -> impl Iterator<Item = (u64, Length)> + 'a {
        let others = plan
            .strings
            .iter()
            .enumerate()
            .filter(move |(at, _)| Some(*at) != self.blocker);
        others.map(move |(_, string)| {
            let window = self.interval - self.blocking * string.x;
            (jobs(string, window), plan.hold(string))
        })
    }

    fn demand(&self, plan: &Plan) -> Length {
        let work: Length = self.counts(plan).map(|(count, hold)| count * hold).sum();
        self.blocking + work
    }

    /// The releases of the list that misses there: one that blocks, and those jobs.
    pub fn releases(&self, plan: &Plan) -> u64 {
        let others: u64 = self.counts(plan).map(|(count, _)| count).sum();
        self.blocking.min(1) + others
    }
}
