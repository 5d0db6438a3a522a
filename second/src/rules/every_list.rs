//! Whether any lawful list of releases makes a plan miss, however long it is: all states that a run can come into are looked at. Only for
//! small plans.

use super::plan::{BatteryString, Day, Length, Plan, Release};
use super::run::{job, Hall, Policy};
use std::collections::HashSet;

/// The morning of a day: the jobs, and the days since each string's last due day, counted no further than matters.
#[derive(Clone, PartialEq, Eq, Hash)]
struct Morning {
    hall: Hall,
    since: Vec<Length>,
}

/// A string's release today: its work, and the days since it was due.
#[derive(Clone, Copy)]
struct Join {
    need: Length,
    late: Length,
}

/// Every morning is that of this day: the jobs' days are moved instead, so that there are finitely many mornings.
const TODAY: Day = 1_000_000;

/// Jobs of different lists are the same job here.
const IN_NO_LIST: usize = 0;

/// Some list of releases misses.
pub fn can_miss(plan: &Plan) -> bool {
    can_miss_by(Policy::default(), plan)
}

pub fn can_miss_by(policy: Policy, plan: &Plan) -> bool {
    let first = Morning {
        hall: Hall::empty(),
        since: plan.strings.iter().map(far_enough).collect(),
    };
    let mut seen = HashSet::from([first.clone()]);
    let mut open = vec![first];
    while let Some(morning) = open.pop() {
        if morning.hall.late(TODAY).is_some() {
            return true;
        }
        for joins in all_joins(plan, &morning.since) {
            let next = after(policy, plan, &morning, &joins);
            if seen.insert(next.clone()) {
                open.push(next);
            }
        }
    }
    false
}

/// So many days after its last due day a string may be released whatever its late days are.
fn far_enough(string: &BatteryString) -> Length {
    string.t + string.late
}

/// Every choice of what is released today, for each string something or nothing.
fn all_joins(plan: &Plan, since: &[Length]) -> Vec<Vec<Option<Join>>> {
    let mut choices = vec![Vec::new()];
    for (string, since) in plan.strings.iter().zip(since) {
        let ways = ways(string, *since);
        let longer = |begin: &Vec<Option<Join>>| {
            let begin = begin.clone();
            let with = move |way: &Option<Join>| [begin.as_slice(), &[*way]].concat();
            ways.iter().map(with).collect::<Vec<_>>()
        };
        choices = choices.iter().flat_map(longer).collect();
    }
    choices
}

/// No release, or one of any need whose due day is at least T days after the last.
fn ways(string: &BatteryString, since: Length) -> Vec<Option<Join>> {
    let mut ways = vec![None];
    for late in (0..=string.late).filter(|late| since >= string.t + late) {
        ways.extend((1..=string.c).map(|need| Some(Join { need, late })));
    }
    ways
}

/// The next morning.
fn after(policy: Policy, plan: &Plan, morning: &Morning, joins: &[Option<Join>]) -> Morning {
    let mut next = morning.clone();
    for (at, join) in joins.iter().enumerate() {
        if let Some(Join { need, late }) = *join {
            let release = Release {
                due: TODAY - late,
                ..Release::new(at as u64 + 1, TODAY, need)
            };
            next.hall.waiting.push(job(plan, &release, IN_NO_LIST));
            next.since[at] = late;
        }
    }
    next.hall.take_and_give(policy, TODAY, plan);
    next.hall.use_day();
    next.hall.move_back_a_day();
    for (since, string) in next.since.iter_mut().zip(&plan.strings) {
        *since = far_enough(string).min(*since + 1);
    }
    next
}
