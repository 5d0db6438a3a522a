//! What a plan file gives where a mistake is made that planners make: the wrong answer is computed, never typed.

use crate::rules::answer::Answer;
use crate::rules::frames::read;
use crate::rules::plan::{BatteryString, Length, Plan};
use crate::rules::rule::{blocking_limit, demand_by, passes_by, verdict_by, Rule, PAGE};
use crate::rules::run::{run_by, Policy};
use crate::rules::search::search_by;
use std::str::FromStr;

/// The mistakes of document 01, "Where planners go wrong", and those of plans/LESSONS.md.
#[derive(Clone, Copy, PartialEq)]
pub enum Mistake {
    /// Equation 7 as printed: the blocker's work alone.
    Equation7,
    /// The source's Algorithm 3.
    OneByOne,
    /// The largest D is the last interval.
    StopAtDmax,
    /// A load of exactly H is taken for an overload.
    LoadEqualToH,
    StartEarly,
    StoppedPays,
    /// Seven days are compared.
    OneWeek,
    /// X is read as "may be interrupted".
    WhoIsInterrupted,
}

/// Each with its name and what is done instead of what the page says.
const NAMES: [(&str, Mistake, &str); 8] = [
    (
        "equation-7",
        Mistake::Equation7,
        "the blocker's C in place of its E - 1",
    ),
    (
        "one-by-one",
        Mistake::OneByOne,
        "permissions switched on one by one in place of the search",
    ),
    (
        "stop-at-dmax",
        Mistake::StopAtDmax,
        "intervals compared up to the largest D",
    ),
    (
        "load-equal-to-h",
        Mistake::LoadEqualToH,
        "a load of exactly H taken for an overload",
    ),
    (
        "start-early",
        Mistake::StartEarly,
        "a job started before the day's other releases have joined",
    ),
    (
        "stopped-pays",
        Mistake::StoppedPays,
        "the moving charged to the job that was stopped",
    ),
    (
        "one-week",
        Mistake::OneWeek,
        "one week of intervals compared",
    ),
    (
        "who-is-interrupted",
        Mistake::WhoIsInterrupted,
        "X read as who may be interrupted",
    ),
];

const WEEK: Length = 7;

impl FromStr for Mistake {
    type Err = ();

    fn from_str(word: &str) -> Result<Mistake, ()> {
        let found = NAMES.iter().find(|(name, ..)| *name == word);
        found.map(|(_, mistake, _)| *mistake).ok_or(())
    }
}

/// A line for each mistake.
pub fn listed() -> String {
    let line = |(name, _, what): &(&str, Mistake, &str)| format!("{name:20}{what}\n");
    NAMES.iter().map(line).collect()
}

/// The three lines with the mistake in them; a refusal is the same.
pub fn answer(mistake: Mistake, text: &[u8]) -> Answer {
    match read(text) {
        Ok(plan) => answer_for(mistake, &plan),
        Err(refusal) => Answer::Refused(refusal),
    }
}

fn answer_for(mistake: Mistake, plan: &Plan) -> Answer {
    let cycle = plan.cycle().expect("a plan that was read has H in bounds");
    let rule = rule(mistake);
    let set = if mistake == Mistake::OneByOne {
        switched_on(&rule, plan, cycle)
    } else {
        search_by(&rule, plan, cycle)
    };
    Answer::Given {
        verdict: verdict_by(&rule, plan, cycle),
        set,
        outcome: run_by(policy(mistake), plan),
    }
}

pub fn policy(mistake: Mistake) -> Policy {
    Policy {
        starts_early: mistake == Mistake::StartEarly,
        stopped_pays: mistake == Mistake::StoppedPays,
        x_is_interrupted: mistake == Mistake::WhoIsInterrupted,
    }
}

pub fn rule(mistake: Mistake) -> Rule {
    match mistake {
        Mistake::Equation7 => Rule {
            blocker: |_, string| string.c,
            ..PAGE
        },
        Mistake::StopAtDmax => Rule {
            last: |plan, _| plan.largest_d(),
            ..PAGE
        },
        Mistake::LoadEqualToH => Rule {
            overloaded: |load, cycle| load >= cycle,
            ..PAGE
        },
        Mistake::OneWeek => Rule {
            last: |_, _| WEEK,
            ..PAGE
        },
        Mistake::WhoIsInterrupted => Rule {
            hold: held_where_others_give_way,
            // who blocks cannot be interrupted, whoever comes
            comes_after: |_| false,
            blocker: |plan, string| match string.x {
                1 => 0,
                _ => held_where_others_give_way(plan, string) - 1,
            },
            ..PAGE
        },
        Mistake::OneByOne | Mistake::StartEarly | Mistake::StoppedPays => PAGE,
    }
}

/// E to whoever reads X as "may be interrupted": a string moves where some string that can be due later gives way. One that comes
/// late has fewer days left.
fn held_where_others_give_way(plan: &Plan, string: &BatteryString) -> Length {
    let soonest = string.d - string.late;
    let gives_way = |other: &BatteryString| other.x == 1 && other.d > soonest;
    if plan.strings.iter().any(gives_way) {
        string.c + string.moving
    } else {
        string.c
    }
}

/// Algorithm 3: the strings by rising D; whenever the rule breaks from the k-th D up to the next, the k-th and those before
/// it are given permission, the latest first, as long as it breaks. What is on stays on.
pub fn switched_on(rule: &Rule, plan: &Plan, cycle: Length) -> Option<u32> {
    let mut order: Vec<usize> = (0..plan.strings.len()).collect();
    order.sort_by_key(|at| plan.strings[*at].d);
    let mut set = 0;
    for k in 0..order.len() - 1 {
        let (from, to) = (plan.strings[order[k]].d, plan.strings[order[k + 1]].d);
        for &at in order[..=k].iter().rev() {
            if set >> at & 1 == 1 || !breaks_between(rule, &plan.with_set(set), from, to) {
                break;
            }
            set |= 1 << at;
        }
    }
    passes_by(rule, &plan.with_set(set), cycle).then(|| set)
}

fn breaks_between(rule: &Rule, plan: &Plan, from: Length, to: Length) -> bool {
    (from..to).any(|interval| {
        (0..=blocking_limit(rule, plan, interval))
            .any(|blocking| demand_by(rule, plan, interval, blocking) > interval)
    })
}
