//! Lawful lists of releases by chance, from loose ones to those that press a plan hardest.

use crate::chance::Chance;
use crate::rules::plan::{Day, Length, Plan, Release};

/// How a string's later releases follow its first.
#[derive(Clone, Copy)]
enum Rhythm {
    /// Exactly T days apart.
    Tight,
    /// T days and some more.
    Loose,
    /// All strings alike, so that the order of the first releases comes again.
    Round(Length),
}

/// How long after their due days a string's releases come.
#[derive(Clone, Copy)]
enum Lateness {
    Never,
    /// As late as they may be.
    Always,
    /// The first as late as it may be, the others on their due days: so they come closest.
    First,
    Any,
}

/// How much work a job needs.
#[derive(Clone, Copy)]
enum Needs {
    Most,
    Any,
    Least,
}

/// Gives the plan a run length and a list of at most so many releases.
pub fn fill(chance: &mut Chance, plan: &mut Plan, most: usize) {
    plan.days = run_length(chance, plan);
    plan.releases = list(chance, plan, most);
}

fn run_length(chance: &mut Chance, plan: &Plan) -> Length {
    let longest = plan.largest_d();
    match chance.below(8) {
        0 => chance.between(1, 30),
        1 => chance.between(1, longest),
        2..=5 => chance.between(longest, 4 * longest + 20),
        6 => longest + plan.cycle().unwrap_or(1).min(3_000),
        _ => chance.between(1, 3_000),
    }
}

/// A lawful list for the plan's strings and its run length.
pub fn list(chance: &mut Chance, plan: &Plan, most: usize) -> Vec<Release> {
    let first = first_days(chance, plan);
    let rhythm = rhythm(chance, plan);
    let needs = chance.pick(&[Needs::Most, Needs::Most, Needs::Any, Needs::Least]);
    let lateness = lateness(chance);
    let latest = plan.strings.iter().map(|s| s.late).max().unwrap_or(0);
    let mut list = Vec::new();
    for (at, string) in plan.strings.iter().enumerate() {
        let mut due = match lateness {
            // those that come first are to come as they would on their due days
            Lateness::First => first[at] + latest - string.late,
            _ => first[at],
        };
        for before in 0..most {
            list.push(Release {
                place: at as u64 + 1,
                day: due + late(chance, lateness, string.late, before),
                need: need(chance, needs, string.c),
                due,
            });
            due += gap(chance, rhythm, string.t);
        }
    }
    list.retain(|release| release.day < plan.days);
    // Releases of one day may stand in any order.
    chance.shuffle(&mut list);
    list.sort_by_key(|release| release.day);
    list.truncate(most);
    list
}

/// Puts the first release of each string.
fn first_days(chance: &mut Chance, plan: &Plan) -> Vec<Day> {
    let start = chance.below(4);
    match chance.below(6) {
        0 => spread(chance, plan),
        1 => vec![start; plan.strings.len()],
        2 | 3 => blocker_first(chance, plan, start),
        4 => longest_first(chance, plan, start),
        _ => due_together(plan),
    }
}

fn spread(chance: &mut Chance, plan: &Plan) -> Vec<Day> {
    plan.strings
        .iter()
        .map(|string| chance.below(string.t + 1))
        .collect()
}

/// One string is a day ahead of a burst of all others.
fn blocker_first(chance: &mut Chance, plan: &Plan, start: Day) -> Vec<Day> {
    let mut first = vec![start + 1; plan.strings.len()];
    first[chance.index(plan.strings.len())] = start;
    first
}

/// The later a string is due, the earlier it comes: each one can take the bank from the last.
fn longest_first(chance: &mut Chance, plan: &Plan, start: Day) -> Vec<Day> {
    let step = chance.between(1, 3);
    plan.strings
        .iter()
        .map(|string| start + step * count_longer(plan, string.d))
        .collect()
}

fn count_longer(plan: &Plan, d: Length) -> u64 {
    plan.strings.iter().filter(|other| other.d > d).count() as u64
}

/// Different release days, one deadline day.
fn due_together(plan: &Plan) -> Vec<Day> {
    let longest = plan.largest_d();
    plan.strings
        .iter()
        .map(|string| longest - string.d)
        .collect()
}

fn rhythm(chance: &mut Chance, plan: &Plan) -> Rhythm {
    match chance.below(4) {
        0 | 1 => Rhythm::Tight,
        2 => Rhythm::Loose,
        _ => {
            let longest = plan.strings.iter().map(|s| s.t).max().unwrap_or(1);
            Rhythm::Round(longest + chance.below(3))
        }
    }
}

fn gap(chance: &mut Chance, rhythm: Rhythm, t: Length) -> Length {
    match rhythm {
        Rhythm::Tight => t,
        Rhythm::Loose => t + chance.below(t / 2 + 2),
        Rhythm::Round(length) => length,
    }
}

fn lateness(chance: &mut Chance) -> Lateness {
    chance.pick(&[
        Lateness::Never,
        Lateness::Always,
        Lateness::First,
        Lateness::First,
        Lateness::Any,
    ])
}

/// Of a string's release with so many before it.
fn late(chance: &mut Chance, lateness: Lateness, most: Length, before: usize) -> Length {
    match lateness {
        Lateness::Always => most,
        Lateness::First if before == 0 => most,
        Lateness::Never | Lateness::First => 0,
        Lateness::Any => chance.between(0, most),
    }
}

fn need(chance: &mut Chance, needs: Needs, c: Length) -> Length {
    match needs {
        Needs::Most => c,
        Needs::Any => chance.between(1, c),
        Needs::Least => 1,
    }
}
