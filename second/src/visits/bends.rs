//! Lists bent: a record, or the list, is no longer as it was. Often a rule is broken by it, sometimes just not.

use super::Visit;
use crate::chance::Chance;
use crate::rules::plan::{Day, Plan, Release};

/// What is done to any one record.
const OF_A_RECORD: [fn(&mut Chance, &Plan, &mut Visit); 12] = [
    |chance, _, visit| visit.first = shifted(chance, visit.first, 2),
    |chance, _, visit| visit.first = shifted(chance, visit.first, 500),
    |chance, _, visit| visit.length = shifted(chance, visit.length, 1),
    |chance, _, visit| visit.length = shifted(chance, visit.length, 500),
    |_, _, visit| visit.length = 0,
    of_no_release,
    |chance, plan, visit| visit.release = any_release(chance, plan),
    about_the_deadline,
    stretched_about_the_deadline,
    about_the_release_day,
    a_number_at_an_edge,
    both_days_at_an_edge,
];

/// What is done to the list.
const OF_THE_LIST: [fn(&mut Chance, &Plan, &mut Vec<Visit>); 14] = [
    split_so_that_it_touches,
    split_apart,
    shared_with_another,
    twice,
    again_at_the_end,
    |chance, _, visits| swap_neighbours(chance, visits),
    |chance, _, visits| swap_any_two(chance, visits),
    |chance, _, visits| exchange_releases(chance, visits),
    |chance, _, visits| begin_about_the_one_before(chance, visits),
    one_missing,
    release_without_visits,
    one_more,
    |chance, _, visits| chance.shuffle(visits),
    |_, _, visits| visits.reverse(),
];

/// One or two of them, now and then all records gone.
pub fn bend(chance: &mut Chance, plan: &Plan, visits: &mut Vec<Visit>) {
    bend_once(chance, plan, visits);
    if chance.one_in(3) {
        bend_once(chance, plan, visits);
    }
    if chance.one_in(40) {
        visits.clear();
    }
}

fn bend_once(chance: &mut Chance, plan: &Plan, visits: &mut Vec<Visit>) {
    let way = chance.index(OF_A_RECORD.len() + OF_THE_LIST.len());
    match OF_A_RECORD.get(way) {
        Some(change) => {
            if let Some(at) = any(chance, visits) {
                change(chance, plan, &mut visits[at]);
            }
        }
        None => OF_THE_LIST[way - OF_A_RECORD.len()](chance, plan, visits),
    }
}

/// Any record of a list that has one, by its place counted from 0.
fn any(chance: &mut Chance, visits: &[Visit]) -> Option<usize> {
    match visits.len() {
        0 => None,
        count => Some(chance.index(count)),
    }
}

/// Up to so much more or less, and not below 0.
fn shifted(chance: &mut Chance, number: u64, most: u64) -> u64 {
    let by = chance.between(1, most);
    if chance.one_in(2) {
        number + by
    } else {
        number.saturating_sub(by)
    }
}

/// That day, the day before it or the day after.
fn about(chance: &mut Chance, day: Day) -> Day {
    (day + chance.below(3)).saturating_sub(1)
}

/// Any release of the plan; where it has none, one that is not listed.
fn any_release(chance: &mut Chance, plan: &Plan) -> u64 {
    chance.between(1, plan.releases.len().max(1) as u64)
}

/// The release that a record names, if it is listed.
fn named<'a>(plan: &'a Plan, visit: &Visit) -> Option<&'a Release> {
    plan.releases.get((visit.release as usize).checked_sub(1)?)
}

/// The moving that a visit after the first asks for.
fn cost(plan: &Plan, visit: &Visit) -> u64 {
    named(plan, visit).map_or(0, |release| plan.string_of(release).moving)
}

fn of_no_release(chance: &mut Chance, plan: &Plan, visit: &mut Visit) {
    let count = plan.releases.len() as u64;
    visit.release = chance.pick(&[0, count + 1, count + 256, 65_536 + count, 9_999_999]);
}

/// It ends with the day before the deadline, or a day about that.
fn about_the_deadline(chance: &mut Chance, plan: &Plan, visit: &mut Visit) {
    if let Some(release) = named(plan, visit) {
        let end = about(chance, plan.deadline(release));
        visit.first = end.saturating_sub(visit.length);
    }
}

/// The same, by its length.
fn stretched_about_the_deadline(chance: &mut Chance, plan: &Plan, visit: &mut Visit) {
    if let Some(release) = named(plan, visit) {
        let end = about(chance, plan.deadline(release));
        visit.length = end.saturating_sub(visit.first);
    }
}

fn about_the_release_day(chance: &mut Chance, plan: &Plan, visit: &mut Visit) {
    if let Some(release) = named(plan, visit) {
        visit.first = about(chance, release.day);
    }
}

/// The least and the most that seven digits say, where machines' numbers end, and the run's days.
fn edge(chance: &mut Chance, plan: &Plan) -> u64 {
    let edges = [
        0, 1, 255, 256, 65_535, 65_536, plan.days, 9_999_998, 9_999_999,
    ];
    chance.pick(&edges)
}

fn a_number_at_an_edge(chance: &mut Chance, plan: &Plan, visit: &mut Visit) {
    let value = edge(chance, plan);
    match chance.below(3) {
        0 => visit.release = value,
        1 => visit.first = value,
        _ => visit.length = value,
    }
}

/// They add up to more than seven digits say.
fn both_days_at_an_edge(chance: &mut Chance, plan: &Plan, visit: &mut Visit) {
    visit.first = edge(chance, plan);
    visit.length = 9_999_999 - chance.below(2);
}

/// A record of two days or more in two parts; the second begins so many days after the first, and pays its moving or does not. The
/// place of the second.
fn split(chance: &mut Chance, plan: &Plan, visits: &mut Vec<Visit>, gap: u64) -> Option<usize> {
    let long: Vec<usize> = (0..visits.len())
        .filter(|at| visits[*at].length > 1)
        .collect();
    if long.is_empty() {
        return None;
    }
    let at = chance.pick(&long);
    let kept = chance.between(1, visits[at].length - 1);
    let paid = if chance.one_in(4) {
        0
    } else {
        cost(plan, &visits[at])
    };
    let rest = Visit {
        first: visits[at].first + kept + gap,
        length: visits[at].length - kept + paid,
        ..visits[at]
    };
    visits[at].length = kept;
    visits.insert(at + 1, rest);
    Some(at + 1)
}

fn split_so_that_it_touches(chance: &mut Chance, plan: &Plan, visits: &mut Vec<Visit>) {
    split(chance, plan, visits, 0);
}

/// Accepted where there is room behind the record.
fn split_apart(chance: &mut Chance, plan: &Plan, visits: &mut Vec<Visit>) {
    let gap = chance.between(1, 2);
    split(chance, plan, visits, gap);
}

/// A day between the two parts goes to any release.
fn shared_with_another(chance: &mut Chance, plan: &Plan, visits: &mut Vec<Visit>) {
    if let Some(at) = split(chance, plan, visits, 1) {
        let visit = Visit {
            release: any_release(chance, plan),
            first: visits[at - 1].end(),
            length: 1,
        };
        visits.insert(at, visit);
    }
}

fn twice(chance: &mut Chance, _: &Plan, visits: &mut Vec<Visit>) {
    if let Some(at) = any(chance, visits) {
        visits.insert(at, visits[at].clone());
    }
}

fn again_at_the_end(chance: &mut Chance, _: &Plan, visits: &mut Vec<Visit>) {
    if let Some(at) = any(chance, visits) {
        visits.push(visits[at].clone());
    }
}

fn swap_neighbours(chance: &mut Chance, visits: &mut [Visit]) {
    if visits.len() > 1 {
        let at = chance.index(visits.len() - 1);
        visits.swap(at, at + 1);
    }
}

fn swap_any_two(chance: &mut Chance, visits: &mut [Visit]) {
    if let (Some(one), Some(other)) = (any(chance, visits), any(chance, visits)) {
        visits.swap(one, other);
    }
}

fn exchange_releases(chance: &mut Chance, visits: &mut [Visit]) {
    if let (Some(one), Some(other)) = (any(chance, visits), any(chance, visits)) {
        let release = visits[one].release;
        visits[one].release = visits[other].release;
        visits[other].release = release;
    }
}

fn begin_about_the_one_before(chance: &mut Chance, visits: &mut [Visit]) {
    if visits.len() > 1 {
        let at = 1 + chance.index(visits.len() - 1);
        visits[at].first = about(chance, visits[at - 1].end());
    }
}

fn one_missing(chance: &mut Chance, _: &Plan, visits: &mut Vec<Visit>) {
    if let Some(at) = any(chance, visits) {
        visits.remove(at);
    }
}

fn release_without_visits(chance: &mut Chance, _: &Plan, visits: &mut Vec<Visit>) {
    if let Some(at) = any(chance, visits) {
        let release = visits[at].release;
        visits.retain(|visit| visit.release != release);
    }
}

/// In day order, more often than not.
fn one_more(chance: &mut Chance, plan: &Plan, visits: &mut Vec<Visit>) {
    let visit = Visit {
        release: any_release(chance, plan),
        first: chance.below(plan.days),
        length: chance.between(1, 3),
    };
    let to = if chance.one_in(4) {
        chance.index(visits.len() + 1)
    } else {
        visits.partition_point(|other| other.first <= visit.first)
    };
    visits.insert(to, visit);
}
