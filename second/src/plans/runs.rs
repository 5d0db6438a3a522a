//! Plans whose run is worth telling day by day, and which kind of them comes when.

use super::shaped::contrast;
use super::strings::{draw_moving, mixed, with_permissions};
use super::{far, releases, takings};
use crate::chance::Chance;
use crate::mix::{self, kind, Kind, Made};
use crate::rules::plan::{BatteryString, Day, Length, Plan, Release, RUN};
use crate::rules::run::{run, Outcome};
use crate::writing;

const RUNS: [Kind; 11] = [
    kind!("any kind", 250, any_kind),
    kind!("many releases", 80, many_releases),
    kind!("back to back", 80, back_to_back),
    kind!("no release", 50, no_release),
    kind!("a miss about the end", 150, miss_about_the_end),
    kind!("long run", 10, long_run),
    kind!("stairs of takers", 130, stairs),
    kind!("takers among long jobs", 120, takers),
    kind!("payer waits", 40, payer_waits),
    kind!("takers tie", 40, takers_tie),
    kind!("short run", 50, short_run),
];

/// The file of this number under this seed.
pub fn make(seed: u64, file: u64) -> Made {
    mix::make_of(&RUNS, seed, file)
}

/// Whatever the desk is asked about, refused files among it.
pub fn any_kind(chance: &mut Chance, turn: u64) -> Vec<u8> {
    mix::make(chance.below(1 << 32), turn).text
}

/// Up to as many releases as a list may have; most often so that the run gets to its end.
fn many_releases(chance: &mut Chance, turn: u64) -> Vec<u8> {
    let mut plan = mixed(chance, 6, 100_000);
    plan.days = chance.between(500, 20_000);
    plan.releases = releases::list(chance, &plan, 1_000);
    if turn % 4 > 0 {
        ease(&mut plan);
    }
    writing::any_text(chance, &plan)
}

/// Less work and less moving until the run is clean, or until there is nothing more to be had.
fn ease(plan: &mut Plan) {
    while matches!(run(plan), Outcome::Miss { .. }) && is_hard(plan) {
        for release in &mut plan.releases {
            release.need = (release.need + 1) / 2;
        }
        for string in &mut plan.strings {
            string.moving /= 2;
        }
    }
}

fn is_hard(plan: &Plan) -> bool {
    let works = plan.releases.iter().any(|release| release.need > 1);
    works || plan.strings.iter().any(|string| string.moving > 0)
}

/// One to three strings that leave the bank no idle day: a release begins where the last one, often of the same string, ends.
pub fn back_to_back(chance: &mut Chance, _: u64) -> Vec<u8> {
    let (count, base) = (chance.between(1, 3), chance.between(1, 4));
    let t = count * base;
    let strings = (0..count)
        .map(|_| BatteryString::plain(t, base, t))
        .collect();
    let mut plan = with_permissions(chance, strings);
    plan.days = chance.between(1, 400);
    // one in four has a job shorter, and with it a day idle
    let shorter = chance.one_in(4);
    for (day, at) in (0..plan.days).step_by(base as usize).zip(0..1_000) {
        let need = if shorter && chance.one_in(8) { 1 } else { base };
        plan.releases.push(Release::new(at % count + 1, day, need));
    }
    writing::any_text(chance, &plan)
}

/// Idle on every day, for numbers of each count of digits.
fn no_release(chance: &mut Chance, turn: u64) -> Vec<u8> {
    const DAYS: [Length; 12] = [
        1, 2, 9, 10, 11, 100, 101, 1_000, 10_000, 100_001, 999_999, 1_000_000,
    ];
    let mut plan = mixed(chance, 4, 20_000);
    plan.days = match DAYS.get(turn as usize % 16) {
        Some(days) => *days,
        None => chance.between(*RUN.start(), *RUN.end()),
    };
    writing::any_text(chance, &plan)
}

/// By turns the run ends a day before a miss would come, on its day, and a day later: in the first case it is clean, in the second
/// the miss is found after the last day.
pub fn miss_about_the_end(chance: &mut Chance, turn: u64) -> Vec<u8> {
    let (mut plan, day) = missing(chance);
    plan.days = (day + turn % 3).saturating_sub(1).max(1);
    let days = plan.days;
    plan.releases.retain(|release| release.day < days);
    writing::any_text(chance, &plan)
}

/// A plan with releases that miss, and the day of it.
pub fn missing(chance: &mut Chance) -> (Plan, Day) {
    loop {
        let mut plan = if chance.one_in(2) {
            contrast(chance)
        } else {
            mixed(chance, 6, 100_000)
        };
        let most = chance.between(2, 60) as usize;
        releases::fill(chance, &mut plan, most);
        if let Outcome::Miss { day, .. } = run(&plan) {
            return (plan, day);
        }
    }
}

fn long_run(chance: &mut Chance, _: u64) -> Vec<u8> {
    let plan = far::long_run(chance);
    writing::any_text(chance, &plan)
}

/// Each string is due before the one that came ahead of it, and takes the bank from it, often while that is still moving.
pub fn stairs(chance: &mut Chance, _: u64) -> Vec<u8> {
    let count = chance.between(2, 10);
    let gap = chance.between(1, 4);
    let strings = (0..count)
        .map(|at| BatteryString {
            x: u64::from(!chance.one_in(8)),
            ..BatteryString::plain(240, chance.between(1, 8), 220 - 12 * at)
        })
        .collect();
    let mut plan = Plan {
        days: chance.between(1, 700),
        strings,
        releases: Vec::new(),
    };
    draw_moving(chance, &mut plan, |chance| chance.below(7));
    for round in 0..3 {
        for (place, string) in (1..).zip(&plan.strings) {
            let (day, need) = (240 * round + gap * place, chance.between(1, string.c));
            plan.releases.push(Release::new(place, day, need));
        }
    }
    let days = plan.days;
    plan.releases.retain(|release| release.day < days);
    writing::any_text(chance, &plan)
}

/// Those that are due soon may take the bank, the long ones may not.
pub fn takers(chance: &mut Chance, _: u64) -> Vec<u8> {
    let mut plan = contrast(chance);
    let longest = plan.largest_d();
    for string in &mut plan.strings {
        string.x = u64::from(2 * string.d < longest);
    }
    let most = chance.between(2, 80) as usize;
    releases::fill(chance, &mut plan, most);
    if chance.one_in(2) {
        ease(&mut plan);
    }
    writing::any_text(chance, &plan)
}

pub fn payer_waits(chance: &mut Chance, _: u64) -> Vec<u8> {
    let plan = takings::payer_waits(chance);
    writing::any_text(chance, &plan)
}

fn takers_tie(chance: &mut Chance, _: u64) -> Vec<u8> {
    let plan = takings::takers_tie(chance);
    writing::any_text(chance, &plan)
}

/// One to six days.
pub fn short_run(chance: &mut Chance, _: u64) -> Vec<u8> {
    let mut plan = mixed(chance, 4, 20_000);
    plan.days = chance.between(1, 6);
    plan.releases = releases::list(chance, &plan, 6);
    writing::any_text(chance, &plan)
}
