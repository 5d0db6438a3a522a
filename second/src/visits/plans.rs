//! Plan files whose visits are asked about, and which kind of them comes when.

use crate::chance::Chance;
use crate::mix::{self, kind, Kind, Made};
use crate::plans::shaped::contrast;
use crate::plans::strings::mixed;
use crate::plans::{releases, runs};
use crate::rules::plan::{BatteryString, Length, Plan, Release};
use crate::rules::run::{run, Outcome};
use crate::writing;

const PLANS: [Kind; 9] = [
    kind!("free moving, clean, all due inside", 330, accepted),
    kind!("clean, all due inside", 250, with_costs),
    kind!("any releases", 120, any_releases),
    kind!("a miss", 80, missing),
    kind!("payer waits", 60, runs::payer_waits),
    kind!("no release", 20, no_release),
    kind!("by turns", 5, by_turns),
    kind!("full list", 5, full_list),
    kind!("any kind", 130, runs::any_kind),
];

/// The file of this number under this seed.
pub fn make(seed: u64, file: u64) -> Made {
    mix::make_of(&PLANS, seed, file)
}

/// Strings with takers among them, and some releases.
fn any_plan(chance: &mut Chance) -> Plan {
    let mut plan = if chance.one_in(2) {
        contrast(chance)
    } else {
        mixed(chance, 6, 50_000)
    };
    let most = chance.between(1, 30) as usize;
    releases::fill(chance, &mut plan, most);
    plan
}

/// Without the releases that are due after the run, and with as little work as a clean run takes.
fn inside_and_clean(mut plan: Plan) -> Plan {
    let due: Vec<Release> = plan.releases.clone();
    plan.releases = due
        .into_iter()
        .filter(|release| plan.deadline(release) <= plan.days)
        .collect();
    while matches!(run(&plan), Outcome::Miss { .. }) && !plan.releases.is_empty() {
        if plan.releases.iter().all(|release| release.need == 1) {
            plan.releases.pop();
        }
        for release in &mut plan.releases {
            release.need = (release.need + 1) / 2;
        }
    }
    plan
}

/// Our own visits are accepted.
fn accepted(chance: &mut Chance, _: u64) -> Vec<u8> {
    let mut plan = any_plan(chance);
    plan.set_moving(0);
    let plan = inside_and_clean(plan);
    writing::any_text(chance, &plan)
}

fn with_costs(chance: &mut Chance, _: u64) -> Vec<u8> {
    let plan = any_plan(chance);
    let plan = inside_and_clean(plan);
    writing::any_text(chance, &plan)
}

/// Often some are due after the run.
fn any_releases(chance: &mut Chance, _: u64) -> Vec<u8> {
    let plan = any_plan(chance);
    writing::any_text(chance, &plan)
}

fn missing(chance: &mut Chance, _: u64) -> Vec<u8> {
    let (plan, _) = runs::missing(chance);
    writing::any_text(chance, &plan)
}

fn no_release(chance: &mut Chance, _: u64) -> Vec<u8> {
    let mut plan = mixed(chance, 4, 20_000);
    plan.days = chance.between(1, 3_000);
    writing::any_text(chance, &plan)
}

/// Two long jobs at a time that leave no day to spare: a contractor who changes over every day has a list as long as a text holds.
fn by_turns(chance: &mut Chance, turn: u64) -> Vec<u8> {
    let work: Length = chance.between(100, 500);
    let rounds = if turn % 2 == 0 {
        5
    } else {
        chance.between(1, 12)
    };
    let t = 2 * work;
    let string = |x| BatteryString {
        x,
        ..BatteryString::plain(t, work, t)
    };
    let mut plan = Plan {
        days: rounds * t,
        strings: vec![string(0), string(chance.below(2))],
        releases: Vec::new(),
    };
    for day in (0..rounds).map(|round| round * t) {
        let both = [1, 2].map(|place| Release::new(place, day, work));
        plan.releases.extend(both);
    }
    writing::any_text(chance, &plan)
}

/// As many releases as a list may have.
fn full_list(chance: &mut Chance, _: u64) -> Vec<u8> {
    let mut plan = mixed(chance, 6, 100_000);
    plan.days = chance.between(2_000, 40_000);
    plan.releases = releases::list(chance, &plan, 1_000);
    plan.set_moving(0);
    let plan = inside_and_clean(plan);
    writing::any_text(chance, &plan)
}
