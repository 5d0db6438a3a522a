//! Strings by chance: periods, work, deadlines, permissions, moving costs and late days.

use crate::chance::Chance;
use crate::rules::plan::{BatteryString, Length, Plan};

/// Numbers with many divisors; periods taken from one of them keep H small enough.
const CYCLES: [u64; 20] = [
    12, 24, 60, 120, 210, 360, 720, 840, 1_000, 1_260, 2_520, 5_040, 7_560, 10_080, 27_720, 45_990,
    55_440, 83_160, 99_000, 99_792,
];

/// What a plan can cost the programs: all sets, times all pairs, times the strings in a demand.
pub fn cost(plan: &Plan) -> u64 {
    let cycle = match plan.cycle() {
        Some(cycle) => cycle,
        None => return u64::MAX,
    };
    let count = plan.strings.len() as u64;
    let longest = plan.largest_d();
    let hold = plan.strings.iter().map(|s| s.c + s.moving).max();
    let blocking = longest.min(hold.unwrap_or(0));
    let pairs = cycle + longest + (longest - plan.smallest_window()) * blocking;
    (pairs * count) << count
}

/// Any strings at all, without releases, that cost about as much as given at most.
pub fn mixed(chance: &mut Chance, most_strings: u64, most_cost: u64) -> Plan {
    let count = chance.between(1, most_strings);
    // A few hundred pairs are always to be had, so the drawing comes to an end.
    let limit = most_cost.max((300 * count) << count);
    loop {
        let plan = draw(chance, count);
        if cost(&plan) <= limit {
            return plan;
        }
    }
}

/// A cost limit by chance: mostly low, so that many files are quick.
pub fn cost_limit(chance: &mut Chance, most: u64) -> u64 {
    most >> chance.below(8)
}

fn draw(chance: &mut Chance, count: u64) -> Plan {
    let load = chance.between(20, 110);
    let strings = periods(chance, count)
        .into_iter()
        .map(|t| string(chance, t, load, count))
        .collect();
    with_permissions(chance, strings)
}

/// Puts moving costs, late days and permissions to strings: one cost for all, or each its own.
pub fn with_permissions(chance: &mut Chance, strings: Vec<BatteryString>) -> Plan {
    let mut plan = Plan {
        days: 1,
        strings,
        releases: Vec::new(),
    };
    draw_moving(chance, &mut plan, moving);
    draw_late(chance, &mut plan);
    let all = (1 << plan.strings.len()) - 1;
    let set = match chance.below(4) {
        0 => 0,
        1 => all,
        _ => chance.between(0, all),
    };
    plan.with_set(set as u32)
}

fn moving(chance: &mut Chance) -> Length {
    match chance.below(16) {
        0..=2 => 0,
        3..=7 => 1,
        8..=11 => chance.between(1, 3),
        12..=14 => chance.between(2, 20),
        _ => chance.between(0, 1_000),
    }
}

fn periods(chance: &mut Chance, count: u64) -> Vec<Length> {
    let cycle = chance.pick(&CYCLES);
    let divisors: Vec<u64> = (count..=1_000).filter(|t| cycle % *t == 0).collect();
    let base = chance.between(1, 80);
    let style = chance.below(4);
    (0..count)
        .map(|_| match style {
            0 => chance.pick(&divisors),
            1 => chance.between(1, 6 + 3 * count),
            2 => base,
            _ => base * chance.pick(&[1, 2, 3, 4, 6, 12]),
        })
        .collect()
}

/// A string that takes its part of a load in percent, more or less.
fn string(chance: &mut Chance, t: Length, load: u64, count: u64) -> BatteryString {
    let weight = chance.below(201);
    let c = (t * load * weight / (count * 10_000)).clamp(1, t);
    let d = match chance.below(4) {
        0 => chance.between(c, t),
        1 => chance.between((c + t) / 2, t),
        _ => t,
    };
    BatteryString::plain(t, c, d)
}

/// A plan of these strings in any order, for the verdict and the search: nothing is released.
pub fn without_run(chance: &mut Chance, mut strings: Vec<BatteryString>) -> Plan {
    chance.shuffle(&mut strings);
    Plan {
        days: 1,
        strings,
        releases: Vec::new(),
    }
}

/// Gives no string late days, or some, up to as many as its work leaves.
pub fn draw_late(chance: &mut Chance, plan: &mut Plan) {
    if chance.one_in(2) {
        return;
    }
    for string in &mut plan.strings {
        let most = string.d - string.c;
        string.late = match chance.below(8) {
            0..=2 => 0,
            3 => most.min(1),
            4 => most,
            5 => chance.between(0, most),
            _ => chance.between(0, most / 4),
        };
    }
}

/// Gives all strings one moving cost, or each its own, drawn alike.
pub fn draw_moving(chance: &mut Chance, plan: &mut Plan, draw: impl Fn(&mut Chance) -> Length) {
    let moving = draw(chance);
    plan.set_moving(moving);
    if chance.one_in(2) {
        for string in &mut plan.strings {
            string.moving = draw(chance);
        }
    }
}
