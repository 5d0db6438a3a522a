//! Plans to be asked about: most of them do not pass.

use super::sharp::freely;
use crate::chance::Chance;
use crate::plans::border::border;
use crate::plans::shaped::{choices, contrast, equal_deadlines};
use crate::plans::strings::{cost_limit, mixed};
use crate::rules::plan::{BatteryString, Length, Plan};
use crate::rules::rule::passes;

/// Any plan; its N is often too short for a miss.
pub fn any_plan(chance: &mut Chance) -> Plan {
    let mut plan = match chance.below(6) {
        0 if chance.below(20) == 0 => crowded(chance),
        0 | 1 => border(chance).outside,
        2 => contrast(chance),
        3 => choices(chance),
        4 => equal_deadlines(chance),
        _ => {
            let limit = cost_limit(chance, 100_000);
            mixed(chance, 6, limit)
        }
    };
    plan.days = chance.between(1, 120);
    plan
}

/// Short strings that ask for every day there is, and a long one that asks for a day more: a list that misses has about 1,000 releases.
fn crowded(chance: &mut Chance) -> Plan {
    let few: Length = [1, 2, 4, 5, 8][chance.below(5) as usize];
    let long: Length = [960, 1_000][chance.below(2) as usize];
    let string = |t, x| BatteryString {
        x,
        ..BatteryString::plain(t, 1, t)
    };
    let mut strings: Vec<BatteryString> = (0..few).map(|_| string(few, 0)).collect();
    strings.push(string(long, chance.below(2)));
    Plan {
        days: 1,
        strings,
        releases: Vec::new(),
    }
}

/// A small plan that fails by its moving costs alone: with free moving it would pass.
pub fn small_plan(chance: &mut Chance) -> Plan {
    loop {
        let mut plan = any_small_plan(chance);
        if chance.one_in(2) {
            draw_small_late(chance, &mut plan);
        }
        if does_pass(&freely(&plan)) && !does_pass(&plan) {
            return plan;
        }
    }
}

/// A small plan with late days; one that passes, where that is asked.
pub fn small_late_plan(chance: &mut Chance, passing: bool) -> Plan {
    loop {
        let mut plan = any_small_plan(chance);
        draw_small_late(chance, &mut plan);
        if chance.one_in(2) {
            plan.set_moving(0);
        }
        let late = plan.strings.iter().any(|string| string.late > 0);
        if late && (!passing || does_pass(&plan)) {
            return plan;
        }
    }
}

/// A small plan with late days, as it is drawn.
pub fn any_small_late_plan(chance: &mut Chance) -> Plan {
    loop {
        let mut plan = any_small_plan(chance);
        draw_small_late(chance, &mut plan);
        if !plan.is_punctual() {
            return plan;
        }
    }
}

/// A plan of two or three strings whose lists can all be gone through, without late days.
pub fn any_small_plan(chance: &mut Chance) -> Plan {
    let strings = (0..chance.between(2, 3)).map(|_| small_string(chance));
    Plan {
        days: 1,
        strings: strings.collect(),
        releases: Vec::new(),
    }
}

fn small_string(chance: &mut Chance) -> BatteryString {
    let t: Length = chance.between(3, 8);
    let d = chance.between(2, t);
    BatteryString {
        x: chance.below(2),
        moving: chance.below(4),
        ..BatteryString::plain(t, chance.between(1, d.min(3)), d)
    }
}

fn draw_small_late(chance: &mut Chance, plan: &mut Plan) {
    for string in &mut plan.strings {
        let most = (string.d - string.c).min(3);
        string.late = chance.between(0, most);
    }
}

fn does_pass(plan: &Plan) -> bool {
    plan.cycle().map_or(false, |cycle| passes(plan, cycle))
}
