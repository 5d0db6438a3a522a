//! Plan files whose slack is asked about. They are small: every value of every number is tried.

use crate::chance::Chance;
use crate::mix::{self, kind, Kind, Made};
use crate::rules::frames::read;
use crate::rules::plan::{BatteryString, Length, Plan};
use crate::writing;

const PLANS: [Kind; 5] = [
    kind!("short jobs", 350, short_jobs),
    kind!("late days", 300, late_days),
    kind!("any numbers", 200, any_numbers),
    kind!("few long periods", 50, long_periods),
    kind!("any kind, none of them large", 100, any_kind),
];

/// The file of this number under this seed.
pub fn make(seed: u64, file: u64) -> Made {
    mix::make_of(&PLANS, seed, file)
}

/// A string whose T is at most so long and whose job needs at most so many days.
fn string(chance: &mut Chance, longest: Length, most: Length, late: bool) -> BatteryString {
    let t = chance.between(1, longest);
    let d = chance.between(1, t);
    let late = if late && d > 1 && chance.one_in(2) {
        chance.between(1, d - 1)
    } else {
        0
    };
    let c = chance.between(1, most.min(d - late));
    BatteryString {
        x: chance.below(2),
        moving: chance.between(0, 4),
        late,
        ..BatteryString::plain(t, c, d)
    }
}

fn plan(chance: &mut Chance, longest: Length, most: Length, late: bool) -> Plan {
    let count = chance.between(1, 4);
    Plan {
        days: chance.between(1, 100),
        strings: (0..count)
            .map(|_| string(chance, longest, most, late))
            .collect(),
        releases: Vec::new(),
    }
}

fn short_jobs(chance: &mut Chance, _: u64) -> Vec<u8> {
    let plan = plan(chance, 16, 2, false);
    writing::any_text(chance, &plan)
}

fn late_days(chance: &mut Chance, _: u64) -> Vec<u8> {
    let plan = plan(chance, 16, 3, true);
    writing::any_text(chance, &plan)
}

fn any_numbers(chance: &mut Chance, _: u64) -> Vec<u8> {
    let plan = plan(chance, 12, 12, true);
    writing::any_text(chance, &plan)
}

/// One or two strings whose numbers have room to move.
fn long_periods(chance: &mut Chance, _: u64) -> Vec<u8> {
    let mut plan = plan(chance, 60, 20, true);
    plan.strings.truncate(2);
    writing::any_text(chance, &plan)
}

/// Damaged files above all: a lawful plan that is large is left out.
fn any_kind(chance: &mut Chance, turn: u64) -> Vec<u8> {
    let text = mix::make(chance.below(1 << 40), turn).text;
    let large = |plan: &Plan| {
        plan.strings.len() > 3 || plan.cycle().map_or(false, |cycle| cycle > 60)
    };
    match read(&text) {
        Ok(plan) if large(&plan) => short_jobs(chance, turn),
        _ => text,
    }
}
