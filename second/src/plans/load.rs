//! Plans with a load of exactly H, and of a little less or more.

use super::strings::{draw_late, without_run};
use crate::chance::Chance;
use crate::rules::plan::{BatteryString, Length, Plan};

/// Cycles that a single period can have, so that the last string can take exactly the rest.
const CYCLES: [u64; 12] = [4, 6, 10, 12, 20, 24, 30, 60, 120, 180, 360, 720];

/// By turns: exactly H, the last string with a day more, the last string with a day less.
pub fn full(chance: &mut Chance, turn: u64) -> Plan {
    let cycle = chance.pick(&CYCLES);
    let common = chance.below(3);
    let each = chance.one_in(2);
    let mut strings = partly_full(chance, cycle, common, each);
    let rest = cycle - asked(&strings, cycle);
    let mut last = string_holding(chance, cycle, rest, common, each);
    match turn % 3 {
        1 => last.c = (last.c + 1).min(last.d),
        2 => last.c = (last.c - 1).max(1),
        _ => {}
    }
    strings.push(last);
    let mut plan = without_run(chance, strings);
    if chance.one_in(2) {
        draw_late(chance, &mut plan);
    }
    plan
}

/// Some strings that leave at least one day of the cycle to ask for.
fn partly_full(
    chance: &mut Chance,
    cycle: Length,
    common: Length,
    each: bool,
) -> Vec<BatteryString> {
    let divisors: Vec<u64> = (2..=cycle).filter(|t| cycle % *t == 0).collect();
    let mut strings = Vec::new();
    for _ in 0..chance.between(0, 4) {
        let t = chance.pick(&divisors);
        let rest = cycle - asked(&strings, cycle);
        let most = (rest - 1) * t / cycle;
        if most > 0 {
            let hold = chance.between(1, (most + 1) / 2);
            strings.push(string_holding(chance, t, hold, common, each));
        }
    }
    strings
}

/// The days of a cycle that the strings ask for.
fn asked(strings: &[BatteryString], cycle: Length) -> Length {
    strings
        .iter()
        .map(|s| (s.c + s.moving * s.x) * cycle / s.t)
        .sum()
}

/// A string whose E is exactly as given: with permission only if the moving leaves work. Its moving
/// cost is the common one or its own.
fn string_holding(
    chance: &mut Chance,
    t: Length,
    hold: Length,
    common: Length,
    each: bool,
) -> BatteryString {
    let moving = if each { chance.below(4) } else { common };
    let x = if hold > moving { chance.below(2) } else { 0 };
    let c = hold - moving * x;
    let d = if chance.one_in(4) {
        chance.between(c, t)
    } else {
        t
    };
    BatteryString {
        x,
        moving,
        ..BatteryString::plain(t, c, d)
    }
}
