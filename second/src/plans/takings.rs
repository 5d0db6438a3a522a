//! Plans in which the bank is taken, and it matters who pays and who gets it next.

use super::strings::{draw_late, draw_moving};
use crate::chance::Chance;
use crate::rules::plan::{BatteryString, Length, Plan, Release};

/// A string with the day, counted from the start, on which it is released once.
type Visit = (BatteryString, Length);

/// A long job holds the bank; a calm string that may not take it is due first; a taker due
/// after the calm one but before the long one takes the bank and pays, and the calm one gets it.
pub fn payer_waits(chance: &mut Chance) -> Plan {
    let holder = (string(chance, 0, (60, 120), (6, 20)), 0);
    let calm = (string(chance, 0, (8, 20), (1, 8)), chance.between(1, 2));
    let taker = (string(chance, 1, (30, 60), (1, 12)), chance.between(1, 4));
    plan_of(chance, vec![holder, calm, taker])
}

/// Takers with one deadline come on one day while a long job holds the bank: one of them pays.
pub fn takers_tie(chance: &mut Chance) -> Plan {
    let mut visits = vec![(string(chance, 0, (60, 120), (6, 20)), 0)];
    let d = chance.between(6, 40);
    let day = chance.between(1, 5);
    for _ in 0..chance.between(2, 4) {
        visits.push((string(chance, 1, (d, d), (1, 6)), day));
    }
    plan_of(chance, visits)
}

fn string(chance: &mut Chance, x: u64, d: (u64, u64), c: (u64, u64)) -> BatteryString {
    let (c, d) = (chance.between(c.0, c.1), chance.between(d.0, d.1));
    BatteryString {
        x,
        ..BatteryString::plain(120, c, d)
    }
}

/// Puts the strings in any order. A run that ends early shows on which day each one used the bank.
fn plan_of(chance: &mut Chance, mut visits: Vec<Visit>) -> Plan {
    chance.shuffle(&mut visits);
    let start = chance.below(5);
    let mut releases: Vec<Release> = visits
        .iter()
        .zip(1..)
        .map(|((string, day), place)| Release::new(place, start + day, string.c))
        .collect();
    chance.shuffle(&mut releases);
    releases.sort_by_key(|release| release.day);
    let most = chance.pick(&[12, 30, 140]);
    let mut plan = Plan {
        days: start + chance.between(6, most),
        strings: visits.into_iter().map(|(string, _)| string).collect(),
        releases,
    };
    draw_moving(chance, &mut plan, |chance| chance.below(6));
    draw_late(chance, &mut plan);
    come_late(chance, &mut plan);
    plan
}

/// Each release, the only one of its string, comes some days after its due day.
fn come_late(chance: &mut Chance, plan: &mut Plan) {
    for release in &mut plan.releases {
        let late = plan.strings[release.place as usize - 1].late;
        release.due -= chance.between(0, late.min(release.day));
    }
}
