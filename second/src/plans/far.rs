//! Plans in which something happens far out: late days, late breaks of the rule, many pairs.

use super::releases;
use super::strings::{draw_late, draw_moving, mixed, without_run};
use crate::chance::Chance;
use crate::rules::plan::{BatteryString, Length, Plan};

const LONGEST_RUN: Length = 1_000_000;

/// A run of up to a million days with a burst of releases near its end.
pub fn long_run(chance: &mut Chance) -> Plan {
    let mut plan = mixed(chance, 5, 200_000);
    let most = chance.between(1, 60) as usize;
    releases::fill(chance, &mut plan, most);
    let late = releases::list(chance, &plan, most);
    // After all jobs of the early burst, so that each string's releases stay far enough apart.
    let first = plan.days + 1_000;
    let last = LONGEST_RUN - plan.days;
    let start = match chance.below(3) {
        0 => last,
        1 => last - chance.below(1_000),
        _ => chance.between(first, last),
    };
    if chance.one_in(2) {
        plan.releases.clear();
    }
    plan.releases
        .extend(late.into_iter().map(|release| release.put_off(start)));
    plan.days += start;
    plan
}

/// A load of exactly H that breaks the rule only near the end of a cycle, or a day of work less
/// that never does.
///
/// Periods that are the same multiple of neighbouring numbers drift apart slowly: the first
/// string's early deadline meets the end of a job of the other one only after almost all of the
/// cycle. Moving is free and the first may take the bank, so that blocking breaks nothing before.
pub fn late_fail(chance: &mut Chance) -> Plan {
    let (step, least, most) = chance.pick(&[(2, 185, 222), (3, 150, 181), (4, 130, 157)]);
    let number = chance.between(least, most);
    let part = chance.between(1, step / 2);
    let (t, next) = (number * step, (number + 1) * step);
    let first = BatteryString {
        x: 1,
        ..BatteryString::plain(t, number * part, t - step)
    };
    let other = BatteryString {
        x: chance.below(2),
        ..BatteryString::plain(next, (number + 1) * (step - part) - chance.below(2), next)
    };
    without_run(chance, vec![first, other])
}

/// A long job that can stand in the way of a short one for hundreds of days: hundreds of
/// thousands of pairs.
pub fn many_pairs(chance: &mut Chance) -> Plan {
    let (t, other) = chance.pick(&[(1_000, 1_000), (1_000, 500), (813, 369), (960, 480)]);
    let (c, d) = (chance.between(1, 4), chance.between(10, 40));
    let urgent = BatteryString {
        x: 1,
        ..BatteryString::plain(other, c, d)
    };
    let long = BatteryString::plain(t, t - chance.between(40, 100), t);
    let mut plan = without_run(chance, vec![urgent, long]);
    draw_moving(chance, &mut plan, |chance| chance.below(5));
    draw_late(chance, &mut plan);
    plan
}
