//! Plans near the ends of what a file can hold.

use super::strings::{cost, draw_moving, mixed, with_permissions};
use crate::chance::Chance;
use crate::rules::plan::{BatteryString, Length, Plan};

/// Many strings and many pairs: slow to search, so only a few of these are made.
pub fn heavy(chance: &mut Chance) -> Plan {
    loop {
        let plan = mixed(chance, 10, 200_000_000);
        if cost(&plan) > 10_000_000 {
            return plan;
        }
    }
}

/// Numbers at their upper bounds: long holds, short periods, a costly move.
pub fn upper_bounds(chance: &mut Chance) -> Plan {
    let count = chance.between(1, 6);
    let strings = (0..count)
        .map(|_| {
            let t = chance.pick(&[1, 2, 500, 1_000, 1_000]);
            let d: Length = chance.pick(&[1, t, t, t]);
            let c = chance.pick(&[1, 1, d, (d + count - 1) / count]);
            BatteryString::plain(t, c, d)
        })
        .collect();
    let mut plan = with_permissions(chance, strings);
    draw_moving(chance, &mut plan, |chance| {
        chance.pick(&[0, 1, 500, 999, 1_000])
    });
    plan
}

/// The largest loads: a job a day and a costly move, counted over a cycle of 99,999 days.
pub fn largest_load(chance: &mut Chance) -> Plan {
    let mut periods = vec![813, 369];
    periods.resize(chance.between(3, 10) as usize, 1);
    chance.shuffle(&mut periods);
    let strings = periods
        .into_iter()
        .map(|t| BatteryString::plain(t, t, t))
        .collect();
    let mut plan = with_permissions(chance, strings);
    draw_moving(chance, &mut plan, |chance| 1_000 - chance.below(2));
    plan
}
