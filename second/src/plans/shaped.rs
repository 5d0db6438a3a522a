//! Strings shaped so that a certain part of the rules matters.

use super::strings::{draw_moving, with_permissions};
use crate::chance::Chance;
use crate::rules::plan::{BatteryString, Length, Plan};

/// Short strings beside long jobs that stand in their way, so that permissions matter.
pub fn contrast(chance: &mut Chance) -> Plan {
    let base = chance.between(4, 24);
    let mut strings = Vec::new();
    for _ in 0..chance.between(1, 3) {
        strings.push(short_string(chance, base));
    }
    for _ in 0..chance.between(1, 3) {
        strings.push(long_string(chance, base));
    }
    chance.shuffle(&mut strings);
    let mut plan = with_permissions(chance, strings);
    let most = if chance.one_in(4) { base } else { 3 };
    draw_moving(chance, &mut plan, |chance| chance.between(0, most));
    plan
}

fn short_string(chance: &mut Chance, base: Length) -> BatteryString {
    let t = base * chance.pick(&[1, 2, 2, 4]);
    let c = chance.between(1, base / 4);
    let d = chance.between(c + 1, t.min(base));
    BatteryString::plain(t, c, d)
}

fn long_string(chance: &mut Chance, base: Length) -> BatteryString {
    let t = base * chance.pick(&[4, 6, 8, 12, 24]);
    let c = chance.between(base / 2, base);
    let d = chance.between(t / 2, t);
    BatteryString::plain(t, c, d)
}

/// Strings that together are a little too slow behind one long job. Any of them whose work adds
/// up to the excess can be given permission: a single one at a high place, or more at low places.
pub fn choices(chance: &mut Chance) -> Plan {
    let d = chance.between(12, 30);
    let mut works: Vec<Length> = (0..chance.between(2, 5))
        .map(|_| chance.between(1, 3))
        .collect();
    works.sort();
    let work: Length = works.iter().sum();
    let excess = chance.between(1, 4).min(work);
    let mut strings: Vec<BatteryString> = works
        .into_iter()
        .map(|c| {
            let t = d * chance.pick(&[3, 4, 6]);
            BatteryString::plain(t, c, d + chance.below(2))
        })
        .collect();
    let rest = (d + excess).saturating_sub(work).max(1);
    let long = BatteryString::plain(12 * d, rest, d * chance.between(4, 12));
    strings.insert(chance.index(strings.len() + 1), long);
    let mut plan = with_permissions(chance, strings);
    draw_moving(chance, &mut plan, |chance| chance.below(2));
    plan
}

/// Strings that share one D, or two of them.
pub fn equal_deadlines(chance: &mut Chance) -> Plan {
    let short = chance.between(4, 40);
    let long = chance.pick(&[short, 2 * short]);
    let count = chance.between(2, 6);
    let strings = (0..count)
        .map(|_| {
            let t = long * chance.pick(&[1, 2, 3, 4]);
            let c = chance.between(1, (short + 1) / 2);
            BatteryString::plain(t, c, chance.pick(&[short, long]))
        })
        .collect();
    with_permissions(chance, strings)
}

/// Ten strings, some of them short and urgent, so that a large set can be the answer.
pub fn ten_strings(chance: &mut Chance) -> Plan {
    let base = chance.between(12, 20);
    let urgent = chance.between(2, 6);
    let mut strings: Vec<BatteryString> = (0..10)
        .map(|at| {
            if at < urgent {
                urgent_string(chance, base)
            } else {
                patient_string(chance, base)
            }
        })
        .collect();
    chance.shuffle(&mut strings);
    let mut plan = with_permissions(chance, strings);
    draw_moving(chance, &mut plan, |chance| chance.below(3));
    plan
}

fn urgent_string(chance: &mut Chance, base: Length) -> BatteryString {
    let t = base * chance.pick(&[2, 4]);
    let c = chance.between(1, 2);
    BatteryString::plain(t, c, chance.between(base / 3, base))
}

fn patient_string(chance: &mut Chance, base: Length) -> BatteryString {
    let t = base * chance.pick(&[8, 12]);
    let c = chance.between(2, base / 2);
    BatteryString::plain(t, c, chance.between(t / 2, t))
}
