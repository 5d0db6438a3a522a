//! Lists about 1,000 releases long, with a fault near the end or none.

use super::sheet::Sheet;
use crate::chance::Chance;
use crate::plans::strings::with_permissions;
use crate::rules::plan::{BatteryString, Plan, Release};
use crate::writing::{put, DAY, KIND, NEED, PLACE};

const MOST: usize = 1_000;

/// About 1,000 releases with each fault in turn, mostly at the 1,001st.
pub fn many_releases(chance: &mut Chance, turn: u64) -> Vec<u8> {
    let count = MOST + chance.pick(&[0, 1, 1, 2, 3]) - chance.index(2);
    let plan = dense_plan(chance, count);
    let mut sheet = Sheet::of(chance, plan);
    let last = sheet.plan.strings.len() + MOST;
    let line = last + chance.pick(&[0, 1, 1, 1, 2]);
    if line < sheet.lines.len() {
        spoil(&mut sheet, line, turn % 12);
    }
    sheet.text()
}

/// Two or three strings of short periods, each released as often as it may be.
fn dense_plan(chance: &mut Chance, count: usize) -> Plan {
    let strings = (0..chance.between(2, 3))
        .map(|_| {
            let t = chance.between(1, 8);
            let d = chance.between(1, t);
            let c = chance.pick(&[1, 1, (d + 1) / 2]);
            BatteryString::plain(t, c, d)
        })
        .collect();
    let mut plan = with_permissions(chance, strings);
    plan.days = 7_000;
    plan.releases = dense_list(&plan, count);
    plan
}

fn dense_list(plan: &Plan, count: usize) -> Vec<Release> {
    let mut list = Vec::new();
    for day in 0..plan.days {
        for (string, place) in plan.strings.iter().zip(1..) {
            if day % string.t == 0 {
                list.push(Release::new(place, day, string.c));
            }
        }
    }
    list.truncate(count);
    list
}

/// One release line with a fault by number, or without one.
fn spoil(sheet: &mut Sheet, at: usize, fault: u64) {
    let days = sheet.plan.days;
    let line = &mut sheet.lines[at];
    match fault {
        0 => put(line, PLACE, 0),
        1 => put(line, NEED, 0),
        2 => put(line, NEED, 0xffff),
        3 => put(line, DAY, days),
        4 => put(line, DAY, 0),
        5 => put(line, KIND, 2),
        6 => line[3] = b'G',
        7 => drop(line.remove(0)),
        8 => line.truncate(line.len() - 1),
        9 => drop(line.drain(0..2)),
        10 => *line = vec![b'\n'],
        _ => {}
    }
}
