//! Strings on each side of each of their bounds, those by their other numbers too, with four digits at most.

use crate::rules::plan::{BatteryString, Length};

/// Where bounds are, and the most that four digits say.
const EDGES: [Length; 11] = [0, 1, 2, 9, 10, 255, 256, 999, 1_000, 1_001, 9_999];

/// The string with one number at an edge or beside another of its numbers, or with several alike.
pub fn about(string: &BatteryString) -> Vec<BatteryString> {
    let beside = |number: Length| [number - 1, number, number + 1];
    let (t, c, d) = (beside(string.t), beside(string.c), beside(string.d));
    let room = beside(string.d - string.late);
    let mut strings = Vec::new();
    for value in EDGES.into_iter().chain(t).chain(c).chain(d).chain(room) {
        let same = string.clone();
        strings.push(BatteryString { t: value, ..same });
        strings.push(BatteryString { c: value, ..same });
        strings.push(BatteryString { d: value, ..same });
        strings.push(BatteryString {
            late: value,
            ..same
        });
    }
    for value in EDGES {
        let same = string.clone();
        let (x, t, c, d, moving, late) = (value, value, value, value, value, value);
        strings.push(BatteryString { x, ..same });
        strings.push(BatteryString { moving, ..same });
        strings.push(BatteryString { d, late, ..same });
        strings.push(BatteryString { t, d, ..same });
        strings.push(BatteryString { c, d, ..same });
        strings.push(BatteryString { t, c, d, ..same });
        strings.push(BatteryString {
            t,
            c,
            d,
            moving,
            ..same
        });
    }
    strings
}
