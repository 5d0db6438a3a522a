//! Plans for the register: numbers of one to four digits, and files of all kinds to write as tables.

use super::writer::table;
use crate::chance::Chance;
use crate::mix::{self, Made};
use crate::plans::{releases, strings};
use crate::rules::plan::{BatteryString, Length, Plan};
use crate::writing;

/// Periods of one to four digits, the least and the most of each. The H of all of a row is within its bound.
const PERIODS: [&[Length]; 3] = [
    &[1, 9, 10, 99, 100, 1_000],
    &[1, 9, 10, 100, 999],
    &[10, 100, 1_000],
];

const EDGES: [Length; 8] = [0, 1, 9, 10, 99, 100, 999, 1_000];

/// The file of this number under this seed that is to be written as a table: every other one of any kind; the rest with
/// numbers of each count of digits, in either version, one in eight of them damaged, and now and then a table itself.
pub fn make(seed: u64, file: u64) -> Made {
    if file % 2 == 0 {
        return mix::make(seed, file);
    }
    let mut chance = Chance::new(seed, file);
    let mut plan = each_count_of_digits(&mut chance);
    let most = chance.between(0, 30) as usize;
    releases::fill(&mut chance, &mut plan, most);
    if chance.one_in(3) {
        let moving = chance.pick(&EDGES);
        plan.set_moving(moving);
    }
    let mut text = writing::any_text(&mut chance, &plan);
    if chance.one_in(40) {
        text = table(&plan);
    } else if chance.one_in(8) {
        let at = chance.index(text.len());
        text[at] = chance.pick(b"0123456789abcdef\nG");
    }
    Made {
        kind: "each count of digits",
        text,
    }
}

/// Strings of any kind, up to ten, without releases.
pub fn any_lawful(chance: &mut Chance) -> Plan {
    if chance.one_in(2) {
        each_count_of_digits(chance)
    } else {
        let most = chance.pick(&[3, 10]);
        strings::mixed(chance, most, 400_000)
    }
}

/// Strings whose numbers are the least and the most of one to four digits.
pub fn each_count_of_digits(chance: &mut Chance) -> Plan {
    let periods = chance.pick(&PERIODS);
    let string = |chance: &mut Chance| {
        let t = chance.pick(periods);
        let d = up_to(chance, t);
        let c = up_to(chance, d);
        BatteryString {
            x: chance.below(2),
            moving: chance.pick(&EDGES),
            late: chance.pick(&EDGES).min(d - c),
            ..BatteryString::plain(t, c, d)
        }
    };
    let strings = (0..chance.between(1, 10)).map(|_| string(chance)).collect();
    Plan {
        days: 1,
        strings,
        releases: Vec::new(),
    }
}

/// 1 or more, and at most as much as given.
fn up_to(chance: &mut Chance, most: Length) -> Length {
    chance.pick(&EDGES).clamp(1, most)
}
