//! What can be wrong with a row of an export: all that can be wrong with a row, and numbers outside their bounds.

use super::bounds;
use super::writer::numbers;
use crate::chance::Chance;
use crate::rows::{end, join, reorder, set_count, spell, Row, ENDED, SPELT};
use crate::rules::plan::BatteryString;

/// The row of the same string with numbers on either side of their bounds.
pub fn set_bounds(row: &mut Row, string: &BatteryString, way: usize) {
    let strings = bounds::about(string);
    row.numbers = Row::of(&numbers(&strings[way % strings.len()])).numbers;
}

/// Any of these, on top of what is wrong already. Bounds come often, as 13 has to come before them.
pub fn add_any(chance: &mut Chance, row: &mut Row, string: &BatteryString) {
    match chance.below(8) {
        0 | 1 => spell(row, chance.index(6), chance.index(SPELT)),
        2 => end(row, chance.index(ENDED)),
        3 => set_count(row, chance.index(9)),
        4 => join(chance, row),
        5 => reorder(chance, row),
        _ => {
            let way = chance.index(1_000);
            set_bounds(row, string, way);
        }
    }
}
