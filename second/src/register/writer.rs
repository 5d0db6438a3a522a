//! Writing strings as the register has them.

use crate::rules::plan::{BatteryString, Plan};

/// A line for each string, in the plan's order.
pub fn table(plan: &Plan) -> Vec<u8> {
    plan.strings.iter().flat_map(line).collect()
}

pub fn line(string: &BatteryString) -> Vec<u8> {
    let numbers = numbers(string).map(|number| number.to_string());
    format!("{}\r\n", numbers.join(",")).into_bytes()
}

/// In the order of a line.
pub fn numbers(string: &BatteryString) -> [u64; 6] {
    [
        string.t,
        string.c,
        string.d,
        string.x,
        string.moving,
        string.late,
    ]
}
