//! Reading an export of the register: lines of T,C,D,X,moving cost,J, and what is refused in which order.

use super::run_length::RunLength;
use crate::decimal::numbers_of;
use crate::rules::frames::{require, Refusal, MOST_BYTES};
use crate::rules::plan::{BatteryString, Plan, RUN};

const MOST_STRINGS: usize = 10;
const MOST_DIGITS: usize = 4;

/// The plan of an export with an N given beside it, without releases, or the first fault in the
/// request's order.
pub fn read(text: &[u8], run: RunLength) -> Result<Plan, Refusal> {
    let RunLength(days) = run;
    require(text.len() <= MOST_BYTES, 1, 0)?;
    require(RUN.contains(&days), 5, 0)?;
    require(!text.is_empty(), 4, 0)?;
    let mut strings = Vec::new();
    // Each piece keeps its 0a, so that the last one can be seen to lack it.
    for (before, text) in text.split_inclusive(|byte| *byte == b'\n').enumerate() {
        strings.push(read_line(text, before + 1)?);
    }
    let last = strings.len();
    let plan = Plan {
        days,
        strings,
        releases: Vec::new(),
    };
    require(plan.cycle().is_some(), 6, last)?;
    Ok(plan)
}

/// An eleventh line is too many whatever it says, so that is asked first.
fn read_line(text: &[u8], line: usize) -> Result<BatteryString, Refusal> {
    require(line <= MOST_STRINGS, 4, line)?;
    let string = string_of(text).ok_or(Refusal { number: 13, line })?;
    require(string.is_bounded(), 5, line)?;
    Ok(string)
}

/// The string that a line spells, if it is six numbers between commas, ended by CR LF.
fn string_of(text: &[u8]) -> Option<BatteryString> {
    match numbers_of(text, MOST_DIGITS)?[..] {
        [t, c, d, x, moving, late] => Some(BatteryString {
            x,
            t,
            c,
            d,
            moving,
            late,
        }),
        _ => None,
    }
}
