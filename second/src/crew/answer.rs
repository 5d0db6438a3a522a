//! All that is written for a plan file and an input.

use super::{board::board, input};
use crate::calendar::answer::Calendar;
use crate::rules::frames::{read, Refusal};
use crate::saving::Saved;

/// The board, or the refusal: that of the plan file comes before those of the input.
pub fn boarded(calendar: &Calendar, plan: &[u8], input: &[u8]) -> Saved {
    let plan = read(plan)?;
    let refusal = |number| Refusal { number, line: 0 };
    let input = input::read(calendar, plan.days, input).map_err(refusal)?;
    Ok(board(calendar, &plan, &input).into_bytes())
}

/// What stands on standard output: a refusal is its bare number.
pub fn written(board: Saved) -> String {
    match board {
        Ok(text) => String::from_utf8(text).expect("all that is written is ASCII"),
        Err(Refusal { number, .. }) => format!("{number}\n"),
    }
}
