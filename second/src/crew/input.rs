//! Reading the board's input: a start date and the crew's diary, a line each.

use crate::calendar::answer::Calendar;
use crate::rules::plan::Length;

/// The most lines that a diary may have.
const MOST_TESTS: usize = 20;

/// Refusal numbers.
const NO_DATE: usize = 10;
const NO_EDITION: usize = 11;

/// A line of the diary.
#[derive(Debug, PartialEq)]
pub struct Test {
    /// Month and day, as `02-29`.
    pub on: String,
    pub edition: String,
}

#[derive(Debug, PartialEq)]
pub struct Input {
    /// The number of the start date's day in the calendar.
    pub start: usize,
    pub diary: Vec<Test>,
}

/// The input for a run of so many days, or the number of the first fault, line by line.
pub fn read(calendar: &Calendar, days: Length, text: &[u8]) -> Result<Input, usize> {
    // Each piece keeps its 0a, so that the last one can be seen to lack it.
    let mut lines = text.split_inclusive(|byte| *byte == b'\n');
    let start = start_of(calendar, days, lines.next()).ok_or(NO_DATE)?;
    let mut diary = Vec::new();
    for line in lines {
        diary.push(test_of(calendar, line, diary.len() + 1)?);
    }
    Ok(Input { start, diary })
}

/// The start date's day, if day N of the run is in the calendar too.
fn start_of(calendar: &Calendar, days: Length, line: Option<&[u8]>) -> Option<usize> {
    let start = calendar.day_of(text_of(line?)?)?;
    let last = start + days as usize;
    calendar.sheets.get(last).map(|_| start)
}

/// What stands before a line's 0a, if it has one.
fn text_of(line: &[u8]) -> Option<&str> {
    std::str::from_utf8(line.strip_suffix(b"\n")?).ok()
}

/// The test of a line, counted from 1. Its shape is that of its characters, whether its 0a stands behind them or not. Its edition is asked
/// for before its date, its end and how many lines there are.
fn test_of(calendar: &Calendar, line: &[u8], number: usize) -> Result<Test, usize> {
    let characters = line.strip_suffix(b"\n").unwrap_or(line);
    let text = std::str::from_utf8(characters)
        .ok()
        .filter(|text| has_shape(text))
        .ok_or(NO_DATE)?;
    let (on, edition) = (text[..5].to_string(), text[6..].to_string());
    if edition != "1" && edition != "2" {
        return Err(NO_EDITION);
    }
    if !calendar.has_yearly(&on) || !line.ends_with(b"\n") || number > MOST_TESTS {
        return Err(NO_DATE);
    }
    Ok(Test { on, edition })
}

/// Two digits, hyphen, two digits, space, digit.
fn has_shape(text: &str) -> bool {
    let fits = |(byte, form): (u8, u8)| match form {
        b'd' => byte.is_ascii_digit(),
        _ => byte == form,
    };
    text.len() == 7 && text.bytes().zip(*b"dd-dd d").all(fits)
}
