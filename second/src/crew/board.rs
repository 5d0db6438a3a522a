//! The board of a plan's run from a start date on.

use super::input::Input;
use crate::calendar::answer::Calendar;
use crate::rules::plan::{Day, Plan};
use crate::rules::run::{run_watched, Outcome, Policy, Use};

/// A line for each day and one for each test that falls on it, in the diary's order; a miss has the last line.
pub fn board(calendar: &Calendar, plan: &Plan, input: &Input) -> String {
    let mut lines = String::new();
    let outcome = run_watched(Policy::default(), plan, |day, hall| {
        let date = date(calendar, input, day);
        lines += &format!("{date} {}\n", doing(hall.today()));
        for test in tests_on(calendar, input, day) {
            lines += &format!("{date} yearly {test}\n");
        }
    });
    if let Outcome::Miss { day, place } = outcome {
        lines += &format!("{} miss {place}\n", date(calendar, input, day));
    }
    lines
}

/// The date and the weekday of a day of the run.
fn date(calendar: &Calendar, input: &Input, day: Day) -> String {
    let sheet = &calendar.sheets[input.start + day as usize];
    format!("{} {}", sheet.text(), sheet.weekday())
}

fn doing(used: Use) -> String {
    match used {
        Use::Work { place, .. } => format!("{place} work"),
        Use::Moving { place, .. } => format!("{place} move"),
        Use::Idle => "idle".to_string(),
    }
}

/// The month and day of each test that falls on a day of the run: a test of edition 2 may fall on another date than it names.
fn tests_on<'a>(calendar: &Calendar, input: &'a Input, day: Day) -> Vec<&'a str> {
    let day = input.start + day as usize;
    let falls = |test: &&super::input::Test| calendar.falls(&test.on, &test.edition, day);
    input
        .diary
        .iter()
        .filter(falls)
        .map(|test| test.on.as_str())
        .collect()
}
