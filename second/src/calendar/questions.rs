//! Random questions about dates, lawful ones and bad ones.

use super::answer::Calendar;
use crate::chance::Chance;

/// Texts that are no date, each for another reason.
pub const BAD_DATES: [&str; 16] = [
    "2001-02-29",
    "2100-02-29",
    "2400-01-01",
    "1999-12-31",
    "2000-13-01",
    "2000-00-01",
    "2000-01-00",
    "2000-04-31",
    "2000-1-01",
    "2000-01-1",
    "02000-01-01",
    "2000/01/01",
    "2000-01-01 ",
    "20O0-01-01",
    "",
    "2000-01-0a",
];
const BAD_YEARLY: [&str; 9] = [
    "02-30", "13-01", "00-01", "01-00", "04-31", "2-29", "02-9", "0229", "ab-cd",
];
/// An edition is one digit, 1 or 2.
const BAD_EDITIONS: [&str; 8] = ["0", "3", "9", "a", "", "01", "12", "-1"];
const BAD_DAYS: [&str; 8] = [
    "146097",
    "0366",
    "-1",
    "+1",
    "",
    "1e3",
    "36 6",
    "99999999999",
];
/// Around these the calendar is easily got wrong.
const EDGES: [&str; 10] = [
    "2000-01-01",
    "2000-02-28",
    "2000-02-29",
    "2000-03-01",
    "2100-02-28",
    "2100-03-01",
    "2200-12-31",
    "2300-03-01",
    "2399-12-30",
    "2399-12-31",
];

/// The words of a question after `clerk`.
pub fn question(calendar: &Calendar, chance: &mut Chance) -> Vec<String> {
    match chance.below(4) {
        0 => vec!["date".to_string(), date(calendar, chance)],
        1 => vec!["day".to_string(), day(calendar, chance)],
        _ => yearly_question(calendar, chance),
    }
}

/// Mostly with the days in order. Texts of dates are in order as the dates are.
fn yearly_question(calendar: &Calendar, chance: &mut Chance) -> Vec<String> {
    let on = yearly(calendar, chance);
    let edition = edition(chance);
    let mut days = [date(calendar, chance), date(calendar, chance)];
    if !chance.one_in(8) {
        days.sort();
    }
    let [first, last] = days;
    vec!["yearly".to_string(), on, edition, first, last]
}

fn date(calendar: &Calendar, chance: &mut Chance) -> String {
    if chance.one_in(12) {
        return chance.pick(&BAD_DATES).to_string();
    }
    if chance.one_in(4) {
        return chance.pick(&EDGES).to_string();
    }
    calendar.sheets[chance.index(calendar.sheets.len())].text()
}

fn day(calendar: &Calendar, chance: &mut Chance) -> String {
    if chance.one_in(6) {
        return chance.pick(&BAD_DAYS).to_string();
    }
    chance.index(calendar.sheets.len()).to_string()
}

fn edition(chance: &mut Chance) -> String {
    if chance.one_in(8) {
        return chance.pick(&BAD_EDITIONS).to_string();
    }
    chance.pick(&["1", "2"]).to_string()
}

fn yearly(calendar: &Calendar, chance: &mut Chance) -> String {
    if chance.one_in(10) {
        return chance.pick(&BAD_YEARLY).to_string();
    }
    if chance.one_in(3) {
        return "02-29".to_string();
    }
    calendar.sheets[chance.index(calendar.sheets.len())].yearly_text()
}
