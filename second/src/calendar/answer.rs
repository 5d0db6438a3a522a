//! What the clerk writes for a question about dates.

use super::Sheet;
use std::collections::HashMap;

/// The sheets, and where each text and each day stands among them.
pub struct Calendar {
    pub sheets: Vec<Sheet>,
    /// The month and the day that each sheet shows.
    yearly: Vec<String>,
    by_text: HashMap<String, usize>,
    by_day: HashMap<String, usize>,
}

const NO_SUCH_DATE: &str = "refused 10 line 0\n";
const NO_SUCH_EDITION: &str = "refused 11 line 0\n";

impl Calendar {
    pub fn new() -> Calendar {
        let sheets = super::sheets();
        let place = |texts: Vec<String>| texts.into_iter().zip(0..).collect();
        let by_text = place(sheets.iter().map(Sheet::text).collect());
        let by_day = place(sheets.iter().map(|sheet| sheet.day.to_string()).collect());
        let yearly = sheets.iter().map(Sheet::yearly_text).collect();
        Calendar {
            sheets,
            yearly,
            by_text,
            by_day,
        }
    }

    /// The day number of the date that a text is.
    pub fn day_of(&self, text: &str) -> Option<usize> {
        self.by_text.get(text).copied()
    }

    /// Whether a month and a day exist in some year.
    pub fn has_yearly(&self, on: &str) -> bool {
        self.yearly.iter().any(|shown| shown == on)
    }

    /// The answer to the words after `clerk`.
    pub fn answer(&self, words: &[String]) -> String {
        let lines = match words {
            [word, text] if word == "date" => self.date(text),
            [word, text] if word == "day" => self.day(text),
            [word, on, edition, first, last] if word == "yearly" => {
                self.yearly(on, edition, first, last)
            }
            _ => None,
        };
        lines.unwrap_or_else(|| NO_SUCH_DATE.to_string())
    }

    /// What is said beside the answer: an empty list of days says why, or when the test falls next.
    pub fn beside(&self, words: &[String]) -> String {
        let (on, edition, first, last) = match words {
            [word, on, edition, first, last] if word == "yearly" => (on, edition, first, last),
            _ => return String::new(),
        };
        if !self.answer(words).is_empty() {
            return String::new();
        }
        // texts of dates are in order as the dates are
        if last < first {
            return "clerk: none: the first day is after the last\n".to_string();
        }
        let days = self.by_text[last]..self.sheets.len();
        match days.into_iter().find(|day| self.falls(on, edition, *day)) {
            Some(day) => format!("clerk: none; the next is {}\n", self.sheets[day].text()),
            None => "clerk: none; there is none up to 2399-12-31\n".to_string(),
        }
    }

    fn date(&self, text: &str) -> Option<String> {
        let sheet = &self.sheets[*self.by_text.get(text)?];
        Some(format!("{} {}\n", sheet.day, sheet.weekday()))
    }

    fn day(&self, text: &str) -> Option<String> {
        let sheet = &self.sheets[*self.by_day.get(text)?];
        Some(line(sheet))
    }

    fn yearly(&self, on: &str, edition: &str, first: &str, last: &str) -> Option<String> {
        if edition != "1" && edition != "2" {
            return Some(NO_SUCH_EDITION.to_string());
        }
        if !self.has_yearly(on) {
            return None;
        }
        let (first, last) = (*self.by_text.get(first)?, *self.by_text.get(last)?);
        let days = first..(last + 1).max(first);
        let falls = days.filter(|day| self.falls(on, edition, *day));
        Some(falls.map(|day| line(&self.sheets[day])).collect())
    }

    /// Edition 1: the sheet shows the month and the day. Edition 2 does a test of 29 February on a 28 February that the 1st of March follows.
    pub fn falls(&self, on: &str, edition: &str, day: usize) -> bool {
        let shows =
            |day: usize, text: &str| self.yearly.get(day).map_or(false, |shown| shown == text);
        let moved = edition == "2" && on == "02-29";
        shows(day, on) || moved && shows(day, "02-28") && shows(day + 1, "03-01")
    }
}

fn line(sheet: &Sheet) -> String {
    format!("{} {}\n", sheet.text(), sheet.weekday())
}
