//! The calendar of document 02, W-203 and W-206, by tearing off one sheet after the other from 1 January 2000 on.
//! Nothing is computed from a date or a day number: every answer is looked up among the sheets.

pub mod answer;
pub mod ask;
pub mod questions;

use std::fmt;

pub struct Sheet {
    pub day: usize,
    year: u32,
    month: u32,
    date: u32,
    weekday: usize,
}

/// The last sheet is 31 December of this year.
const LAST_YEAR: u32 = 2399;
const WEEKDAYS: [&str; 7] = ["Sat", "Sun", "Mon", "Tue", "Wed", "Thu", "Fri"];

impl Sheet {
    fn first() -> Sheet {
        Sheet {
            day: 0,
            year: 2000,
            month: 1,
            date: 1,
            weekday: 0,
        }
    }

    fn next(&self) -> Sheet {
        let (mut year, mut month, mut date) = (self.year, self.month, self.date + 1);
        if date > days_of_month(year, month) {
            date = 1;
            month += 1;
        }
        if month > 12 {
            month = 1;
            year += 1;
        }
        Sheet {
            day: self.day + 1,
            year,
            month,
            date,
            weekday: (self.weekday + 1) % WEEKDAYS.len(),
        }
    }

    pub fn text(&self) -> String {
        format!("{:04}-{}", self.year, self.yearly_text())
    }

    pub fn yearly_text(&self) -> String {
        format!("{:02}-{:02}", self.month, self.date)
    }

    pub fn weekday(&self) -> &'static str {
        WEEKDAYS[self.weekday]
    }
}

/// The line of the whole calendar.
impl fmt::Display for Sheet {
    fn fmt(&self, f: &mut fmt::Formatter) -> fmt::Result {
        write!(f, "{} {} {}", self.day, self.text(), self.weekday())
    }
}

fn is_leap(year: u32) -> bool {
    if year % 100 == 0 {
        year % 400 == 0
    } else {
        year % 4 == 0
    }
}

fn days_of_month(year: u32, month: u32) -> u32 {
    match month {
        2 if is_leap(year) => 29,
        2 => 28,
        4 | 6 | 9 | 11 => 30,
        _ => 31,
    }
}

/// All sheets, in their order.
pub fn sheets() -> Vec<Sheet> {
    let mut sheets = vec![Sheet::first()];
    loop {
        let next = sheets[sheets.len() - 1].next();
        if next.year > LAST_YEAR {
            return sheets;
        }
        sheets.push(next);
    }
}
