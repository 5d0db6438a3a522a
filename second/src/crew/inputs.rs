//! Inputs for boards: start dates where the calendar is easily got wrong, diaries of none to too many tests, and damage.

use crate::calendar::answer::Calendar;
use crate::calendar::questions::BAD_DATES;
use crate::chance::Chance;
use crate::rules::plan::Length;
use crate::texts;

/// Texts that are no start date, beside those that are no date.
const BAD_STARTS: [&str; 14] = [
    "2000-02-28 ",
    " 2000-02-28",
    "2000-02-2",
    "2000-02-280",
    "2000.02.28",
    "28-02-2000",
    "2000-02-30",
    "2000-02-28\r",
    "2000-02-28\0",
    "\u{feff}2000-02-28",
    "2000-02-28 Mon",
    "0000-00-00",
    "9999-12-31",
    "02-29 1",
];

/// Lines of another shape.
const BAD_SHAPES: [&str; 26] = [
    "",
    "2-29 1",
    "02-9 1",
    "02-29",
    "02-29 ",
    "02-29  1",
    "02-29\t1",
    "02/29 1",
    "0229 1",
    "02-291",
    "02-29 12",
    "02-29 a",
    "02-29 +1",
    "02-29 \0",
    "02-29,1",
    " 02-29 1",
    "02-29 1 ",
    "02-29 1\r",
    "02-29 3\r",
    "-02-29 1",
    "ab-cd 1",
    "02-2a 1",
    "02-29 \u{661}",
    "2000-02-29 1",
    "02-29 1 note",
    "02-29 02-29 1",
];

/// Lines of the shape that name no test, for their date or for their edition, which comes first.
const BAD_TESTS: [&str; 20] = [
    "02-30 1", "13-01 1", "00-01 2", "01-00 1", "04-31 2", "06-31 1", "09-31 2", "11-31 1",
    "12-32 1", "99-99 2", "02-29 0", "02-29 3", "06-30 9", "12-31 4", "02-30 0", "13-01 3",
    "00-00 0", "99-99 9", "04-31 5", "01-32 8",
];

/// Years about whose ends of February the calendar is easily got wrong.
const YEARS: [&str; 14] = [
    "2000", "2001", "2003", "2004", "2023", "2024", "2096", "2099", "2100", "2104", "2200", "2300",
    "2396", "2399",
];

/// An input for a run of so many days: two in three or so are lawful.
pub fn any_input(chance: &mut Chance, calendar: &Calendar, days: Length) -> Vec<u8> {
    let start = any_start(chance, calendar, days as usize);
    let mut lines = vec![format!("{}\n", calendar.sheets[start].text()).into_bytes()];
    for _ in 0..tests(chance) {
        let test = any_test(chance, calendar, start, days as usize);
        lines.push(format!("{test}\n").into_bytes());
    }
    if chance.one_in(4) {
        damage(chance, &mut lines);
    }
    let mut text = lines.concat();
    if chance.one_in(20) {
        damage_bytes(chance, &mut text);
    }
    text
}

/// A day of the calendar; now and then so late that day N of the run is its last day, or is not in it.
fn any_start(chance: &mut Chance, calendar: &Calendar, days: usize) -> usize {
    let last = calendar.sheets.len() - 1;
    let start = match chance.below(8) {
        0 => (last + chance.index(3)).saturating_sub(days + 1),
        1..=3 => start_about(chance, calendar, "02-28", days),
        4 => start_about(chance, calendar, "12-31", days),
        5 => 0,
        // early enough for the run
        6 => chance.index(last.saturating_sub(days).max(1)),
        _ => chance.index(last + 1),
    };
    start.min(last)
}

/// So that the date of some year most often falls into the run.
fn start_about(chance: &mut Chance, calendar: &Calendar, on: &str, days: usize) -> usize {
    let date = format!("{}-{on}", chance.pick(&YEARS));
    let day = calendar.day_of(&date).expect("every year has the date");
    let before = chance.index(days.min(400) + 7);
    (day + chance.index(7)).saturating_sub(before)
}

/// How many lines the diary has; more than twenty are too many.
fn tests(chance: &mut Chance) -> u64 {
    match chance.below(20) {
        0..=3 => 0,
        4..=10 => chance.between(1, 3),
        11..=16 => chance.between(4, 19),
        17 | 18 => 20,
        _ => chance.between(21, 22),
    }
}

/// Most often a test that falls within the run, or about the end of February.
fn any_test(chance: &mut Chance, calendar: &Calendar, start: usize, days: usize) -> String {
    let on = match chance.below(10) {
        0..=2 => "02-29".to_string(),
        3 => chance
            .pick(&["02-28", "03-01", "12-31", "01-01"])
            .to_string(),
        4 => calendar.sheets[chance.index(calendar.sheets.len())].yearly_text(),
        _ => {
            let day = start + chance.index(days.min(400) + 1);
            calendar.sheets[day.min(calendar.sheets.len() - 1)].yearly_text()
        }
    };
    format!("{on} {}", chance.between(1, 2))
}

/// One or two faults of lines: where there are two, the first line decides.
fn damage(chance: &mut Chance, lines: &mut Vec<Vec<u8>>) {
    for _ in 0..chance.between(1, 2) {
        match chance.below(12) {
            0 => lines.clear(),
            1 => put_start(chance, lines),
            2 => without_start(lines),
            3 => without_last_end(lines),
            4 => with_carriage_returns(chance, lines),
            5 | 6 => put_line(chance, lines, &BAD_SHAPES),
            7..=9 => put_line(chance, lines, &BAD_TESTS),
            10 => with_a_twenty_first(chance, lines),
            _ => long(chance, lines),
        }
    }
}

fn put_start(chance: &mut Chance, lines: &mut [Vec<u8>]) {
    let bad = if chance.one_in(2) {
        chance.pick(&BAD_DATES)
    } else {
        chance.pick(&BAD_STARTS)
    };
    if let Some(start) = lines.first_mut() {
        *start = format!("{bad}\n").into_bytes();
    }
}

/// The diary's first line stands in its place.
fn without_start(lines: &mut Vec<Vec<u8>>) {
    if !lines.is_empty() {
        lines.remove(0);
    }
}

fn without_last_end(lines: &mut [Vec<u8>]) {
    if let Some(last) = lines.last_mut() {
        last.pop();
    }
}

/// On one line, or on all.
fn with_carriage_returns(chance: &mut Chance, lines: &mut [Vec<u8>]) {
    let one = chance.index(lines.len().max(1));
    let all = chance.one_in(2);
    for (at, line) in lines.iter_mut().enumerate() {
        if all || at == one {
            line.insert(line.len().saturating_sub(1), b'\r');
        }
    }
}

/// One of the lines, anywhere in the diary: in place of another, or beside it. The last one may lack its end.
fn put_line(chance: &mut Chance, lines: &mut Vec<Vec<u8>>, bad: &[&str]) {
    let mut line = format!("{}\n", chance.pick(bad)).into_bytes();
    let at = chance.between(1, lines.len().max(1) as u64) as usize;
    if at >= lines.len() {
        if chance.one_in(8) {
            line.pop();
        }
        lines.push(line);
    } else if chance.one_in(2) {
        lines[at] = line;
    } else {
        lines.insert(at, line);
    }
}

/// Twenty tests and one more, of any kind.
fn with_a_twenty_first(chance: &mut Chance, lines: &mut Vec<Vec<u8>>) {
    while lines.len() < 21 {
        lines.push(b"02-29 2\n".to_vec());
    }
    lines.truncate(21);
    let more = match chance.below(3) {
        0 => chance.pick(&BAD_SHAPES),
        1 => chance.pick(&BAD_TESTS),
        _ => "02-29 1",
    };
    lines.push(format!("{more}\n").into_bytes());
}

/// A line, or a diary, far longer than it may be.
fn long(chance: &mut Chance, lines: &mut Vec<Vec<u8>>) {
    let many = chance.pick(&[100, 5_000, 70_000]);
    if chance.one_in(2) {
        let at = chance.index(lines.len().max(1));
        if let Some(line) = lines.get_mut(at) {
            line.splice(0..0, vec![b'1'; many]);
        }
    } else {
        lines.extend(vec![b"02-29 1\n".to_vec(); many / 7]);
    }
}

fn damage_bytes(chance: &mut Chance, text: &mut Vec<u8>) {
    match chance.below(4) {
        0 => text.truncate(chance.index(text.len() + 1)),
        1 => {
            let turn = chance.below(4);
            texts::change_length(chance, text, turn);
        }
        2 => {
            let byte = chance.byte();
            texts::change_byte(chance, text, byte);
        }
        _ => {
            let byte = chance.pick(b"0123456789- \n");
            texts::change_byte(chance, text, byte);
        }
    }
}
