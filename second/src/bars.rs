//! A run as bars, a row for each string, as `clerk bars` writes them: a column for each day, one column for a long idle stretch, and no
//! more than fit the width.

use crate::rules::frames::read;
use crate::rules::plan::{Day, Length, Plan};
use crate::rules::run::{run_watched, Hall, Outcome, Policy};
use crate::saving::Saved;

/// So many columns are drawn.
const WIDTH: usize = 70;
/// Of idle days that follow each other, more than so many share a column.
const LONG: Length = 9;

/// The days of a column, and what it has in each row.
struct Column {
    first: Day,
    days: Length,
    idle: bool,
    marks: Vec<char>,
}

impl Column {
    fn last(&self) -> Day {
        self.first + self.days - 1
    }
}

/// The bars of a file's run, or the file's refusal.
pub fn drawn(text: &[u8]) -> Saved {
    read(text).map(|plan| told(&plan).into_bytes())
}

pub fn told(plan: &Plan) -> String {
    let columns = columns(plan);
    let shown = &columns[..columns.len().min(WIDTH)];
    let mut lines = vec![format!(
        "day       {}",
        shown.iter().map(head).collect::<String>()
    )];
    for at in 0..plan.strings.len() {
        let row: String = shown.iter().map(|column| column.marks[at]).collect();
        lines.push(format!(
            "{:10}{}",
            format!("string {}", at + 1),
            row.trim_end()
        ));
    }
    lines.push(String::from("# work  m moving  . waiting  ! due, not done"));
    for column in shown.iter().filter(|column| column.days > 1) {
        lines.push(format!("~ days {} to {} idle", column.first, column.last()));
    }
    if let (Some(cut), Some(end)) = (
        columns.get(WIDTH).map(|_| &columns[WIDTH - 1]),
        columns.last(),
    ) {
        let (shown, last) = (cut.last(), end.last());
        lines.push(format!(
            "cut after day {shown}: the run goes on to day {last}"
        ));
    }
    lines.iter().map(|line| format!("{line}\n")).collect()
}

/// A day by its last digit.
fn head(column: &Column) -> char {
    match column.days {
        1 => char::from(b'0' + (column.first % 10) as u8),
        _ => '~',
    }
}

/// All columns of the run: its days, and the day of the miss where there is one.
fn columns(plan: &Plan) -> Vec<Column> {
    let mut days: Vec<Column> = Vec::new();
    let mut evening = Hall::empty();
    let outcome = run_watched(Policy::default(), plan, |first, hall| {
        let idle = hall.bank.is_none();
        let marks = marks(plan, hall);
        evening = hall.clone();
        evening.use_day();
        match days.last_mut() {
            Some(column) if idle && column.idle => column.days += 1,
            _ => days.push(Column {
                first,
                days: 1,
                idle,
                marks,
            }),
        }
    });
    let mut columns: Vec<Column> = days.into_iter().flat_map(shortened).collect();
    if let Outcome::Miss { day, .. } = outcome {
        columns.push(Column {
            first: day,
            days: 1,
            idle: false,
            marks: late_marks(plan, &evening, day),
        });
    }
    columns
}

/// Idle days that are few have a column each.
fn shortened(column: Column) -> Vec<Column> {
    if column.days > LONG {
        return vec![column];
    }
    let single = |first| Column {
        first,
        days: 1,
        idle: column.idle,
        marks: column.marks.clone(),
    };
    (column.first..=column.last()).map(single).collect()
}

/// After step 4, before the day is used.
fn marks(plan: &Plan, hall: &Hall) -> Vec<char> {
    let mut marks = vec![' '; plan.strings.len()];
    for job in &hall.waiting {
        marks[job.place as usize - 1] = '.';
    }
    if let Some(job) = &hall.bank {
        marks[job.place as usize - 1] = if job.moving > 0 { 'm' } else { '#' };
    }
    marks
}

/// On the day of the miss: who is due and not done.
fn late_marks(plan: &Plan, hall: &Hall, today: Day) -> Vec<char> {
    let mut marks = vec![' '; plan.strings.len()];
    for job in hall.bank.iter().chain(&hall.waiting) {
        if job.deadline == today {
            marks[job.place as usize - 1] = '!';
        }
    }
    marks
}
