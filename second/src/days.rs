//! A run as a table of days, such that a class can follow it: who is on the bank, who waits, who is due when.

use crate::rules::plan::{Day, Plan};
use crate::rules::run::{run_watched, Hall, Job, Outcome, Policy};

/// A line for each day up to the first miss or the last release's deadline, and how the run ends.
pub fn told(plan: &Plan) -> String {
    let last = plan
        .releases
        .iter()
        .map(|release| plan.deadline(release))
        .max()
        .unwrap_or(0);
    let mut lines = Vec::new();
    let outcome = run_watched(Policy::default(), plan, |day, hall| {
        if day < last {
            lines.push(line(plan, day, hall));
        }
    });
    while lines
        .last()
        .map_or(false, |line: &String| line.ends_with(IDLE))
    {
        lines.pop();
    }
    if let Outcome::Miss { day, place } = outcome {
        lines.push(format!("day {day:3}   string {place} is due and not done"));
    }
    lines.push(format!("{outcome}\n"));
    lines.join("\n")
}

const IDLE: &str = "nobody";

fn line(plan: &Plan, day: Day, hall: &Hall) -> String {
    let joined: Vec<String> = plan
        .releases
        .iter()
        .filter(|release| release.day == day)
        .map(|release| format!("{}", release.place))
        .collect();
    let mut line = format!("day {day:3}   ");
    if !joined.is_empty() {
        line += &format!("joins: {}; ", joined.join(" and "));
    }
    match &hall.bank {
        None => line += &format!("on the bank: {IDLE}"),
        Some(job) => line += &format!("on the bank: {}", held(job)),
    }
    let mut waiting: Vec<&Job> = hall.waiting.iter().collect();
    waiting.sort_by_key(|job| job.place);
    for job in waiting {
        line += &format!("; waits: {} (due {})", job.place, job.deadline);
    }
    line
}

fn held(job: &Job) -> String {
    let (what, left) = if job.moving > 0 {
        ("moving", job.moving)
    } else {
        ("working", job.work)
    };
    format!("{} {what}, {left} to go (due {})", job.place, job.deadline)
}
