//! Plans shown in decimal words, as `clerk show` writes them. No document says where J and the due day stand: they are said where there
//! is something to say, J behind D and the due day behind the day, so that a plan without late days is shown as it was.

use crate::rules::plan::{BatteryString, Length, Plan, Release};
use crate::rules::rule::load;

/// A line for the plan, for each string, for H and the load, and for each release of a plan within its bounds.
pub fn shown(plan: &Plan, cycle: Length) -> String {
    let mut lines = vec![format!(
        "plan strings {} run {}",
        plan.strings.len(),
        plan.days
    )];
    for (before, string) in plan.strings.iter().enumerate() {
        lines.push(string_line(plan, before + 1, string));
    }
    lines.push(format!("H {cycle} load {} of {cycle}", load(plan, cycle)));
    for (before, release) in plan.releases.iter().enumerate() {
        lines.push(release_line(before + 1, release));
    }
    lines.iter().map(|line| format!("{line}\n")).collect()
}

fn string_line(plan: &Plan, place: usize, string: &BatteryString) -> String {
    let permission = if string.x == 1 {
        "may take"
    } else {
        "may not take"
    };
    let late = match string.late {
        0 => String::new(),
        days => format!(" late {days}"),
    };
    format!(
        "string {place} {permission} T {} C {} D {}{late} moving {} E {}",
        string.t,
        string.c,
        string.d,
        string.moving,
        plan.hold(string)
    )
}

fn release_line(number: usize, release: &Release) -> String {
    let due = if release.due == release.day {
        String::new()
    } else {
        format!(" due {}", release.due)
    };
    format!(
        "release {number} day {}{due} string {} need {}",
        release.day, release.place, release.need
    )
}
