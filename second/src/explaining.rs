//! Where a verdict comes from, as `clerk why` and `clerk demand` write it.

use crate::rules::frames::read;
use crate::rules::plan::{Length, Plan};
use crate::rules::rule::{blocking_limit, demand, jobs, load, verdict, Verdict, PAGE};
use crate::saving::Saved;

/// The column in which the numbers of a sum end.
const COLUMN: usize = 41;

/// What is written for a file, or its refusal.
pub fn explained(text: &[u8]) -> Saved {
    read(text).map(|plan| why(&plan).into_bytes())
}

pub fn staircase(text: &[u8]) -> Saved {
    read(text).map(|plan| stairs(&plan).into_bytes())
}

/// The pair that the verdict names, string by string; of a pass the first pair with the least to spare, of an overload the load.
pub fn why(plan: &Plan) -> String {
    let cycle = plan.cycle().expect("a plan that was read has H in bounds");
    match verdict(plan, cycle) {
        Verdict::Overload => over(plan, cycle),
        Verdict::Fail {
            interval, blocking, ..
        } => pair(plan, interval, blocking),
        Verdict::Pass { .. } => {
            let (interval, blocking) = tightest(plan, cycle);
            pair(plan, interval, blocking)
        }
    }
}

fn pairs(plan: &Plan, cycle: Length) -> impl Iterator<Item = (Length, Length)> + '_ {
    (1..=(PAGE.last)(plan, cycle)).flat_map(move |interval| {
        (0..=blocking_limit(&PAGE, plan, interval)).map(move |blocking| (interval, blocking))
    })
}

fn tightest(plan: &Plan, cycle: Length) -> (Length, Length) {
    // of several that are least, `min_by_key` gives the first
    pairs(plan, cycle)
        .min_by_key(|(interval, blocking)| interval - demand(plan, *interval, *blocking))
        .expect("there is an interval of one day")
}

fn pair(plan: &Plan, interval: Length, blocking: Length) -> String {
    let mut lines = vec![format!("interval {interval} blocking {blocking}")];
    if blocking > 0 {
        lines.push(blocker(plan, interval));
    }
    lines.push(columned("blocking", blocking));
    lines.extend((1..=plan.strings.len()).map(|place| share(plan, interval, blocking, place)));
    let asked = demand(plan, interval, blocking);
    let end = if asked > interval {
        format!("{} too many", asked - interval)
    } else {
        format!("{} spare", interval - asked)
    };
    lines.push(format!("demand {asked} of {interval}: {end}"));
    ended(lines)
}

/// The first string of those due after the interval that hold the bank for longest.
fn blocker(plan: &Plan, interval: Length) -> String {
    let later = |place: &usize| plan.strings[place - 1].d > interval;
    let longest = |place: &usize| plan.hold(&plan.strings[place - 1]);
    // of several, `max_by_key` gives the last: so from the last place on
    let place = (1..=plan.strings.len())
        .rev()
        .filter(later)
        .max_by_key(longest)
        .expect("something blocks");
    let string = &plan.strings[place - 1];
    let hold = plan.hold(string);
    format!(
        "blocker string {place}: E {hold}, due {}, holds at most {}",
        string.d,
        hold - 1
    )
}

fn share(plan: &Plan, interval: Length, blocking: Length, place: usize) -> String {
    let string = &plan.strings[place - 1];
    let window = if string.x == 1 {
        interval - blocking
    } else {
        interval
    };
    let (count, each) = (jobs(string, window), plan.hold(string));
    let name = format!("string {place}");
    let counts = format!(
        "{} in {}, {each} each",
        counted(count, "job"),
        counted(window, "day")
    );
    columned(&format!("{name:<11}{counts}"), count * each)
}

fn counted(count: u64, what: &str) -> String {
    if count == 1 {
        format!("1 {what}")
    } else {
        format!("{count} {what}s")
    }
}

/// A number whose last digit stands in the column, or as far to the right as the text needs.
fn columned(text: &str, number: u64) -> String {
    let digits = number.to_string();
    let width = COLUMN.saturating_sub(digits.len()).max(text.len() + 1);
    format!("{text:<width$}{digits}")
}

/// The load, as each string asks for it over H days.
fn over(plan: &Plan, cycle: Length) -> String {
    let mut lines = vec![format!("H {cycle}")];
    for (before, string) in plan.strings.iter().enumerate() {
        let (count, each) = (cycle / string.t, plan.hold(string));
        let name = format!("string {}", before + 1);
        let counts = format!(
            "{} in {}, {each} each",
            counted(count, "job"),
            counted(cycle, "day")
        );
        lines.push(columned(&format!("{name:<11}{counts}"), count * each));
    }
    let load = load(plan, cycle);
    lines.push(format!("load {load} of {cycle}: {} too many", load - cycle));
    ended(lines)
}

/// A line for each interval at which some demand grows, and where the rule is broken.
pub fn stairs(plan: &Plan) -> String {
    let cycle = plan.cycle().expect("a plan that was read has H in bounds");
    let last = (PAGE.last)(plan, cycle);
    let mut lines = Vec::new();
    let mut broken: Vec<(Length, Length)> = Vec::new();
    for interval in 1..=last {
        let blockings = 0..=blocking_limit(&PAGE, plan, interval);
        let top = blockings.clone().map(|b| demand(plan, interval, b)).max();
        let top = top.expect("no blocking is one");
        if blockings.clone().any(|b| grows(plan, interval, b)) {
            lines.push(if top > interval {
                format!("interval {interval} demand {top} over {}", top - interval)
            } else {
                format!("interval {interval} demand {top} spare {}", interval - top)
            });
        }
        if top > interval {
            match broken.last_mut() {
                Some((_, end)) if *end + 1 == interval => *end = interval,
                _ => broken.push((interval, interval)),
            }
        }
    }
    if broken.is_empty() {
        lines.push(format!("broken nowhere, of {last}"));
    }
    for (first, end) in broken {
        lines.push(if first == end {
            format!("broken at {first}, of {last}")
        } else {
            format!("broken at {first} to {end}, of {last}")
        });
    }
    ended(lines)
}

/// Whether some string's jobs are more than a day before, with the blocking held. A window of less than no days has none.
fn grows(plan: &Plan, interval: Length, blocking: Length) -> bool {
    plan.strings.iter().any(|string| {
        let within = |days: Length| {
            if string.x == 1 {
                days.checked_sub(blocking).map_or(0, |left| jobs(string, left))
            } else {
                jobs(string, days)
            }
        };
        within(interval) > within(interval - 1)
    })
}

fn ended(lines: Vec<String>) -> String {
    lines.iter().map(|line| format!("{line}\n")).collect()
}
