//! Runs told stint by stint, as `clerk run` writes them.

use crate::rules::frames::read;
use crate::rules::plan::{Length, Plan, Release};
use crate::rules::run::{Outcome, Use};
use crate::rules::stints::{stints, Stint};
use crate::saving::Saved;

/// A line for each stint of a file's run and one for how it ends, or the file's refusal.
pub fn ran(text: &[u8]) -> Saved {
    read(text).map(|plan| told(&plan).into_bytes())
}

pub fn told(plan: &Plan) -> String {
    let (stints, outcome) = stints(plan);
    let mut lines: String = stints.iter().map(|stint| format!("{stint}\n")).collect();
    lines += &format!("{outcome}\n");
    lines
}

/// What this program claims of the stints of a plan's run: each day of the run is in one of them, in order, none could be longer, there
/// are at most three for each release and one more, and they say what the run's last line says.
pub fn claim_broken(plan: &Plan) -> Option<&'static str> {
    let (stints, outcome) = stints(plan);
    if !stints_follow(&stints, days_run(plan, &outcome)) {
        return Some("the stints do not follow each other");
    }
    if stints.windows(2).any(|pair| pair[0].used == pair[1].used) {
        return Some("two stints are one");
    }
    if stints.len() > 3 * plan.releases.len() + 1 {
        return Some("there are more stints than three for each release and one more");
    }
    match outcome {
        Outcome::Miss { .. } => None,
        Outcome::Clean { work, moving, idle } => {
            if [work, moving, idle] != sums(&stints) {
                Some("the stints add up to other days")
            } else if !serve_in_time(plan, &stints) {
                Some("a clean run does not serve a release in time")
            } else {
                None
            }
        }
    }
}

/// The days of the run: those before the miss, where there is one.
fn days_run(plan: &Plan, outcome: &Outcome) -> Length {
    match outcome {
        Outcome::Miss { day, .. } => *day,
        Outcome::Clean { .. } => plan.days,
    }
}

fn stints_follow(stints: &[Stint], days: Length) -> bool {
    let mut next = 0;
    for stint in stints {
        if stint.first != next || stint.length == 0 {
            return false;
        }
        next = stint.end();
    }
    next == days
}

/// The days of work, of moving, and idle.
fn sums(stints: &[Stint]) -> [Length; 3] {
    let mut sums = [0; 3];
    for stint in stints {
        let kind = match stint.used {
            Use::Work { .. } => 0,
            Use::Moving { .. } => 1,
            Use::Idle => 2,
        };
        sums[kind] += stint.length;
    }
    sums
}

/// Each release has all its work by its deadline, if that is within the run, and no day that serves it lies outside its own time.
fn serve_in_time(plan: &Plan, stints: &[Stint]) -> bool {
    let mut work = vec![0; plan.releases.len()];
    for stint in stints {
        let number = match stint.used {
            Use::Work { release, .. } => {
                work[release - 1] += stint.length;
                release
            }
            Use::Moving { release, .. } => release,
            Use::Idle => continue,
        };
        let release = &plan.releases[number - 1];
        if stint.first < release.day || plan.deadline(release) < stint.end() {
            return false;
        }
    }
    let has_all = |(release, work): (&Release, Length)| {
        plan.deadline(release) > plan.days || work == release.need
    };
    plan.releases.iter().zip(work).all(has_all)
}
