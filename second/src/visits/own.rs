//! The visits of our own run.

use super::Visit;
use crate::rules::plan::{Plan, Release};
use crate::rules::run::{Outcome, Use};
use crate::rules::stints::stints;

/// In day order, those up to the miss where there is one; stints of one release that touch are one visit, whether moving or work.
pub fn visits(plan: &Plan) -> (Vec<Visit>, Outcome) {
    let (stints, outcome) = stints(plan);
    let mut visits: Vec<Visit> = Vec::new();
    for stint in stints {
        let release = match stint.used {
            Use::Work { release, .. } | Use::Moving { release, .. } => release as u64,
            Use::Idle => continue,
        };
        match visits.last_mut() {
            Some(last) if last.release == release && last.end() == stint.first => {
                last.length += stint.length;
            }
            _ => visits.push(Visit {
                release,
                first: stint.first,
                length: stint.length,
            }),
        }
    }
    (visits, outcome)
}

/// Whether the request promises that the visits of our own run are accepted: moving is free, every deadline is inside the run, and the run
/// is clean.
pub fn must_be_accepted(plan: &Plan, outcome: &Outcome) -> bool {
    let inside = |release: &Release| plan.deadline(release) <= plan.days;
    plan.strings.iter().all(|string| string.moving == 0)
        && plan.releases.iter().all(inside)
        && matches!(outcome, Outcome::Clean { .. })
}
