//! Lists that a contractor might send for a plan.

use super::{own, Visit};
use crate::rules::plan::Plan;

/// The visits of our run if moving were free, put off so that each visit after the first of its release has its moving as well: the list
/// often is accepted where moving costs days, which our own run's seldom is.
pub fn with_moving(plan: &Plan) -> Vec<Visit> {
    let mut free = plan.clone();
    free.set_moving(0);
    let mut visits: Vec<Visit> = Vec::new();
    for mut visit in own::visits(&free).0 {
        let again = visits
            .iter()
            .any(|earlier| earlier.release == visit.release);
        if again {
            let release = &plan.releases[visit.release as usize - 1];
            visit.length += plan.string_of(release).moving;
        }
        let free_from = visits.last().map_or(0, Visit::end);
        visit.first = visit.first.max(free_from);
        visits.push(visit);
    }
    visits
}

/// Two releases at a time on the bank by turns, a day or two each: a long list.
pub fn by_turns(plan: &Plan, step: u64) -> Vec<Visit> {
    let mut visits = Vec::new();
    let mut left: Vec<u64> = plan.releases.iter().map(|release| release.need).collect();
    let mut day = 0;
    for pair in (0..plan.releases.len()).collect::<Vec<_>>().chunks(2) {
        let last_day = pair.iter().map(|at| plan.releases[*at].day).max();
        day = last_day.unwrap_or(0).max(day);
        while pair.iter().any(|at| left[*at] > 0) {
            for at in pair {
                let length = left[*at].min(step);
                if length > 0 {
                    visits.push(Visit {
                        release: *at as u64 + 1,
                        first: day,
                        length,
                    });
                }
                left[*at] -= length;
                day += length;
            }
        }
    }
    visits
}
