//! The search for permissions.

use super::plan::{Length, Plan};
use super::rule::{passes_by, Rule, PAGE};

/// The passing set with the fewest ones, among equals the smallest number.
pub fn search(plan: &Plan, cycle: Length) -> Option<u32> {
    search_by(&PAGE, plan, cycle)
}

pub fn search_by(rule: &Rule, plan: &Plan, cycle: Length) -> Option<u32> {
    let count = plan.strings.len() as u32;
    // Going by ones first and by number second, the first that passes is the answer.
    for ones in 0..=count {
        for set in 0..1u32 << count {
            if set.count_ones() == ones && passes_by(rule, &plan.with_set(set), cycle) {
                return Some(set);
            }
        }
    }
    None
}
