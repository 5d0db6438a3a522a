//! The claim that a plan which passes never misses, tried with many lists of releases.

use super::border::{border, passing};
use super::releases;
use crate::chance::Chance;
use crate::rules::plan::Plan;
use crate::rules::run::{run, Outcome};

/// Lists tried on each plan that passes.
const LISTS: usize = 40;

/// A passing plan with the first list that misses; if none does, as it must be, with the last.
///
/// Whoever answers the plan sees from its verdict and its run that the claim is broken.
pub fn pressed(chance: &mut Chance) -> Plan {
    let mut plan = if chance.one_in(3) {
        passing(chance)
    } else {
        border(chance).inside
    };
    for _ in 0..LISTS {
        let most = chance.between(2, 40) as usize;
        releases::fill(chance, &mut plan, most);
        if matches!(run(&plan), Outcome::Miss { .. }) {
            return plan;
        }
    }
    plan
}
