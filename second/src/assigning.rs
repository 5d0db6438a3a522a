//! The plan with the set that the search finds, as `clerk assign` writes it.

use crate::rules::frames::read;
use crate::rules::plan::Plan;
use crate::rules::rule::passes;
use crate::rules::search::search;
use crate::saving::Saved;
use crate::writing;

/// What the clerk says on standard error where no set passes.
pub const NOBODY: &str = "clerk: none: no set passes\n";

/// The file of a file's plan with the set found, nothing where there is none, or the file's refusal.
pub fn assigned(text: &[u8]) -> Saved {
    read(text).map(|plan| with_found(&plan).map_or(Vec::new(), |plan| writing::text(&plan)))
}

pub fn with_found(plan: &Plan) -> Option<Plan> {
    let cycle = plan.cycle().expect("a plan that was read has H in bounds");
    search(plan, cycle).map(|set| plan.with_set(set))
}

/// What this program claims of the file that is written: it says the same strings and releases but for X, and that plan passes.
pub fn claim_broken(text: &[u8], written: &[u8]) -> Option<&'static str> {
    let (before, after) = match (read(text), read(written)) {
        (Ok(before), Ok(after)) => (before, after),
        _ => return Some("the plan with the set is refused"),
    };
    if before.with_set(0) != after.with_set(0) {
        return Some("the plan with the set differs in more than X");
    }
    let cycle = after.cycle().expect("a plan that was read has H in bounds");
    (!passes(&after, cycle)).then(|| "the plan with the set does not pass")
}
