//! What the clerk may write for a plan, held against the rules.

use super::payable::payable;
use super::sharp::{free_breaks, passes_sharply};
use crate::rules::frames::read;
use crate::rules::plan::{Length, Plan};
use crate::rules::rule::passes;
use crate::rules::run::{run, Outcome};

/// What the clerk said.
#[derive(Clone, Copy, PartialEq)]
pub enum Said {
    Passes,
    Never,
    NoneFound,
    TooMany,
    Found,
}

/// The most releases that a plan file may have.
const MOST_RELEASES: u64 = 1_000;

/// What was said for a lawful plan, a plan file or else the reason for none, or why that is wrong.
pub fn said(plan: &Plan, given: &[u8], reason: Option<&str>) -> Result<Said, &'static str> {
    let cycle = plan.cycle().ok_or("the plan is not lawful")?;
    let does_pass = passes(plan, cycle);
    match reason {
        Some("clerk: none: the plan passes") if does_pass => Ok(Said::Passes),
        Some("clerk: none: the plan passes") => Err("the plan does not pass"),
        _ if does_pass => Err("the plan passes"),
        Some("clerk: none: it fails, and no list misses") if never_misses(plan, cycle) => {
            Ok(Said::Never)
        }
        Some("clerk: none: it fails, and no list misses") => {
            Err("that no list misses is not known")
        }
        _ if never_misses(plan, cycle) => Err("no list misses"),
        Some("clerk: none found") => none_found(plan, cycle),
        Some("clerk: none written: the list has over 1000 releases") => too_many(plan, cycle),
        Some(_) => Err("no reason for none"),
        None => found(plan, given),
    }
}

/// No list misses where the plan passes without the blocker's own jobs, or does once the costs are left out that nobody can be charged.
fn never_misses(plan: &Plan, cycle: Length) -> bool {
    passes_sharply(plan, cycle) || passes_sharply(&payable(plan), cycle)
}

/// Where the jobs alone ask too much, the blocker's left out, there is a list, late days or not.
fn none_found(plan: &Plan, cycle: Length) -> Result<Said, &'static str> {
    if free_breaks(plan, cycle).is_empty() {
        Ok(Said::NoneFound)
    } else {
        Err("there is a list")
    }
}

/// Where the rule with free moving breaks there is a list; it may be too long for a file.
fn too_many(plan: &Plan, cycle: Length) -> Result<Said, &'static str> {
    let breaks = free_breaks(plan, cycle);
    if breaks.is_empty() {
        Err("with free moving there is no list")
    } else if breaks.iter().any(|one| one.releases(plan) > MOST_RELEASES) {
        Ok(Said::TooMany)
    } else {
        Err("there is a list that is not too long")
    }
}

/// A plan file with the same strings, N raised or kept, and releases that miss.
fn found(plan: &Plan, text: &[u8]) -> Result<Said, &'static str> {
    let shown = read(text).map_err(|_| "no lawful plan file was written")?;
    if shown.strings != plan.strings {
        return Err("other strings were written");
    }
    if shown.days < plan.days {
        return Err("N was lowered");
    }
    match run(&shown) {
        Outcome::Miss { .. } => Ok(Said::Found),
        Outcome::Clean { .. } => Err("the run does not miss"),
    }
}
