//! All that is written for one plan file.

use super::frames::{read, Refusal};
use super::plan::Plan;
use super::rule::{verdict, Verdict};
use super::run::{run, Outcome};
use super::search::search;
use std::fmt;

pub enum Answer {
    Refused(Refusal),
    Given {
        verdict: Verdict,
        set: Option<u32>,
        outcome: Outcome,
    },
}

impl Answer {
    pub fn of_text(text: &[u8]) -> Answer {
        match read(text) {
            Ok(plan) => Answer::of_plan(&plan),
            Err(refusal) => Answer::Refused(refusal),
        }
    }

    /// The answer on a plan that was read. The verdict and the run use the X it carries.
    fn of_plan(plan: &Plan) -> Answer {
        let cycle = plan.cycle().expect("a plan that was read has H in bounds");
        Answer::Given {
            verdict: verdict(plan, cycle),
            set: search(plan, cycle),
            outcome: run(plan),
        }
    }

    /// Whether this answer shows a plan that passes and yet misses a deadline.
    pub fn breaks_the_claim(&self) -> bool {
        matches!(
            self,
            Answer::Given {
                verdict: Verdict::Pass { .. },
                outcome: Outcome::Miss { .. },
                ..
            }
        )
    }
}

impl fmt::Display for Answer {
    fn fmt(&self, out: &mut fmt::Formatter) -> fmt::Result {
        match self {
            Answer::Refused(Refusal { number, line }) => {
                writeln!(out, "refused {number} line {line}")
            }
            Answer::Given {
                verdict,
                set,
                outcome,
            } => {
                writeln!(out, "{verdict}")?;
                match set {
                    Some(set) => writeln!(out, "assign {set}")?,
                    None => writeln!(out, "assign none")?,
                }
                writeln!(out, "{outcome}")
            }
        }
    }
}
