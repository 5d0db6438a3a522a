//! The run as stints: stretches of days on which the bank does one thing.

use super::plan::{Day, Length, Plan};
use super::run::{run_watched, Outcome, Policy, Use};
use std::fmt;

#[derive(Clone, Debug, PartialEq)]
pub struct Stint {
    pub first: Day,
    pub length: Length,
    pub used: Use,
}

impl Stint {
    /// The day after its last.
    pub fn end(&self) -> Day {
        self.first + self.length
    }
}

/// The stints of the run up to the miss, or of all N days, and how the run ends. Every day is walked; one that goes into the same as
/// the day before is a day of the same stint.
pub fn stints(plan: &Plan) -> (Vec<Stint>, Outcome) {
    let mut stints: Vec<Stint> = Vec::new();
    let outcome = run_watched(Policy::default(), plan, |first, hall| {
        let used = hall.today();
        match stints.last_mut() {
            Some(stint) if stint.used == used => stint.length += 1,
            _ => stints.push(Stint {
                first,
                length: 1,
                used,
            }),
        }
    });
    (stints, outcome)
}

impl fmt::Display for Stint {
    fn fmt(&self, out: &mut fmt::Formatter) -> fmt::Result {
        match self.length {
            1 => write!(out, "day {} ", self.first)?,
            _ => write!(out, "days {} to {} ", self.first, self.end() - 1)?,
        }
        match self.used {
            Use::Work { place, release } => write!(out, "place {place} work release {release}"),
            Use::Moving { place, release } => write!(out, "place {place} move release {release}"),
            Use::Idle => write!(out, "idle"),
        }
    }
}
