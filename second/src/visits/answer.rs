//! All that is written for the visits of a plan file, and for a visit list beside one.

use super::check::check;
use super::{own, text};
use crate::rules::frames::read;
use crate::rules::run::Outcome;
use crate::saving::Saved;

/// The visits of our own run, or the file's refusal.
pub fn visited(plan: &[u8]) -> Saved {
    read(plan).map(|plan| text::written(&own::visits(&plan).0))
}

/// What is said beside them where the run misses.
pub fn beside(plan: &[u8]) -> String {
    match read(plan).map(|plan| own::visits(&plan).1) {
        Ok(Outcome::Miss { day, .. }) => format!("clerk: the run misses: visits up to day {day}\n"),
        _ => String::new(),
    }
}

/// That a list is accepted, or the first refusal: those of the plan file come before those of the list.
pub fn checked(plan: &[u8], list: &[u8]) -> Saved {
    let plan = read(plan)?;
    let visits = text::read(list)?;
    check(&plan, &visits).map(|()| b"accepted\n".to_vec())
}
