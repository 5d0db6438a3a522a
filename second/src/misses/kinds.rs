//! How many plans got which answer.

use super::check::Said;
use std::fmt;

#[derive(Default)]
pub struct Kinds {
    passes: u64,
    never: u64,
    found: u64,
    too_many: u64,
    none_found: u64,
    /// Of those for which none was found, the plans that can miss, where every list was gone through.
    overlooked: Option<u64>,
}

impl Kinds {
    /// For plans whose lists are all gone through.
    pub fn beside_every_list() -> Kinds {
        Kinds {
            overlooked: Some(0),
            ..Kinds::default()
        }
    }

    pub fn add(&mut self, said: Said, can_miss: bool) {
        match said {
            Said::Passes => self.passes += 1,
            Said::Never => self.never += 1,
            Said::Found => self.found += 1,
            Said::TooMany => self.too_many += 1,
            Said::NoneFound => {
                self.none_found += 1;
                self.overlooked = self.overlooked.map(|count| count + u64::from(can_miss));
            }
        }
    }

    pub fn all(&self) -> u64 {
        self.passes + self.failing()
    }

    pub fn failing(&self) -> u64 {
        self.never + self.found + self.too_many + self.none_found
    }
}

impl fmt::Display for Kinds {
    fn fmt(&self, out: &mut fmt::Formatter) -> fmt::Result {
        write!(
            out,
            "{} pass; {} fail and never miss; releases that miss for {}, over 1,000 of them for {}; none found for {}",
            self.passes, self.never, self.found, self.too_many, self.none_found
        )?;
        match self.overlooked {
            Some(can) => write!(out, ": {can} can miss, {} cannot", self.none_found - can),
            None => Ok(()),
        }
    }
}
