//! Turning plan files of version 01 into 02 and back (document 02, W-208). Files of version 03 are not turned.

use crate::rules::frames::{read_version, Refusal};
use crate::rules::plan::Plan;
use crate::saving::Saved;
use crate::writing::{self, Version};

/// The two ways.
#[derive(Clone, Copy)]
pub enum Way {
    To02,
    To01,
}

impl Way {
    pub fn back(self) -> Way {
        match self {
            Way::To02 => Way::To01,
            Way::To01 => Way::To02,
        }
    }
}

/// A file in the other version. Version 01 has one moving cost for all strings.
pub fn turned(text: &[u8], way: Way) -> Saved {
    match way {
        Way::To02 => {
            let plan = read_version(text, Version::V01.number())?;
            Ok(writing::lines(&plan, Version::V02).concat())
        }
        Way::To01 => {
            let plan = read_version(text, Version::V02.number())?;
            one_cost(&plan)?;
            Ok(writing::lines(&plan, Version::V01).concat())
        }
    }
}

/// 12 with the line of the first string whose moving cost is another than that of place 1. The first
/// string has line 2.
fn one_cost(plan: &Plan) -> Result<(), Refusal> {
    let costs: Vec<u64> = plan.strings.iter().map(|string| string.moving).collect();
    match costs.iter().position(|cost| *cost != costs[0]) {
        Some(after) => Err(Refusal {
            number: 12,
            line: after + 2,
        }),
        None => Ok(()),
    }
}
