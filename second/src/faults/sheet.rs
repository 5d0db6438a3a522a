//! A lawful plan laid out in lines, ready to be damaged.

use crate::chance::Chance;
use crate::plans::{releases, strings};
use crate::rules::plan::Plan;
use crate::writing::{self, Version};

/// The three kinds of line, in the order of the file.
#[derive(Clone, Copy, PartialEq)]
pub enum Kind {
    Header,
    String,
    Release,
}

pub struct Sheet {
    pub plan: Plan,
    pub version: Version,
    /// Each with its 0a. A fault changes these and leaves the plan as it was.
    pub lines: Vec<Vec<u8>>,
}

impl Sheet {
    /// A small plan with at least one line of each kind; now and then up to ten strings.
    pub fn draw(chance: &mut Chance) -> Sheet {
        let mut plan = if chance.one_in(8) {
            strings::mixed(chance, 10, 400_000)
        } else {
            strings::mixed(chance, 3, 20_000)
        };
        while plan.releases.is_empty() {
            let most = chance.between(1, 8) as usize;
            releases::fill(chance, &mut plan, most);
        }
        Sheet::of(chance, plan)
    }

    /// The plan in either version.
    pub fn of(chance: &mut Chance, plan: Plan) -> Sheet {
        let version = writing::any_version(chance, &plan);
        let lines = writing::lines(&plan, version);
        Sheet {
            plan,
            version,
            lines,
        }
    }

    pub fn text(&self) -> Vec<u8> {
        self.lines.concat()
    }

    pub fn kind(&self, line: usize) -> Kind {
        if line == 0 {
            Kind::Header
        } else if line <= self.plan.strings.len() {
            Kind::String
        } else {
            Kind::Release
        }
    }

    /// Any line of a kind, by its place in the undamaged file counted from 0.
    pub fn line_of(&self, chance: &mut Chance, kind: Kind) -> usize {
        let strings = self.plan.strings.len();
        match kind {
            Kind::Header => 0,
            Kind::String => 1 + chance.index(strings),
            Kind::Release => 1 + strings + chance.index(self.plan.releases.len()),
        }
    }

    /// Any line that the file still has.
    pub fn any_line(&self, chance: &mut Chance) -> usize {
        chance.index(self.lines.len())
    }
}
