//! The hardest lawful value of each number with which a plan passes, all else as it is.

use crate::rules::plan::{BatteryString, Length, Plan};
use crate::rules::rule::{passes, verdict};

/// A number of a string.
#[derive(Clone, Copy, PartialEq)]
pub enum Number {
    C,
    D,
    T,
    Moving,
    Late,
}

/// In the order of the line.
pub const NUMBERS: [(Number, &str); 5] = [
    (Number::C, "C"),
    (Number::D, "D"),
    (Number::T, "T"),
    (Number::Moving, "moving"),
    (Number::Late, "late"),
];

/// No number of a lawful string is larger.
pub const LARGEST: Length = 1_000;

impl Number {
    pub fn of(self, string: &mut BatteryString) -> &mut Length {
        match self {
            Number::C => &mut string.c,
            Number::D => &mut string.d,
            Number::T => &mut string.t,
            Number::Moving => &mut string.moving,
            Number::Late => &mut string.late,
        }
    }

    /// Whether more is harder: of a job's length, of moving and of late days. Of D and T less is.
    fn hurts_by_growing(self) -> bool {
        matches!(self, Number::C | Number::Moving | Number::Late)
    }

    /// Every value that could be lawful, the hardest first.
    pub fn hardest_first(self) -> Box<dyn Iterator<Item = Length>> {
        if self.hurts_by_growing() {
            Box::new((0..=LARGEST).rev())
        } else {
            Box::new(0..=LARGEST)
        }
    }
}

/// The plan with another value, if it is lawful so.
pub fn with_value(plan: &Plan, at: usize, number: Number, value: Length) -> Option<Plan> {
    let mut changed = plan.clone();
    *number.of(&mut changed.strings[at]) = value;
    let bounded = changed.strings[at].is_bounded() && changed.cycle().is_some();
    bounded.then_some(changed)
}

/// Whether the plan is lawful and passes with another value.
pub fn passes_with(plan: &Plan, at: usize, number: Number, value: Length) -> bool {
    with_value(plan, at, number, value).map_or(false, |changed| {
        let cycle = changed.cycle().expect("a lawful plan has H in bounds");
        passes(&changed, cycle)
    })
}

pub fn limit(plan: &Plan, at: usize, number: Number) -> Option<Length> {
    number
        .hardest_first()
        .find(|value| passes_with(plan, at, number, *value))
}

/// The verdict, then a line for each string.
pub fn told(plan: &Plan) -> String {
    // releases play no part, and a plan is copied for each value
    let mut bare = plan.clone();
    bare.releases.clear();
    let cycle = bare.cycle().expect("a plan that was read has H in bounds");
    let mut lines = format!("{}\n", verdict(&bare, cycle));
    for at in 0..bare.strings.len() {
        lines += &format!("string {}", at + 1);
        for (number, word) in NUMBERS {
            let value = *number.of(&mut bare.strings[at].clone());
            let limit = limit(&bare, at, number).map_or("none".to_string(), |v| v.to_string());
            lines += &format!(" {word} {value} limit {limit}");
        }
        lines += "\n";
    }
    lines
}
