//! What the clerk is asked about how far a plan can be changed.

use super::answer::{passes_with, told, Number, NUMBERS};
use crate::questions::Asked;
use crate::rules::frames::read;
use crate::rules::plan::Plan;

pub fn about(text: &[u8], name: &str) -> Result<Vec<Asked>, &'static str> {
    let plan = read(text);
    if plan.as_ref().map_or(false, |plan| !is_gapless(plan)) {
        return Err("an eased plan fails");
    }
    let answer = plan.map(|plan| told(&plan).into_bytes());
    Ok(vec![Asked::new(format!("slack {name}"), answer)])
}

/// Easing never hurts (W-212, W-213): once a value passes, every easier lawful one does; of D only where J is 0. T is left out here: its
/// values are many and slow.
fn is_gapless(plan: &Plan) -> bool {
    let mut bare = plan.clone();
    bare.releases.clear();
    (0..bare.strings.len()).all(|at| {
        let late = bare.strings[at].late > 0;
        NUMBERS
            .iter()
            .map(|(number, _)| *number)
            .filter(|number| *number != Number::T && !(*number == Number::D && late))
            .all(|number| no_gap(&bare, at, number))
    })
}

fn no_gap(plan: &Plan, at: usize, number: Number) -> bool {
    let lawful = number
        .hardest_first()
        .filter(|value| super::answer::with_value(plan, at, number, *value).is_some());
    let mut passed = false;
    for value in lawful {
        let passes = passes_with(plan, at, number, value);
        if passed && !passes {
            return false;
        }
        passed |= passes;
    }
    true
}
