//! Plans at the border between pass and fail.

use super::shaped::contrast;
use super::strings::{cost_limit, mixed};
use crate::chance::Chance;
use crate::rules::plan::{Length, Plan};
use crate::rules::rule::passes;
use crate::rules::search::search;

/// A number of the plan that is made harder step by step.
#[derive(Clone, Copy)]
enum Knob {
    MoreWork(usize),
    EarlierDeadline(usize),
    MoreMoving(usize),
    MoreLateDays(usize),
}

/// A plan that passes, and the same plan one step harder, which fails or is overloaded.
pub struct Border {
    pub inside: Plan,
    pub outside: Plan,
}

/// Draws plans until one has a border.
pub fn border(chance: &mut Chance) -> Border {
    loop {
        let plan = passing(chance);
        let knob = any_knob(chance, &plan);
        if let Some(border) = border_along(&plan, knob) {
            return border;
        }
    }
}

/// A plan that passes with the X that it carries.
pub fn passing(chance: &mut Chance) -> Plan {
    loop {
        let plan = if chance.one_in(2) {
            contrast(chance)
        } else {
            let limit = cost_limit(chance, 400_000);
            mixed(chance, 6, limit)
        };
        if let Some(plan) = eased(plan) {
            return plan;
        }
    }
}

fn does_pass(plan: &Plan) -> bool {
    plan.cycle().map_or(false, |cycle| passes(plan, cycle))
}

/// Gives the plan other permissions, or less work and moving and fewer late days, until it passes.
fn eased(mut plan: Plan) -> Option<Plan> {
    let cycle = plan.cycle()?;
    for _ in 0..4 {
        if passes(&plan, cycle) {
            return Some(plan);
        }
        if let Some(set) = search(&plan, cycle) {
            return Some(plan.with_set(set));
        }
        for string in &mut plan.strings {
            string.moving /= 2;
            string.late /= 2;
            string.c = (string.c + 1) / 2;
        }
    }
    None
}

fn any_knob(chance: &mut Chance, plan: &Plan) -> Knob {
    let at = chance.index(plan.strings.len());
    match chance.below(6) {
        0 | 1 => Knob::MoreWork(at),
        2 => Knob::EarlierDeadline(at),
        3 => Knob::MoreMoving(at),
        _ => Knob::MoreLateDays(at),
    }
}

fn most_steps(plan: &Plan, knob: Knob) -> Length {
    let room = |at: usize| plan.strings[at].d - plan.strings[at].late - plan.strings[at].c;
    match knob {
        Knob::MoreWork(at) | Knob::EarlierDeadline(at) | Knob::MoreLateDays(at) => room(at),
        Knob::MoreMoving(at) => 1_000 - plan.strings[at].moving,
    }
}

fn turned(plan: &Plan, knob: Knob, steps: Length) -> Plan {
    let mut plan = plan.clone();
    match knob {
        Knob::MoreWork(at) => plan.strings[at].c += steps,
        Knob::EarlierDeadline(at) => plan.strings[at].d -= steps,
        Knob::MoreMoving(at) => plan.strings[at].moving += steps,
        Knob::MoreLateDays(at) => plan.strings[at].late += steps,
    }
    plan
}

/// Halves the way between a passing and a failing plan until they are neighbours.
fn border_along(plan: &Plan, knob: Knob) -> Option<Border> {
    let (mut inside, mut outside) = (0, most_steps(plan, knob));
    if does_pass(&turned(plan, knob, outside)) {
        return None;
    }
    while outside - inside > 1 {
        let middle = (inside + outside) / 2;
        if does_pass(&turned(plan, knob, middle)) {
            inside = middle;
        } else {
            outside = middle;
        }
    }
    Some(Border {
        inside: turned(plan, knob, inside),
        outside: turned(plan, knob, outside),
    })
}
