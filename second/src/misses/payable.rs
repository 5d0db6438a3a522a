//! Moving that nobody can ever be charged.
//!
//! A job pays on the day on which it is released, where it takes the bank from a job of another string that is due strictly later. That job
//! was released a day before at the latest, has used a day and has one left. So some other string has a D that is two days longer than the
//! payer's D less its late days, and an E of two days at least. A string for which there is none never pays: its cost can be left out, and
//! then others may have an E that is too short.

use crate::rules::plan::Plan;

/// The plan without the costs that nobody can be charged, again until nothing changes.
pub fn payable(plan: &Plan) -> Plan {
    let mut left = plan.clone();
    while let Some(at) = (0..left.strings.len()).find(|at| is_idle_cost(&left, *at)) {
        left.strings[at].moving = 0;
    }
    left
}

/// The string has a moving cost, and no job of it ever pays.
fn is_idle_cost(plan: &Plan, at: usize) -> bool {
    plan.strings[at].moving > 0 && !can_pay(plan, at)
}

fn can_pay(plan: &Plan, at: usize) -> bool {
    let payer = &plan.strings[at];
    let loses = |other: usize| {
        let string = &plan.strings[other];
        other != at && string.d + payer.late >= payer.d + 2 && plan.hold(string) >= 2
    };
    payer.x == 1 && (0..plan.strings.len()).any(loses)
}
