//! Pairs of plan files: another order, another order with one number changed, alike strings, other numbers of strings, damage.

use crate::chance::Chance;
use crate::plans::{releases, shaped, strings};
use crate::rules::plan::Plan;
use crate::writing;

pub struct Pair {
    pub first: Vec<u8>,
    pub second: Vec<u8>,
}

/// The pair of this number: the kinds in turn.
pub fn pair(seed: u64, number: u64) -> Pair {
    let chance = &mut Chance::new(seed, number);
    let mut plan = strings_of(chance, number);
    let most = chance.between(0, 12) as usize;
    releases::fill(chance, &mut plan, most);
    let mut other = shuffled(chance, &plan);
    match number / 4 % 6 {
        // a run and releases of its own
        0 if chance.one_in(2) => releases::fill(chance, &mut other, 5),
        0 | 1 => {}
        2 => change_one(chance, &mut other),
        3 => become_another(chance, &mut other),
        4 => change_length(chance, &mut other),
        _ => return damaged(chance, &plan, &other),
    }
    Pair {
        first: writing::any_text(chance, &plan),
        second: writing::any_text(chance, &other),
    }
}

/// Strings of all kinds, plain or with some alike, and such as make the search choose.
fn strings_of(chance: &mut Chance, number: u64) -> Plan {
    let limit = strings::cost_limit(chance, 300_000);
    match number % 4 {
        0 => strings::mixed(chance, 8, limit),
        1 => shaped::choices(chance),
        2 => shaped::contrast(chance),
        _ => {
            let mut plan = strings::mixed(chance, 8, limit);
            repeat_some(chance, &mut plan);
            plan
        }
    }
}

/// Some strings the same as others. The releases are still to come.
fn repeat_some(chance: &mut Chance, plan: &mut Plan) {
    for _ in 0..chance.between(1, 4) {
        let (from, to) = (
            chance.index(plan.strings.len()),
            chance.index(plan.strings.len()),
        );
        plan.strings[to] = plan.strings[from].clone();
    }
}

/// The strings in another order, and the same releases with their strings' places.
pub fn shuffled(chance: &mut Chance, plan: &Plan) -> Plan {
    let mut order: Vec<usize> = (0..plan.strings.len()).collect();
    chance.shuffle(&mut order);
    let mut other = plan.clone();
    other.strings = order.iter().map(|at| plan.strings[*at].clone()).collect();
    for release in &mut other.releases {
        let place = order
            .iter()
            .position(|at| *at + 1 == release.place as usize);
        release.place = place.expect("every string has a place") as u64 + 1;
    }
    other
}

/// One number of one string, one more or less; a refused plan can come of it.
fn change_one(chance: &mut Chance, plan: &mut Plan) {
    let at = chance.index(plan.strings.len());
    let more = chance.one_in(2);
    let string = &mut plan.strings[at];
    let number = match chance.below(6) {
        0 => {
            string.x = 1 - string.x;
            return;
        }
        1 => &mut string.t,
        2 => &mut string.c,
        3 => &mut string.d,
        4 => &mut string.late,
        _ => &mut string.moving,
    };
    *number = if more {
        *number + 1
    } else {
        number.saturating_sub(1)
    };
    plan.releases.clear();
}

/// One string as another of the plan: as many strings, and too many of one kind.
fn become_another(chance: &mut Chance, plan: &mut Plan) {
    repeat_some(chance, plan);
    plan.releases.clear();
}

/// A string more or less. The other one has no releases.
fn change_length(chance: &mut Chance, plan: &mut Plan) {
    plan.releases.clear();
    let at = chance.index(plan.strings.len());
    if plan.strings.len() > 1 && chance.one_in(2) {
        plan.strings.remove(at);
    } else {
        let again = plan.strings[at].clone();
        plan.strings.push(again);
    }
}

/// A byte of one of the files, or of both, is another.
fn damaged(chance: &mut Chance, plan: &Plan, other: &Plan) -> Pair {
    let mut texts = [
        writing::any_text(chance, plan),
        writing::any_text(chance, other),
    ];
    let both = chance.one_in(4);
    let one = chance.index(2);
    for (at, text) in texts.iter_mut().enumerate() {
        if both || at == one {
            let place = chance.index(text.len());
            text[place] = chance.pick(b"0123456789abcdef\nG");
        }
    }
    let [first, second] = texts;
    Pair { first, second }
}
