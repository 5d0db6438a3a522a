//! What the clerk is asked about the visits of a plan file: our own run's, a contractor's, and each of them bent and damaged.

use super::answer::{beside, checked, visited};
use super::bends::bend;
use super::check::{check, keeps_every_rule};
use super::damage::damaged;
use super::lists::{by_turns, with_moving};
use super::{own, text, Visit};
use crate::chance::Chance;
use crate::questions::Asked;
use crate::rules::frames::read;
use crate::rules::plan::{Length, Plan};

/// Lists bent, and texts damaged, for each plan.
const BENT: usize = 6;
const DAMAGED: usize = 2;

/// A text cannot hold many more.
const MOST_RECORDS: Length = 8_000;

/// All questions about a file, or which claim of this program's own it breaks. A refused file has its lists too: its refusal comes first.
pub fn about(chance: &mut Chance, file: &[u8], name: &str) -> Result<Vec<Asked>, &'static str> {
    let plan = read(file).unwrap_or_else(|_| nothing());
    if !own_is_accepted(&plan) {
        return Err("the visits of our own clean run are not accepted");
    }
    let mut asked = vec![Asked {
        beside: beside(file),
        ..Asked::new(format!("visits {name}"), visited(file))
    }];
    for (list, number) in all_lists(chance, &plan).into_iter().zip(0..) {
        if accepts_otherwise(&plan, &list) {
            return Err("a list is accepted, and breaks a rule, or the other way round");
        }
        let visits = name.replace(".plan", &format!("-{number}.visits"));
        asked.push(Asked {
            beside_file: Some((visits.clone(), list.clone())),
            ..Asked::new(
                format!("check-visits {name} {visits}"),
                checked(file, &list),
            )
        });
    }
    Ok(asked)
}

/// Stands for a plan that was refused.
fn nothing() -> Plan {
    Plan {
        days: 1,
        strings: Vec::new(),
        releases: Vec::new(),
    }
}

fn own_is_accepted(plan: &Plan) -> bool {
    let (visits, outcome) = own::visits(plan);
    !own::must_be_accepted(plan, &outcome) || check(plan, &visits).is_ok()
}

/// Rule by rule over the whole list, another thing is said than record by record.
fn accepts_otherwise(plan: &Plan, list: &[u8]) -> bool {
    match text::read(list) {
        Ok(visits) => check(plan, &visits).is_ok() != keeps_every_rule(plan, &visits),
        Err(_) => false,
    }
}

/// The texts of the lists as they are, of some that are bent, and of some that are damaged.
fn all_lists(chance: &mut Chance, plan: &Plan) -> Vec<Vec<u8>> {
    let lists = whole_lists(chance, plan);
    let mut texts: Vec<Vec<u8>> = lists.iter().map(|list| text::written(list)).collect();
    for _ in 0..BENT {
        let mut list = lists[chance.index(lists.len())].clone();
        bend(chance, plan, &mut list);
        texts.push(text::written(&list));
    }
    for _ in 0..DAMAGED {
        let list = &lists[chance.index(lists.len())];
        texts.push(damaged(chance, list));
    }
    texts
}

/// Our own, and a contractor's where it is another.
fn whole_lists(chance: &mut Chance, plan: &Plan) -> Vec<Vec<Visit>> {
    let mut lists = vec![own::visits(plan).0];
    let mut others = vec![with_moving(plan)];
    let records: Length = plan.releases.iter().map(|release| release.need).sum();
    if records <= MOST_RECORDS {
        others.push(by_turns(plan, chance.between(1, 2)));
    }
    for other in others {
        if !lists.contains(&other) {
            lists.push(other);
        }
    }
    lists
}
