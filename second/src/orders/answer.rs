//! Whether two plans hold the same strings in another order, and which string of the one is which of the other.

use crate::rules::frames::{read, Refusal};
use crate::rules::plan::{BatteryString, Plan};

/// Places are counted from 1.
#[derive(Debug, PartialEq)]
pub enum Matched {
    /// The place in the second plan of each string of the first; the smallest such list.
    Same(Vec<usize>),
    /// The first string of the first plan that has no partner left.
    Alone(usize),
    /// How many strings the plans have.
    Counts(usize, usize),
}

/// What has to be said of two plan files.
#[derive(Debug, PartialEq)]
pub enum Said {
    Matched(Matched),
    /// The refusal of the first of them that is refused, and which one that is.
    Refused(Refusal, Which),
}

#[derive(Clone, Copy, Debug, PartialEq)]
pub enum Which {
    First,
    Second,
}

pub fn said(first: &[u8], second: &[u8]) -> Said {
    match (read(first), read(second)) {
        (Err(refusal), _) => Said::Refused(refusal, Which::First),
        (_, Err(refusal)) => Said::Refused(refusal, Which::Second),
        (Ok(first), Ok(second)) => Said::Matched(matched(&first, &second)),
    }
}

/// Each string of the first plan takes the first place of the second that holds the same string and is still free. N and the
/// releases play no part.
pub fn matched(first: &Plan, second: &Plan) -> Matched {
    if first.strings.len() != second.strings.len() {
        return Matched::Counts(first.strings.len(), second.strings.len());
    }
    let mut free: Vec<Option<&BatteryString>> = second.strings.iter().map(Some).collect();
    let mut places = Vec::new();
    for (at, string) in first.strings.iter().enumerate() {
        match free.iter().position(|held| *held == Some(string)) {
            Some(place) => {
                free[place] = None;
                places.push(place + 1);
            }
            None => return Matched::Alone(at + 1),
        }
    }
    Matched::Same(places)
}

/// The first of all orders, in the order of their lists, that takes each string to the same string: by trying every one.
pub fn first_of_all_orders(first: &Plan, second: &Plan) -> Option<Vec<usize>> {
    let count = first.strings.len();
    let mut order: Vec<usize> = (0..count).collect();
    loop {
        if (0..count).all(|at| first.strings[at] == second.strings[order[at]]) {
            return Some(order.iter().map(|place| place + 1).collect());
        }
        if !next_order(&mut order) {
            return None;
        }
    }
}

/// The next list in order, or none.
fn next_order(order: &mut [usize]) -> bool {
    let pivot = match (1..order.len()).rev().find(|at| order[at - 1] < order[*at]) {
        Some(at) => at - 1,
        None => return false,
    };
    let larger = (pivot + 1..order.len())
        .rev()
        .find(|at| order[pivot] < order[*at]);
    order.swap(pivot, larger.expect("the one behind the pivot is larger"));
    order[pivot + 1..].reverse();
    true
}

impl Said {
    /// The line on standard output.
    pub fn line(&self) -> String {
        match self {
            Said::Matched(Matched::Same(places)) => {
                let places: Vec<String> = places.iter().map(usize::to_string).collect();
                format!("same {}\n", places.join(" "))
            }
            Said::Matched(Matched::Alone(place)) => format!("differ string {place}\n"),
            Said::Matched(Matched::Counts(first, second)) => {
                format!("differ strings {first} and {second}\n")
            }
            Said::Refused(Refusal { number, line }, _) => format!("refused {number} line {line}\n"),
        }
    }
}
