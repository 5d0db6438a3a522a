//! Every permission set of a plan in the search's order, as `clerk sets` writes them: its number and places, the quick verdict on the
//! plan with it, and whether it is the answer.
//!
//! Of a set that does not pass the clerk says that the plan with it misses, or never does, as far as `clerk miss` knows. Where the sharp
//! rule holds without the costs that nobody can be charged, no list misses, and where the jobs alone ask too much, moving free, one does:
//! there the line has to say so. Elsewhere the search of `clerk miss` decides, which is the clerk's own: the line may say that a list
//! misses or nothing, and `--misses` looks at what the search finds.

use crate::misses::payable::payable;
use crate::misses::sharp::{free_breaks, passes_sharply};
use crate::rules::frames::read;
use crate::rules::plan::{Length, Plan};
use crate::rules::quick::quick;
use crate::rules::rule::Verdict;
use crate::saving::Saved;

/// Stands at the end of a line behind which it may be said that a list misses. No line has this byte otherwise.
pub const ANY_NOTE: u8 = b'?';

const NOTES: [&[u8]; 2] = [b"", b", misses"];

/// A line for each set of a file's plan, or the file's refusal.
pub fn listed(text: &[u8]) -> Saved {
    read(text).map(|plan| lines(&plan).into_bytes())
}

pub fn lines(plan: &Plan) -> String {
    let cycle = plan.cycle().expect("a plan that was read has H in bounds");
    let mut found = false;
    let mut lines = String::new();
    for set in in_order(plan.strings.len()) {
        let with = plan.with_set(set);
        let verdict = quick(&with, cycle);
        let passes = matches!(verdict, Verdict::Pass { .. });
        let note = if passes && !found {
            ", fewest takers"
        } else if passes {
            ""
        } else if passes_sharply(&payable(&with), cycle) {
            ", never misses"
        } else if free_breaks(&with, cycle).is_empty() {
            "?"
        } else {
            ", misses"
        };
        found |= passes;
        lines += &format!("set {set} {}: {}{note}\n", who(&with), judged(&verdict));
    }
    lines
}

/// Fewer takers first, among equals the smaller number first.
fn in_order(strings: usize) -> Vec<u32> {
    let mut sets: Vec<u32> = (0..1 << strings).collect();
    sets.sort_by_key(|set| (set.count_ones(), *set));
    sets
}

fn who(plan: &Plan) -> String {
    let takers: Vec<String> = plan
        .strings
        .iter()
        .zip(1..)
        .filter(|(string, _)| string.x == 1)
        .map(|(_, place)| format!("{place}"))
        .collect();
    match takers.len() {
        0 => String::from("nobody"),
        1 => format!("string {}", takers[0]),
        _ => format!("strings {}", takers.join(" ")),
    }
}

fn judged(verdict: &Verdict) -> String {
    match verdict {
        Verdict::Overload => String::from("overload"),
        Verdict::Fail {
            interval,
            blocking,
            demand,
            ..
        } => format!("fail interval {interval} blocking {blocking} demand {demand}"),
        Verdict::Pass { .. } => String::from("pass"),
    }
}

/// What is left of a text behind an expected one, in which a note may stand where its mark is; nothing where the text is another.
pub fn behind<'a>(mut given: &'a [u8], expected: &[u8]) -> Option<&'a [u8]> {
    let mut parts = expected.split(|byte| *byte == ANY_NOTE);
    given = given.strip_prefix(parts.next()?)?;
    for part in parts {
        let noted = |note: &&[u8]| given.strip_prefix(*note)?.strip_prefix(part);
        given = NOTES.iter().find_map(noted)?;
    }
    Some(given)
}

/// Whether every set can be judged in a moment by going through every pair.
pub fn few_pairs(text: &[u8]) -> bool {
    const MOST: Length = 400_000;
    read(text).map_or(true, |plan| {
        let cycle = plan.cycle().expect("a plan that was read has H in bounds");
        let intervals = plan.largest_d() * plan.largest_d() / 2 + cycle;
        (intervals << plan.strings.len()) * plan.strings.len() as Length <= MOST
    })
}
