//! The source's evaluation (section 5): what each policy says of a set of strings at a moving cost.
//!
//! A line is `COST T,C,D T,C,D ..: ` and what somebody answered; what stands behind the colon is not read.

use crate::rules::plan::{BatteryString, Length, Plan};
use crate::rules::rule::{jobs, passes, passes_by, PAGE};
use crate::rules::search::{search, search_by};
use crate::selftest::Cases;
use crate::wrong::{rule, switched_on, Mistake};

/// The same lines with the answers of this program; nothing for a line that is none.
pub fn answered(text: &str) -> Option<String> {
    let mut lines = String::new();
    for line in text.lines() {
        let (asked, _) = line.split_once(':')?;
        lines += &format!("{asked}: {}\n", answers(&plan(asked)?)?);
    }
    Some(lines)
}

fn plan(asked: &str) -> Option<Plan> {
    let mut words = asked.split(' ');
    let moving = words.next()?.parse().ok()?;
    let strings: Option<Vec<BatteryString>> = words.map(string).collect();
    let mut plan = Plan {
        days: 1,
        strings: strings?,
        releases: Vec::new(),
    };
    plan.set_moving(moving);
    let bounded = plan.strings.iter().all(BatteryString::is_bounded);
    (bounded && (1..=10).contains(&plan.strings.len())).then_some(plan)
}

fn string(word: &str) -> Option<BatteryString> {
    let numbers: Result<Vec<Length>, _> = word.split(',').map(str::parse).collect();
    match numbers.ok()?[..] {
        [t, c, d] => Some(BatteryString::plain(t, c, d)),
        _ => None,
    }
}

fn answers(plan: &Plan) -> Option<String> {
    let cycle = plan.cycle()?;
    let everybody = (1 << plan.strings.len()) - 1;
    let printed = rule(Mistake::Equation7);
    let said = |set: Option<u32>| set.map_or("none".to_string(), |set| set.to_string());
    Some(format!(
        "fp {} np {} lp {} assign {} one-by-one {} equation-7 {} printed np {} lp {} cp {}",
        u8::from(passes(&plan.with_set(everybody), cycle)),
        u8::from(passes(&plan.with_set(0), cycle)),
        u8::from(in_chunks(plan, cycle, 1)),
        said(search(plan, cycle)),
        said(switched_on(&PAGE, plan, cycle)),
        said(search_by(&printed, plan, cycle)),
        u8::from(passes_by(&printed, &plan.with_set(0), cycle)),
        u8::from(in_chunks(plan, cycle, 0)),
        said(switched_on(&printed, plan, cycle)),
    ))
}

/// A string whose jobs run in chunks that nobody interrupts.
struct Chunked {
    string: BatteryString,
    chunks: Length,
    /// Days for which a chunk that blocks has been at it already.
    started: Length,
}

impl Chunked {
    /// Equation 5: the work, and the moving for each interruption.
    fn asks(&self) -> Length {
        self.string.c + (self.chunks - 1) * self.string.moving
    }

    /// What is left of the longest chunk, in whole days.
    fn blocks(&self) -> Length {
        (self.asks() + self.chunks - 1) / self.chunks - self.started
    }
}

/// lp-EDF (equations 5 and 6): the strings by rising D, each with the fewest chunks that leave those before it time enough.
fn in_chunks(plan: &Plan, cycle: Length, started: Length) -> bool {
    let mut strings = plan.strings.clone();
    strings.sort_by_key(|string| string.d);
    let mut before: Vec<Chunked> = Vec::new();
    for string in strings {
        let way = |chunks| Chunked {
            string: string.clone(),
            chunks,
            started,
        };
        match (1..=string.c)
            .map(way)
            .find(|way| leaves_time(&before, way))
        {
            Some(found) => before.push(found),
            None => return false,
        }
    }
    (1..=plan.largest_d() + cycle - 1).all(|interval| asked(&before, interval) <= interval)
}

/// Whether a chunk of this string can block those that are due earlier, at every interval in which some of them is due.
fn leaves_time(before: &[Chunked], string: &Chunked) -> bool {
    let first = before
        .first()
        .map_or(string.string.d, |first| first.string.d);
    (first..string.string.d).all(|interval| string.blocks() + asked(before, interval) <= interval)
}

fn asked(strings: &[Chunked], interval: Length) -> Length {
    let asks = |chunked: &Chunked| jobs(&chunked.string, interval) * chunked.asks();
    strings.iter().map(asks).sum()
}

/// The source's examples 1 to 3, as it says them: chunks fail where everybody passes; Algorithm 3 finds strings 1 and 2; it finds nobody where string 1 is a
/// set that passes.
pub fn cases() -> Cases {
    let says = |line: &str, parts: &[&str]| {
        let said = answered(line).unwrap_or_default();
        parts.iter().all(|part| said.contains(part))
    };
    vec![
        (
            "example 1",
            says("1 10,3,5 10,5,10:", &[": fp 1 np 0", "printed np 0 lp 0 "]),
        ),
        (
            "example 2",
            says("1 7,1,2 6,1,4 7,2,6:", &["printed np 0 lp", "cp 3\n"]),
        ),
        (
            "example 3",
            says(
                "1 10,1,3 3,1,3 5,2,5:",
                &["equation-7 1 ", "printed np 0 lp", "cp none\n"],
            ),
        ),
    ]
}
