//! Plan files for boards, and which kind of them comes when.

use crate::chance::Chance;
use crate::mix::{self, kind, Kind, Made};
use crate::plans::strings::mixed;
use crate::plans::{releases, runs};
use crate::rules::plan::{Length, Plan, Release};
use crate::writing;

const FILES: [Kind; 10] = [
    kind!("short run", 250, runs::short_run),
    kind!("a miss about the end", 200, runs::miss_about_the_end),
    kind!("takers among long jobs", 120, runs::takers),
    kind!("stairs of takers", 80, runs::stairs),
    kind!("back to back", 80, runs::back_to_back),
    kind!("payer waits", 60, runs::payer_waits),
    kind!("a year or two", 60, years),
    kind!("centuries", 4, centuries),
    kind!("about the whole calendar", 6, whole_calendar),
    kind!("any kind", 140, runs::any_kind),
];

/// The plan file of this number under this seed.
pub fn make(seed: u64, file: u64) -> Made {
    mix::make_of(&FILES, seed, file)
}

fn years(chance: &mut Chance, _: u64) -> Vec<u8> {
    let days = chance.between(300, 800);
    spread(chance, days, 40)
}

fn centuries(chance: &mut Chance, _: u64) -> Vec<u8> {
    let days = chance.between(30_000, 140_000);
    spread(chance, days, 1_000)
}

/// The longest run that has a day N in the calendar is that from its first day to its last.
fn whole_calendar(chance: &mut Chance, turn: u64) -> Vec<u8> {
    const DAYS: [Length; 6] = [146_096, 146_097, 146_095, 146_098, 200_000, 1_000_000];
    spread(chance, DAYS[turn as usize % DAYS.len()], 60)
}

/// A run of so many days with a burst of releases now and then.
fn spread(chance: &mut Chance, days: Length, most: usize) -> Vec<u8> {
    let mut plan = mixed(chance, 6, 50_000);
    plan.days = chance.between(1, 200);
    let bursts = chance.between(1, 5);
    for burst in 0..bursts {
        let list = releases::list(chance, &plan, most / 5);
        put_off(&mut plan, list, burst * (days / bursts));
    }
    plan.days = days;
    plan.releases.retain(|release| release.day < days);
    writing::any_text(chance, &plan)
}

/// Adds releases so many days later, but for those that would come too soon after the last of their string, or before another.
fn put_off(plan: &mut Plan, list: Vec<Release>, by: Length) {
    for release in list.into_iter().map(|release| release.put_off(by)) {
        let ahead = plan.releases.last().map_or(0, |last| last.day);
        let same = plan
            .releases
            .iter()
            .rev()
            .find(|last| last.place == release.place);
        let free_from = same.map_or(0, |last| last.due + plan.string_of(last).t);
        if release.due >= free_from && release.day >= ahead {
            plan.releases.push(release);
        }
    }
}
