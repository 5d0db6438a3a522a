//! Releases that are unlawful in each way, and their lawful neighbours.

use super::sheet::{Kind, Sheet};
use crate::chance::Chance;
use crate::plans::{releases, strings};
use crate::rules::plan::{BatteryString, Plan, Release};
use crate::writing;

/// Changes one release, named by its place in the list counted from 0.
type Change = fn(&mut Plan, usize);

const CHANGES: [Change; 42] = [
    |plan, at| plan.releases[at].place = 0,
    |plan, at| plan.releases[at].place = plan.strings.len() as u64 + 1,
    |plan, at| plan.releases[at].place = 11,
    |plan, at| plan.releases[at].place = 255,
    |plan, at| plan.releases[at].need = 0,
    |plan, at| plan.releases[at].need = string(plan, at).c,
    |plan, at| plan.releases[at].need = string(plan, at).c + 1,
    |plan, at| plan.releases[at].need += 1 << 8,
    |plan, at| plan.releases[at].need = 0xffff,
    |plan, at| move_to(plan, at, plan.days - 1),
    |plan, at| move_to(plan, at, plan.days),
    |plan, at| move_to(plan, at, plan.days + 1),
    |plan, at| move_to(plan, at, 0xffff_ffff),
    |plan, at| move_to(plan, at, plan.releases[at].day + (1 << 16)),
    |plan, at| move_to(plan, at, plan.releases[at].day + (1 << 24)),
    |plan, at| move_to(plan, at, 0),
    |plan, at| move_to(plan, at, day_ahead(plan, at).saturating_sub(1)),
    |plan, at| move_to(plan, at, day_ahead(plan, at)),
    |plan, at| plan.days = plan.releases[at].day.max(1),
    |plan, at| plan.days = plan.releases[at].day + 1,
    |plan, at| release_again(plan, at, -1, 0),
    |plan, at| release_again(plan, at, 0, 0),
    |plan, at| release_again(plan, at, 1, 0),
    |plan, at| release_on_the_same_day(plan, at),
    // late ones: a day before the due day, on it, and up to its late days after it and beyond
    |plan, at| come_late(plan, at, -1),
    |plan, at| come_late(plan, at, 0),
    |plan, at| come_late(plan, at, 1),
    |plan, at| come_late(plan, at, string(plan, at).late as i64 - 1),
    |plan, at| come_late(plan, at, string(plan, at).late as i64),
    |plan, at| come_late(plan, at, string(plan, at).late as i64 + 1),
    |plan, at| come_late(plan, at, 256),
    |plan, at| come_late(plan, at, -0x8000_0000),
    |plan, at| plan.releases[at].due = 0,
    |plan, at| plan.releases[at].due = 0xffff_ffff,
    |plan, at| plan.releases[at].due += 1 << 24,
    // due days closer than T, whatever the days on which they come
    |plan, at| release_again(plan, at, -1, string(plan, at).late),
    |plan, at| release_again(plan, at, 0, string(plan, at).late),
    |plan, at| release_again(plan, at, 1, string(plan, at).late),
    |plan, at| release_late_and_again(plan, at, -1),
    |plan, at| release_late_and_again(plan, at, 0),
    |plan, at| release_late_and_again(plan, at, 1),
    |plan, at| release_late_and_again(plan, at, -2),
];

/// Each change in turn, at any release. Every other plan has late days wherever there is room for them.
pub fn one_release(chance: &mut Chance, turn: u64) -> Vec<u8> {
    let mut plan = strings::mixed(chance, 4, 30_000);
    if turn / CHANGES.len() as u64 % 2 == 0 {
        for string in &mut plan.strings {
            let room = string.d - string.c;
            string.late = chance.between(room.min(1), room);
        }
    }
    while plan.releases.len() < 2 {
        plan.days = chance.between(30, 2_000);
        plan.releases = releases::list(chance, &plan, 12);
    }
    let at = chance.index(plan.releases.len());
    CHANGES[turn as usize % CHANGES.len()](&mut plan, at);
    writing::any_text(chance, &plan)
}

/// Any change to any release of a sheet, whatever else is wrong with it.
pub fn add_any(chance: &mut Chance, sheet: &mut Sheet) {
    let line = sheet.line_of(chance, Kind::Release);
    let at = line - 1 - sheet.plan.strings.len();
    let mut plan = sheet.plan.clone();
    chance.pick(&CHANGES)(&mut plan, at);
    if let Some(place) = sheet.lines.get_mut(line) {
        *place = writing::release(&plan.releases[at], sheet.version);
    }
}

fn string(plan: &Plan, at: usize) -> &BatteryString {
    plan.string_of(&plan.releases[at])
}

fn day_ahead(plan: &Plan, at: usize) -> u64 {
    plan.releases[at.saturating_sub(1)].day
}

/// To another day, as late as it was.
fn move_to(plan: &mut Plan, at: usize, day: u64) {
    let release = &mut plan.releases[at];
    let late = release.day - release.due;
    release.day = day;
    release.due = day.saturating_sub(late);
}

/// On the same day, which is now so many days after its due day.
fn come_late(plan: &mut Plan, at: usize, late: i64) {
    let release = &mut plan.releases[at];
    release.due = (release.day as i64 - late).max(0) as u64;
}

/// The same place once more, due T days later and some less or more, and so late; its other later releases go.
fn release_again(plan: &mut Plan, at: usize, shift: i64, late: u64) {
    let earlier = plan.releases[at].clone();
    let t = plan.string_of(&earlier).t;
    let due = ((earlier.due + t) as i64 + shift).max(0) as u64;
    let again = Release {
        day: due + late,
        due,
        ..earlier
    };
    plan.days = plan.days.max(again.day + 1);
    let later = plan.releases.split_off(at + 1);
    plan.releases
        .extend(later.into_iter().filter(|other| other.place != again.place));
    let to = plan
        .releases
        .partition_point(|other| other.day <= again.day);
    plan.releases.insert(to, again);
}

/// The first as late as it may be, the second on its due day: they come closest, and are due T days apart and some less or more.
fn release_late_and_again(plan: &mut Plan, at: usize, shift: i64) {
    let late = string(plan, at).late.min(plan.releases[at].day);
    come_late(plan, at, late as i64);
    release_again(plan, at, shift, 0);
}

fn release_on_the_same_day(plan: &mut Plan, at: usize) {
    plan.releases.insert(at, plan.releases[at].clone());
}
