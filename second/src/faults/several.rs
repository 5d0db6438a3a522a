//! Several faults at once, so that the order of the refusal table decides.

use super::cuts::{cut, grow};
use super::sheet::{Kind, Sheet};
use super::{lines, releases};
use crate::chance::Chance;
use crate::writing::{
    put, Field, Version, C, COUNT, D, DAY, DAYS, DUE, KIND, LATE, MOVING, NEED, OLD_DAYS,
    OLD_MOVING, PLACE, T, VERSION, X,
};

/// Two to four faults; often on one line, where 2, 3, 4 and 5, or 2, 3 and 8, compete.
pub fn several(chance: &mut Chance) -> Vec<u8> {
    let mut sheet = Sheet::draw(chance);
    if chance.one_in(6) {
        part_periods(&mut sheet);
    }
    let line = sheet.any_line(chance);
    for _ in 0..chance.between(2, 4) {
        let at = if chance.one_in(3) {
            sheet.any_line(chance)
        } else {
            line
        };
        spoil_line(chance, &mut sheet, at);
    }
    if chance.one_in(5) {
        releases::add_any(chance, &mut sheet);
    }
    if chance.one_in(5) {
        lines::add_any(chance, &mut sheet);
    }
    sheet.text()
}

/// Gives the first two strings periods whose H is over its bound.
fn part_periods(sheet: &mut Sheet) {
    if sheet.plan.strings.len() >= 2 {
        put(&mut sheet.lines[1], T, 997);
        put(&mut sheet.lines[2], T, 991);
    }
}

fn spoil_line(chance: &mut Chance, sheet: &mut Sheet, at: usize) {
    let fields = fields(sheet.kind(at), sheet.version);
    let line = &mut sheet.lines[at];
    match chance.below(10) {
        0 => cut(line, chance.index(18)),
        1 => {
            let more = chance.between(1, 3) as usize;
            grow(chance, line, more);
        }
        2 => {
            let digit = chance.index(line.len());
            line[digit] = chance.byte();
        }
        _ => {
            let field = chance.pick(fields);
            put(line, field, wrong_value(chance));
        }
    }
}

fn fields(kind: Kind, version: Version) -> &'static [Field] {
    match (kind, version) {
        (Kind::Header, Version::V01) => &[KIND, VERSION, COUNT, OLD_MOVING, OLD_DAYS],
        (Kind::Header, _) => &[KIND, VERSION, COUNT, DAYS],
        (Kind::String, Version::V01) => &[KIND, X, T, C, D],
        (Kind::String, Version::V02) => &[KIND, X, T, C, D, MOVING],
        (Kind::String, Version::V03) => &[KIND, X, T, C, D, MOVING, LATE],
        (Kind::Release, Version::V03) => &[KIND, PLACE, DAY, NEED, DUE],
        (Kind::Release, _) => &[KIND, PLACE, DAY, NEED],
    }
}

/// A value that is wrong in most fields. The field takes the low bytes of it.
fn wrong_value(chance: &mut Chance) -> u64 {
    match chance.below(4) {
        0 => 0,
        1 => 1_001,
        2 => chance.below(1 << 32),
        _ => 0xffff_ffff,
    }
}
