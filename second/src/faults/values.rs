//! Numbers outside their bounds, and on each side of each bound.

use super::sheet::{Kind, Sheet};
use crate::chance::Chance;
use crate::rules::plan::BatteryString;
use crate::writing::{
    put, Field, Version, C, COUNT, D, KIND, LATE, MOVING, OLD_MOVING, T, VERSION, X,
};

/// Every value of n in turn.
pub fn count(chance: &mut Chance, turn: u64) -> Vec<u8> {
    let mut sheet = Sheet::draw(chance);
    put(&mut sheet.lines[0], COUNT, turn % 256);
    sheet.text()
}

/// Every value of the version and of each kind byte in turn.
pub fn kind_or_version(chance: &mut Chance, turn: u64) -> Vec<u8> {
    let mut sheet = Sheet::draw(chance);
    let (kind, field) = [
        (Kind::Header, KIND),
        (Kind::Header, VERSION),
        (Kind::String, KIND),
        (Kind::Release, KIND),
    ][turn as usize % 4];
    let line = sheet.line_of(chance, kind);
    put(&mut sheet.lines[line], field, turn / 4 % 256);
    sheet.text()
}

/// N, and A where the header says it, on each side of each of their bounds.
pub fn header_bounds(chance: &mut Chance, turn: u64) -> Vec<u8> {
    const DAYS: [u64; 8] = [
        0,
        1,
        999_999,
        1_000_000,
        1_000_001,
        0x0100_0000,
        0x8000_0000,
        0xffff_ffff,
    ];
    let mut sheet = Sheet::draw(chance);
    let turn = turn as usize % (MOVING_EDGES.len() + DAYS.len());
    match MOVING_EDGES.get(turn) {
        Some(value) if sheet.version == Version::V01 => {
            put(&mut sheet.lines[0], OLD_MOVING, *value);
        }
        Some(value) => {
            let line = sheet.line_of(chance, Kind::String);
            put(&mut sheet.lines[line], MOVING, *value);
        }
        None => {
            let field = sheet.version.days();
            put(&mut sheet.lines[0], field, DAYS[turn - MOVING_EDGES.len()]);
        }
    }
    sheet.text()
}

/// A moving cost on each side of each of its bounds.
const MOVING_EDGES: [u64; 7] = [0, 1, 999, 1_000, 1_001, 0x8000, 0xffff];

/// X, T, C, D, a moving cost of its own and late days on each side of each of their bounds, those by the
/// other numbers too. Older versions have no such cost, or no late days.
pub fn string_bounds(chance: &mut Chance, turn: u64) -> Vec<u8> {
    let mut sheet = Sheet::draw(chance);
    let at = chance.index(sheet.plan.strings.len());
    let edges = string_edges(&sheet.plan.strings[at]);
    for (field, value) in &edges[turn as usize % edges.len()] {
        put(&mut sheet.lines[1 + at], *field, *value);
    }
    sheet.text()
}

/// Numbers put together into one string, one or more at a time.
fn string_edges(string: &BatteryString) -> Vec<Vec<(Field, u64)>> {
    let BatteryString { t, c, d, late, .. } = *string;
    let mut edges: Vec<Vec<(Field, u64)>> = Vec::new();
    for x in [0, 1, 2, 3, 0x10, 0x80, 0xff] {
        edges.push(vec![(X, x)]);
    }
    for value in [0, 1, d - 1, d, d + 1, 999, 1_000, 1_001, 0x8000, 0xffff] {
        edges.push(vec![(T, value)]);
    }
    for value in [0, 1, d - 1, d, d + 1, t, 1_001, 0xffff] {
        edges.push(vec![(C, value)]);
    }
    for value in [d - late - 1, d - late, d - late + 1] {
        edges.push(vec![(C, value)]);
    }
    for value in [0, 1, d - c, d - c + 1, d - 1, d, d + 1, 0x8000, 0xffff] {
        edges.push(vec![(LATE, value)]);
        edges.push(vec![(LATE, value), (C, 1)]);
        edges.push(vec![(LATE, value), (C, d)]);
    }
    for value in [0, 1, c - 1, c, c + 1, t - 1, t, t + 1, 1_001, 0xffff] {
        edges.push(vec![(D, value)]);
    }
    for value in MOVING_EDGES {
        edges.push(vec![(MOVING, value)]);
        edges.push(vec![(MOVING, value), (X, 1)]);
    }
    for value in [0, 1, 999, 1_000, 1_001] {
        edges.push(vec![(T, value), (D, value)]);
        edges.push(vec![(T, value), (D, value), (C, value)]);
        edges.push(vec![(T, value), (D, value), (C, value), (X, 1)]);
    }
    edges
}
