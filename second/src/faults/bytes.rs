//! One byte changed: in turn every value at every kind of position.

use super::sheet::{Kind, Sheet};
use crate::chance::Chance;

/// Bytes of the longest header line with its 0a, of the longest string line, and of the longest release line.
const HEADER: u64 = 19;
const STRING: u64 = 25;
const RELEASE: u64 = 25;
const POSITIONS: u64 = HEADER + STRING + RELEASE;

/// A version's shorter line has its first positions twice.
pub fn one_byte(chance: &mut Chance, turn: u64) -> Vec<u8> {
    let mut sheet = Sheet::draw(chance);
    let (kind, at) = position(turn % POSITIONS);
    let line = sheet.line_of(chance, kind);
    // a line that is shorter in its version has its first bytes changed instead
    let at = at % sheet.lines[line].len();
    sheet.lines[line][at] = (turn / POSITIONS % 256) as u8;
    sheet.text()
}

fn position(number: u64) -> (Kind, usize) {
    let (kind, at) = if number < HEADER {
        (Kind::Header, number)
    } else if number < HEADER + STRING {
        (Kind::String, number - HEADER)
    } else {
        (Kind::Release, number - HEADER - STRING)
    };
    (kind, at as usize)
}
