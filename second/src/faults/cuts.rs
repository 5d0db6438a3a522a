//! Texts and lines that are too short or too long.

use super::sheet::{Kind, Sheet};
use crate::chance::Chance;

/// The text cut off anywhere, in turn at each length.
pub fn text_cut(chance: &mut Chance, turn: u64) -> Vec<u8> {
    let mut text = Sheet::draw(chance).text();
    text.truncate(turn as usize % (text.len() + 1));
    text
}

/// A line of each kind cut to each length in turn, its 0a kept.
pub fn line_cut(chance: &mut Chance, turn: u64) -> Vec<u8> {
    let mut sheet = Sheet::draw(chance);
    let kind = [Kind::Header, Kind::String, Kind::Release][turn as usize % 3];
    let at = sheet.line_of(chance, kind);
    let line = &mut sheet.lines[at];
    let digits = line.len() - 1;
    cut(line, turn as usize / 3 % digits);
    sheet.text()
}

/// One line with digits too many: an odd number of them, or whole bytes.
pub fn line_grown(chance: &mut Chance, turn: u64) -> Vec<u8> {
    let mut sheet = Sheet::draw(chance);
    let kind = [Kind::Header, Kind::String, Kind::Release][turn as usize % 3];
    let line = sheet.line_of(chance, kind);
    let more = [1, 2, 3, 4, 16, 17, 18, 300][turn as usize / 3 % 8];
    grow(chance, &mut sheet.lines[line], more);
    sheet.text()
}

pub fn cut(line: &mut Vec<u8>, kept: usize) {
    let end = line.len().saturating_sub(1);
    line.drain(kept.min(end)..end);
}

pub fn grow(chance: &mut Chance, line: &mut Vec<u8>, more: usize) {
    for _ in 0..more {
        let at = chance.index(line.len());
        let digit = chance.pick(b"0123456789abcdef");
        line.insert(at, digit);
    }
}
