//! Texts about as long as a text may be.

use super::sheet::Sheet;
use crate::chance::Chance;
use crate::writing::{put, COUNT};

const LENGTHS: [usize; 6] = [65_535, 65_536, 65_537, 65_538, 70_000, 131_072];

/// A plan, sound or not, filled up to each length in turn.
pub fn long_text(chance: &mut Chance, turn: u64) -> Vec<u8> {
    let mut sheet = Sheet::draw(chance);
    // An early fault must still give way to number 1.
    if chance.one_in(3) {
        put(&mut sheet.lines[0], COUNT, 0);
    }
    let mut text = if chance.one_in(6) {
        Vec::new()
    } else {
        sheet.text()
    };
    let filler = filler(&sheet, turn / 6 % 6);
    let length = LENGTHS[turn as usize % 6];
    while text.len() < length {
        text.extend(&filler);
    }
    text.truncate(length);
    text
}

fn filler(sheet: &Sheet, which: u64) -> Vec<u8> {
    match which {
        0 => vec![b'0'],
        1 => vec![b'\n'],
        2 => vec![0],
        3 => vec![0xff],
        4 => sheet.lines[sheet.lines.len() - 1].clone(),
        _ => sheet.lines.concat(),
    }
}
