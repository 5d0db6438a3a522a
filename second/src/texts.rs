//! What can be wrong with any text of comma-separated lines, whatever its lines say.

use crate::chance::Chance;

/// A byte anywhere becomes another.
pub fn change_byte(chance: &mut Chance, text: &mut [u8], byte: u8) {
    if !text.is_empty() {
        text[chance.index(text.len())] = byte;
    }
}

/// A byte more or less, by turns; most often one that lines are made of.
pub fn change_length(chance: &mut Chance, text: &mut Vec<u8>, turn: u64) {
    if text.is_empty() {
        return;
    }
    let at = chance.index(text.len());
    match turn % 4 {
        0 => drop(text.remove(at)),
        1 => text.insert(at, chance.byte()),
        2 => text.insert(at, text[at]),
        _ => text.insert(at, chance.pick(b"0123456789,\r\n")),
    }
}

/// Filled up to about as many bytes as a text may have, each length in turn with each filling.
pub fn fill_up(text: &mut Vec<u8>, fillings: &[&str], turn: u64) {
    const LENGTHS: [usize; 6] = [65_535, 65_536, 65_537, 65_538, 70_000, 131_072];
    let turn = turn as usize;
    let length = LENGTHS[turn % LENGTHS.len()];
    let filling = fillings[turn / LENGTHS.len() % fillings.len()];
    let missing = length.saturating_sub(text.len());
    text.extend(filling.bytes().cycle().take(missing));
}
