//! Texts that are no damaged plan but noise, more or less like a plan.

use crate::chance::Chance;

/// From any bytes at all to frames with any contents.
pub fn noise(chance: &mut Chance, turn: u64) -> Vec<u8> {
    match turn % 4 {
        0 => (0..chance.below(80)).map(|_| chance.byte()).collect(),
        1 => (0..chance.below(80))
            .map(|_| chance.pick(b"0123456789abcdef\n\n"))
            .collect(),
        2 => (0..chance.below(6)).flat_map(|_| frame(chance)).collect(),
        _ => tiny(turn / 4),
    }
}

/// A line of a fitting length with a fitting kind, and with anything in it.
fn frame(chance: &mut Chance) -> Vec<u8> {
    let kind = chance.between(1, 3);
    let length = match kind {
        1 => chance.pick(&[6, 8]),
        2 => chance.pick(&[7, 9, 11]),
        _ => chance.pick(&[7, 11]),
    };
    let mut line = format!("{kind:02x}");
    for _ in 0..length {
        line += &format!("{:02x}", chance.below(4));
    }
    line.push('\n');
    line.into_bytes()
}

/// The shortest texts.
fn tiny(turn: u64) -> Vec<u8> {
    const TEXTS: [&[u8]; 10] = [
        b"",
        b"\n",
        b"\n\n",
        b"0",
        b"0\n",
        b"01",
        b"01\n",
        b"01\n01\n",
        b"\r\n",
        b"\0",
    ];
    TEXTS[turn as usize % TEXTS.len()].to_vec()
}
