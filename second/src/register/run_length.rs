//! N, given beside an export as a run of digits.

use crate::chance::Chance;
use crate::rules::plan::{Length, RUN};
use std::str::FromStr;

#[derive(Clone, Copy)]
pub struct RunLength(pub Length);

impl FromStr for RunLength {
    type Err = ();

    /// A number too large for the machine is far outside N's bounds: the machine's largest stands for it.
    fn from_str(word: &str) -> Result<RunLength, ()> {
        if word.is_empty() || !word.bytes().all(|byte| byte.is_ascii_digit()) {
            return Err(());
        }
        Ok(RunLength(word.parse().unwrap_or(Length::MAX)))
    }
}

/// On each side of each bound, of the machine's numbers, and beyond them by as much as would wrap round into the bounds.
const EDGES: [&str; 26] = [
    "0",
    "00",
    "000000000000000000000000000000",
    "1",
    "01",
    "000000000000000000000000000000020",
    "9",
    "10",
    "65535",
    "65536",
    "65537",
    "999999",
    "1000000",
    "0001000000",
    "1000001",
    "0001000001",
    "2147483648",
    "4294967295",
    "4294967296",
    "4294967297",
    "9223372036854775808",
    "18446744073709551615",
    "18446744073709551616",
    "18446744073709551636",
    "99999999999999999999999999",
    "340282366920938463463374607431768211476",
];

/// The words that a start gives for N: one within the bounds, one at an edge, now and then another one outside.
pub fn any_words(chance: &mut Chance) -> Vec<String> {
    let within = chance.between(*RUN.start(), *RUN.end());
    let mut words = vec![within.to_string(), chance.pick(&EDGES).to_string()];
    if chance.one_in(4) {
        let beyond = chance.between(RUN.end() + 1, Length::MAX);
        words.push((beyond >> chance.below(44)).to_string());
    }
    if chance.one_in(16) {
        let digits = chance.between(20, 80);
        words.push(
            (0..digits)
                .map(|_| chance.pick(b"0123456789") as char)
                .collect(),
        );
    }
    words
}
