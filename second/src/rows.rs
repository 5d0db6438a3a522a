//! A comma-separated line in its parts, and what can be wrong with it: how a number is spelt, how many there are, what stands between
//! them, how the line ends.

use crate::chance::Chance;

/// A fault changes these, whatever the numbers stood for.
#[derive(Clone)]
pub struct Row {
    pub numbers: Vec<String>,
    pub end: String,
}

impl Row {
    pub fn of(numbers: &[u64]) -> Row {
        Row {
            numbers: numbers.iter().map(u64::to_string).collect(),
            end: "\r\n".into(),
        }
    }

    /// A line of these numbers, or whatever stands in their place.
    pub fn text(&self) -> String {
        self.numbers.join(",") + &self.end
    }
}

/// The text of rows.
pub fn text(rows: &[Row]) -> Vec<u8> {
    rows.iter()
        .flat_map(|row| row.text().into_bytes())
        .collect()
}

/// A number in other characters.
type Spelling = fn(&str) -> String;

/// Digits too many, leading zeros, blanks, signs, quotes, no number at all. The last ones are spelt as they must be where a number may
/// have as many digits, so that the bounds decide.
const SPELLINGS: [Spelling; 51] = [
    |_| String::new(),
    |_| "00".into(),
    |_| "0000".into(),
    |number| format!("0{number}"),
    |number| format!("{number:0>4}"),
    |number| format!("{number:0>5}"),
    |number| format!("{number:0>7}"),
    |number| format!("{number:0>8}"),
    |number| format!("{number:0>400}"),
    |_| "10000".into(),
    |_| "99999".into(),
    |_| "10000000".into(),
    |_| "99999999".into(),
    |number| format!("{number}0000"),
    |number| wrapped(number, 8),
    |number| wrapped(number, 16),
    |number| wrapped(number, 32),
    |number| format!("1844674407370955161{number}"),
    |_| "99999999999999999999999999".into(),
    |number| format!(" {number}"),
    |number| format!("{number} "),
    |number| format!("\t{number}"),
    |number| format!("{number}\t"),
    |_| " ".into(),
    |_| "1 0".into(),
    |number| format!("+{number}"),
    |number| format!("-{number}"),
    |_| "-0".into(),
    |_| "-1".into(),
    |_| "+".into(),
    |_| "-".into(),
    |number| format!("\"{number}\""),
    |number| format!("\"{number}"),
    |number| format!("{number}\""),
    |_| "\"\"".into(),
    |number| format!("'{number}'"),
    |number| format!("{number}.0"),
    |number| format!("{number}e0"),
    |number| format!("0x{number}"),
    |_| "a".into(),
    |_| "1_0".into(),
    |number| format!("{number}\0"),
    |number| format!("\u{feff}{number}"),
    |number| format!("\r{number}"),
    |number| format!("{number}\n"),
    |number| format!("{number}\r\n"),
    |_| "0".into(),
    |_| "1000".into(),
    |_| "9999".into(),
    |_| "1000000".into(),
    |_| "9999999".into(),
];

/// The number and as much as would be lost where numbers have so many bits.
fn wrapped(number: &str, bits: u32) -> String {
    let value: u64 = number.parse().unwrap_or(0);
    // one that is spelt too long already may have no room left
    value.saturating_add(1 << bits).to_string()
}

/// In place of CR LF: either alone, none, in the other order, twice, with something before, between or behind.
const ENDS: [&str; 18] = [
    "\n",
    "\r",
    "",
    "\n\r",
    "\r\r\n",
    "\r\n\n",
    "\n\r\n",
    "\r\n\r\n",
    "\r\n\r",
    " \r\n",
    "\r \n",
    "\r\n ",
    ",\r\n",
    "\t\r\n",
    "\0\r\n",
    "\r\0\n",
    "\u{b}\r\n",
    "\\r\\n",
];

/// In place of a comma.
const BETWEEN: [&str; 10] = ["", " ", ";", "\t", ".", ",,", ", ", "\r", "\n", "\r\n"];

pub const SPELT: usize = SPELLINGS.len();
pub const ENDED: usize = ENDS.len();

/// A number spelt in one of the ways. A row that has lost its numbers stays as it is.
pub fn spell(row: &mut Row, place: usize, way: usize) {
    if let Some(number) = row.numbers.get_mut(place) {
        *number = SPELLINGS[way](number);
    }
}

pub fn end(row: &mut Row, way: usize) {
    row.end = ENDS[way].into();
}

/// Some numbers more, the first ones again, or less.
pub fn set_count(row: &mut Row, count: usize) {
    let numbers = row.numbers.iter().cycle().take(count).cloned();
    row.numbers = numbers.collect();
}

/// Two neighbours with something else between them.
pub fn join(chance: &mut Chance, row: &mut Row) {
    if row.numbers.len() >= 2 {
        let at = chance.index(row.numbers.len() - 1);
        let next = row.numbers.remove(at + 1);
        row.numbers[at] += chance.pick(&BETWEEN);
        row.numbers[at] += &next;
    }
}

/// Another order of the numbers: as many still, and often outside their bounds.
pub fn reorder(chance: &mut Chance, row: &mut Row) {
    chance.shuffle(&mut row.numbers);
}
