//! Visit texts damaged: lines that are not three numbers with CR LF, and texts too long.

use super::text::rows_of;
use super::Visit;
use crate::chance::Chance;
use crate::rows::{self, Row, ENDED, SPELT};
use crate::texts;

/// A text of a list with something wrong, or not quite wrong. A list without records has one made up.
pub fn damaged(chance: &mut Chance, visits: &[Visit]) -> Vec<u8> {
    let mut lines = rows_of(visits);
    if lines.is_empty() {
        lines.push(Row::of(&[1, 0, 1]));
    }
    let turn = chance.below(1 << 16);
    match chance.below(16) {
        0..=3 => spelt(chance, lines, turn),
        4 | 5 => ended(chance, lines, turn),
        6 => counted(chance, lines, turn),
        7 => with_line(chance, lines, rows::join),
        8 => with_line(chance, lines, rows::reorder),
        9 => one_byte(chance, rows::text(&lines)),
        10 => byte_more_or_less(chance, rows::text(&lines), turn),
        11 => cut(chance, rows::text(&lines)),
        12 => with_another_line(chance, &lines, turn),
        13 if turn % 4 == 0 => long(rows::text(&lines), turn / 4),
        13 => noise(chance, turn),
        _ => several(chance, lines),
    }
}

fn with_line(
    chance: &mut Chance,
    mut lines: Vec<Row>,
    change: fn(&mut Chance, &mut Row),
) -> Vec<u8> {
    let at = chance.index(lines.len());
    change(chance, &mut lines[at]);
    rows::text(&lines)
}

fn spelt(chance: &mut Chance, mut lines: Vec<Row>, turn: u64) -> Vec<u8> {
    let at = chance.index(lines.len());
    rows::spell(&mut lines[at], chance.index(3), turn as usize % SPELT);
    rows::text(&lines)
}

/// Of the last line by turns, or of any.
fn ended(chance: &mut Chance, mut lines: Vec<Row>, turn: u64) -> Vec<u8> {
    let last = lines.len() - 1;
    let at = if turn % 2 == 0 {
        last
    } else {
        chance.index(lines.len())
    };
    rows::end(&mut lines[at], chance.index(ENDED));
    rows::text(&lines)
}

fn counted(chance: &mut Chance, mut lines: Vec<Row>, turn: u64) -> Vec<u8> {
    const COUNTS: [usize; 8] = [4, 2, 0, 1, 5, 3, 6, 300];
    let at = chance.index(lines.len());
    rows::set_count(&mut lines[at], COUNTS[turn as usize % COUNTS.len()]);
    rows::text(&lines)
}

fn one_byte(chance: &mut Chance, mut text: Vec<u8>) -> Vec<u8> {
    let byte = if chance.one_in(2) {
        chance.byte()
    } else {
        chance.pick(b"0123456789,\r\n")
    };
    texts::change_byte(chance, &mut text, byte);
    text
}

fn byte_more_or_less(chance: &mut Chance, mut text: Vec<u8>, turn: u64) -> Vec<u8> {
    texts::change_length(chance, &mut text, turn);
    text
}

fn cut(chance: &mut Chance, mut text: Vec<u8>) -> Vec<u8> {
    let kept = chance.index(text.len() + 1);
    text.truncate(kept);
    text
}

/// A line that a spreadsheet might have put there.
fn with_another_line(chance: &mut Chance, rows: &[Row], turn: u64) -> Vec<u8> {
    const LINES: [&str; 8] = [
        "release,first day,length\r\n",
        "\r\n",
        "\n",
        " \r\n",
        ",,\r\n",
        "# visits\r\n",
        "\u{feff}",
        "\u{1a}",
    ];
    let mut lines: Vec<Vec<u8>> = rows.iter().map(|row| row.text().into_bytes()).collect();
    let anywhere = chance.index(lines.len() + 1);
    let at = chance.pick(&[0, anywhere, lines.len()]);
    lines.insert(at, LINES[turn as usize % LINES.len()].into());
    lines.concat()
}

fn long(mut text: Vec<u8>, turn: u64) -> Vec<u8> {
    const FILLINGS: [&str; 5] = [
        "0",
        "\r\n",
        "1,0,1\r\n",
        "9999999,9999999,9999999\r\n",
        "\0",
    ];
    texts::fill_up(&mut text, &FILLINGS, turn);
    text
}

/// Any bytes, the bytes that lines are made of, rows of any numbers.
fn noise(chance: &mut Chance, turn: u64) -> Vec<u8> {
    match turn % 4 {
        1 => (0..chance.below(60)).map(|_| chance.byte()).collect(),
        2 => (0..chance.below(60))
            .map(|_| chance.pick(b"0123456789,,,\r\n"))
            .collect(),
        _ => {
            let count = chance.below(8);
            let lines: Vec<Row> = (0..count).map(|_| any_row(chance)).collect();
            rows::text(&lines)
        }
    }
}

/// Three numbers of one to seven digits.
fn any_row(chance: &mut Chance) -> Row {
    let mut number = || {
        let digits = chance.between(1, 7) as u32;
        chance.below(10u64.pow(digits))
    };
    Row::of(&[number(), number(), number()])
}

/// Two or three faults on any lines: the first line decides.
fn several(chance: &mut Chance, mut lines: Vec<Row>) -> Vec<u8> {
    for _ in 0..chance.between(2, 3) {
        let at = chance.index(lines.len());
        match chance.below(4) {
            0 => rows::end(&mut lines[at], chance.index(ENDED)),
            1 => rows::set_count(&mut lines[at], chance.index(6)),
            _ => rows::spell(&mut lines[at], chance.index(3), chance.index(SPELT)),
        }
    }
    rows::text(&lines)
}
