//! Which kind of export comes when, and the making of it.

use super::damage;
use super::export::Export;
use super::plans;
use super::writer::table;
use crate::chance::Chance;
use crate::mix::{self, kind, Kind, Made};
use crate::plans::cycles;
use crate::rows::{self, Row, ENDED, SPELT};
use crate::rules::plan::Length;
use crate::{texts, writing};

const EXPORTS: [Kind; 18] = [
    kind!("lawful", 100, lawful),
    kind!("each count of digits", 60, each_count_of_digits),
    kind!("number of lines", 40, number_of_lines),
    kind!("eleventh line", 40, eleventh_line),
    kind!("H near its bound", 40, cycle_near_bound),
    kind!("a string at bound", 130, string_at_bound),
    kind!("a number's spelling", 130, spelling),
    kind!("line end", 80, line_end),
    kind!("count of numbers", 60, count_of_numbers),
    kind!("between numbers", 20, between_numbers),
    kind!("one byte", 110, one_byte),
    kind!("byte more or less", 50, byte_more_or_less),
    kind!("text cut", 20, text_cut),
    kind!("long text", 15, long_text),
    kind!("another line", 20, another_line),
    kind!("noise", 15, noise),
    kind!("plan file", 10, plan_file),
    kind!("several faults", 60, several_faults),
];

/// The export of this number under this seed.
pub fn make(seed: u64, file: u64) -> Made {
    mix::make_of(&EXPORTS, seed, file)
}

fn lawful(chance: &mut Chance, _: u64) -> Vec<u8> {
    table(&plans::any_lawful(chance))
}

fn each_count_of_digits(chance: &mut Chance, _: u64) -> Vec<u8> {
    table(&plans::each_count_of_digits(chance))
}

/// None, one, and as many as may be or more.
fn number_of_lines(chance: &mut Chance, turn: u64) -> Vec<u8> {
    const COUNTS: [usize; 12] = [0, 1, 2, 8, 9, 10, 11, 12, 20, 100, 255, 266];
    let mut export = Export::draw(chance);
    export.set_length(COUNTS[turn as usize % COUNTS.len()]);
    export.text()
}

/// Ten lawful lines and, in turn, something behind them, which is one line too many whatever it says.
fn eleventh_line(chance: &mut Chance, turn: u64) -> Vec<u8> {
    const LINES: [&str; 14] = [
        "",
        "1,1,1,0,0,0\r\n",
        "0,0,0,2,1001,1\r\n",
        "1,1,1,0,0\r\n",
        "1,1,1,0,0,0\n",
        "1,1,1,0,0,0\r",
        "1,1,1,0,0,0",
        "\r\n",
        "\n",
        "\r",
        "1",
        ",",
        "997,1,1,0,0\r\n991,1,1,0,0,0\r\n",
        "\0",
    ];
    let mut export = Export::draw(chance);
    export.set_length(10);
    // an earlier fault, or an H that is over its bound by now, and neither
    match turn / LINES.len() as u64 % 3 {
        0 => spoil_any(chance, &mut export),
        1 => part_periods(&mut export),
        _ => {}
    }
    let mut text = export.text();
    text.extend(LINES[turn as usize % LINES.len()].as_bytes());
    text
}

/// On either side of the bound, and now and then with another fault, which comes first wherever it is.
fn cycle_near_bound(chance: &mut Chance, _: u64) -> Vec<u8> {
    let mut export = Export::of(cycles::near_bound(chance));
    if chance.one_in(4) {
        let count = chance.between(5, 12) as usize;
        export.set_length(count);
    }
    if chance.one_in(6) {
        spoil_any(chance, &mut export);
    }
    export.text()
}

fn string_at_bound(chance: &mut Chance, turn: u64) -> Vec<u8> {
    let mut export = Export::draw(chance);
    let at = export.any_row(chance);
    damage::set_bounds(
        &mut export.rows[at],
        &export.plan.strings[at],
        turn as usize,
    );
    export.text()
}

/// Each number in each spelling in turn.
fn spelling(chance: &mut Chance, turn: u64) -> Vec<u8> {
    let mut export = Export::draw(chance);
    let at = export.any_row(chance);
    let turn = turn as usize;
    rows::spell(&mut export.rows[at], turn % 6, turn / 6 % SPELT);
    export.text()
}

/// Each end in turn, of the last line and of any.
fn line_end(chance: &mut Chance, turn: u64) -> Vec<u8> {
    let mut export = Export::draw(chance);
    let last = export.rows.len() - 1;
    let at = if turn % 2 == 0 {
        last
    } else {
        export.any_row(chance)
    };
    rows::end(&mut export.rows[at], turn as usize / 2 % ENDED);
    export.text()
}

fn count_of_numbers(chance: &mut Chance, turn: u64) -> Vec<u8> {
    const COUNTS: [usize; 10] = [0, 1, 2, 3, 4, 5, 6, 7, 10, 300];
    let mut export = Export::draw(chance);
    let at = export.any_row(chance);
    let row = &mut export.rows[at];
    rows::set_count(row, COUNTS[turn as usize % COUNTS.len()]);
    // a number that is missing between its commas is still one of six, but no number
    if chance.one_in(4) {
        let place = chance.index(row.numbers.len() + 1);
        row.numbers.insert(place, String::new());
    }
    export.text()
}

fn between_numbers(chance: &mut Chance, _: u64) -> Vec<u8> {
    let mut export = Export::draw(chance);
    let at = export.any_row(chance);
    rows::join(chance, &mut export.rows[at]);
    export.text()
}

/// Every value in turn, anywhere.
fn one_byte(chance: &mut Chance, turn: u64) -> Vec<u8> {
    let mut text = Export::draw(chance).text();
    texts::change_byte(chance, &mut text, (turn % 256) as u8);
    text
}

fn byte_more_or_less(chance: &mut Chance, turn: u64) -> Vec<u8> {
    let mut text = Export::draw(chance).text();
    texts::change_length(chance, &mut text, turn);
    text
}

/// Cut off anywhere, in turn at each length.
fn text_cut(chance: &mut Chance, turn: u64) -> Vec<u8> {
    let mut text = Export::draw(chance).text();
    text.truncate(turn as usize % (text.len() + 1));
    text
}

/// About as long as a text may be: a lawful table, a spoilt one or none, filled up with something.
fn long_text(chance: &mut Chance, turn: u64) -> Vec<u8> {
    const FILLINGS: [&str; 6] = ["0", "\r\n", "\n", ",", "1,1,1,0,0,0\r\n", "\0"];
    let mut export = Export::draw(chance);
    match chance.below(3) {
        0 => spoil_any(chance, &mut export),
        1 => export.rows.clear(),
        _ => {}
    }
    let mut text = export.text();
    texts::fill_up(&mut text, &FILLINGS, turn);
    text
}

/// A line that a spreadsheet might have put there, before all others or amid them or behind.
fn another_line(chance: &mut Chance, turn: u64) -> Vec<u8> {
    const LINES: [&str; 10] = [
        "T,C,D,X,moving,J\r\n",
        "\"T\",\"C\",\"D\",\"X\",\"A\",\"J\"\r\n",
        "\r\n",
        "\n",
        " \r\n",
        ",,,,,\r\n",
        "# strings\r\n",
        "\u{feff}",
        "\u{1a}",
        "sep=,\r\n",
    ];
    let mut lines: Vec<Vec<u8>> = Export::draw(chance)
        .rows
        .iter()
        .map(|row| row.text().into_bytes())
        .collect();
    let anywhere = chance.index(lines.len() + 1);
    let at = chance.pick(&[0, anywhere, lines.len()]);
    lines.insert(at, LINES[turn as usize % LINES.len()].into());
    lines.concat()
}

/// No damaged table: any bytes, the bytes that lines are made of, rows of any numbers, and the shortest texts.
fn noise(chance: &mut Chance, turn: u64) -> Vec<u8> {
    const TINY: [&str; 12] = [
        "",
        "\r",
        "\n",
        "\r\n",
        "\n\r",
        "0",
        ",",
        ",,,,,",
        ",,,,,\r\n",
        "0,0,0,0,0,0\r\n",
        "1,1,1,0,0,0",
        "1,1,1,0,0,0\r\n",
    ];
    match turn % 4 {
        0 => (0..chance.below(80)).map(|_| chance.byte()).collect(),
        1 => (0..chance.below(80))
            .map(|_| chance.pick(b"0123456789,,,,\r\n"))
            .collect(),
        2 => (0..chance.below(13))
            .flat_map(|_| any_numbers(chance).text().into_bytes())
            .collect(),
        _ => TINY[turn as usize / 4 % TINY.len()].into(),
    }
}

fn any_numbers(chance: &mut Chance) -> Row {
    let count = chance.pick(&[5, 6, 6, 6, 6, 6, 7]);
    Row {
        numbers: (0..count).map(|_| any_number(chance).to_string()).collect(),
        end: "\r\n".into(),
    }
}

fn any_number(chance: &mut Chance) -> Length {
    let most = chance.pick(&[1, 4, 60, 1_000, 20_000]);
    chance.between(0, most)
}

/// The frames of a plan are no table.
fn plan_file(chance: &mut Chance, _: u64) -> Vec<u8> {
    let plan = plans::any_lawful(chance);
    writing::any_text(chance, &plan)
}

/// Two to four faults, often on one line; lines too many, an H over its bound, a text cut or too long on top of them.
fn several_faults(chance: &mut Chance, _: u64) -> Vec<u8> {
    let mut export = Export::draw(chance);
    if chance.one_in(4) {
        part_periods(&mut export);
    }
    if chance.one_in(4) {
        let count = chance.between(9, 12) as usize;
        export.set_length(count);
    }
    let first = export.any_row(chance);
    for _ in 0..chance.between(2, 4) {
        let at = if chance.one_in(3) {
            export.any_row(chance)
        } else {
            first
        };
        spoil(chance, &mut export, at);
    }
    let mut text = export.text();
    if chance.one_in(8) {
        text.truncate(chance.index(text.len() + 1));
    }
    if chance.one_in(20) {
        let length = chance.pick(&[65_536, 65_537]);
        text.resize(length, b'1');
    }
    text
}

/// Gives the first two rows periods whose H is over its bound.
fn part_periods(export: &mut Export) {
    if export.rows.len() >= 2 {
        for (row, numbers) in export
            .rows
            .iter_mut()
            .zip(["997,1,997,0,0,0", "991,1,991,1,0,3"])
        {
            row.numbers = numbers.split(',').map(String::from).collect();
        }
    }
}

fn spoil_any(chance: &mut Chance, export: &mut Export) {
    let at = export.any_row(chance);
    spoil(chance, export, at);
}

/// Rows may be more than strings, which they then repeat.
fn spoil(chance: &mut Chance, export: &mut Export, at: usize) {
    let strings = &export.plan.strings;
    let string = &strings[at % strings.len()];
    damage::add_any(chance, &mut export.rows[at], string);
}
