//! Faults of whole lines: missing, empty, doubled, in the wrong order or in another spelling.

use super::sheet::{Kind, Sheet};
use crate::chance::Chance;

type Fault = fn(&mut Chance, &mut Sheet);

const FAULTS: [Fault; 26] = [
    without_last_end,
    with_empty_line,
    with_empty_last_line,
    with_empty_first_line,
    with_line_removed,
    with_string_removed,
    with_line_doubled,
    with_string_doubled,
    with_neighbours_swapped,
    with_any_two_swapped,
    with_release_among_strings,
    with_string_among_releases,
    with_header_again,
    without_header,
    reversed,
    with_crlf,
    with_crlf_on_one_line,
    in_uppercase,
    with_one_uppercase_digit,
    with_blank_around,
    with_two_lines_joined,
    with_all_lines_joined,
    ending_after_a_line,
    with_byte_order_mark,
    with_hex_prefix,
    with_zero_byte_at_end,
];

/// Each fault in turn.
pub fn line_fault(chance: &mut Chance, turn: u64) -> Vec<u8> {
    let mut sheet = Sheet::draw(chance);
    FAULTS[turn as usize % FAULTS.len()](chance, &mut sheet);
    sheet.text()
}

/// Any of the faults, on a sheet that may already have others.
pub fn add_any(chance: &mut Chance, sheet: &mut Sheet) {
    if !sheet.lines.is_empty() {
        chance.pick(&FAULTS)(chance, sheet);
    }
}

fn without_last_end(_: &mut Chance, sheet: &mut Sheet) {
    if let Some(line) = sheet.lines.last_mut() {
        line.pop();
    }
}

fn with_empty_line(chance: &mut Chance, sheet: &mut Sheet) {
    let at = sheet.any_line(chance);
    sheet.lines.insert(at, vec![b'\n']);
}

fn with_empty_last_line(_: &mut Chance, sheet: &mut Sheet) {
    sheet.lines.push(vec![b'\n']);
}

fn with_empty_first_line(_: &mut Chance, sheet: &mut Sheet) {
    sheet.lines.insert(0, vec![b'\n']);
}

fn with_line_removed(chance: &mut Chance, sheet: &mut Sheet) {
    let at = sheet.any_line(chance);
    sheet.lines.remove(at);
}

fn with_string_removed(chance: &mut Chance, sheet: &mut Sheet) {
    let at = sheet
        .line_of(chance, Kind::String)
        .min(sheet.lines.len() - 1);
    sheet.lines.remove(at);
}

fn with_line_doubled(chance: &mut Chance, sheet: &mut Sheet) {
    let at = sheet.any_line(chance);
    sheet.lines.insert(at, sheet.lines[at].clone());
}

/// One string more than the header says.
fn with_string_doubled(chance: &mut Chance, sheet: &mut Sheet) {
    let at = sheet
        .line_of(chance, Kind::String)
        .min(sheet.lines.len() - 1);
    sheet.lines.insert(at, sheet.lines[at].clone());
}

fn with_neighbours_swapped(chance: &mut Chance, sheet: &mut Sheet) {
    let at = sheet.any_line(chance);
    let next = (at + 1).min(sheet.lines.len() - 1);
    sheet.lines.swap(at, next);
}

fn with_any_two_swapped(chance: &mut Chance, sheet: &mut Sheet) {
    let (one, other) = (sheet.any_line(chance), sheet.any_line(chance));
    sheet.lines.swap(one, other);
}

fn with_release_among_strings(chance: &mut Chance, sheet: &mut Sheet) {
    let to = sheet.line_of(chance, Kind::String).min(sheet.lines.len());
    if let Some(release) = sheet.lines.pop() {
        sheet.lines.insert(to.min(sheet.lines.len()), release);
    }
}

fn with_string_among_releases(chance: &mut Chance, sheet: &mut Sheet) {
    let from = sheet
        .line_of(chance, Kind::String)
        .min(sheet.lines.len() - 1);
    let string = sheet.lines.remove(from);
    sheet.lines.push(string);
}

fn with_header_again(chance: &mut Chance, sheet: &mut Sheet) {
    let at = sheet.any_line(chance);
    sheet.lines.insert(at, sheet.lines[0].clone());
}

fn without_header(_: &mut Chance, sheet: &mut Sheet) {
    sheet.lines.remove(0);
}

fn reversed(_: &mut Chance, sheet: &mut Sheet) {
    sheet.lines.reverse();
}

fn with_crlf(_: &mut Chance, sheet: &mut Sheet) {
    for line in &mut sheet.lines {
        put_before_end(line, b'\r');
    }
}

fn with_crlf_on_one_line(chance: &mut Chance, sheet: &mut Sheet) {
    let at = sheet.any_line(chance);
    put_before_end(&mut sheet.lines[at], b'\r');
}

fn put_before_end(line: &mut Vec<u8>, byte: u8) {
    line.insert(line.len().saturating_sub(1), byte);
}

fn in_uppercase(_: &mut Chance, sheet: &mut Sheet) {
    for line in &mut sheet.lines {
        line.make_ascii_uppercase();
    }
}

fn with_one_uppercase_digit(chance: &mut Chance, sheet: &mut Sheet) {
    let line = sheet.any_line(chance);
    if let Some(digit) = sheet.lines[line].iter_mut().rev().nth(1) {
        *digit = chance.pick(b"ABCDEF");
    }
}

fn with_blank_around(chance: &mut Chance, sheet: &mut Sheet) {
    let line = sheet.any_line(chance);
    let blank = chance.pick(b" \t");
    if chance.one_in(2) {
        sheet.lines[line].insert(0, blank);
    } else {
        put_before_end(&mut sheet.lines[line], blank);
    }
}

fn with_two_lines_joined(chance: &mut Chance, sheet: &mut Sheet) {
    let line = sheet.any_line(chance);
    sheet.lines[line].pop();
}

fn with_all_lines_joined(_: &mut Chance, sheet: &mut Sheet) {
    let last = sheet.lines.len() - 1;
    for line in &mut sheet.lines[..last] {
        line.pop();
    }
}

/// Frames missing at the end, sometimes all of them.
fn ending_after_a_line(chance: &mut Chance, sheet: &mut Sheet) {
    let kept = sheet.any_line(chance);
    sheet.lines.truncate(kept);
}

fn with_byte_order_mark(_: &mut Chance, sheet: &mut Sheet) {
    sheet.lines[0].splice(0..0, *b"\xef\xbb\xbf");
}

fn with_hex_prefix(chance: &mut Chance, sheet: &mut Sheet) {
    let line = sheet.any_line(chance);
    sheet.lines[line].splice(0..0, *b"0x");
}

fn with_zero_byte_at_end(_: &mut Chance, sheet: &mut Sheet) {
    sheet.lines.push(vec![0]);
}
