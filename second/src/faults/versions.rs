//! Files in which versions are mixed, and files of no version.

use super::sheet::{Kind, Sheet};
use crate::chance::Chance;
use crate::writing::{self, put, VERSION};

/// In turn: string lines, release lines or the header of another version, and versions that a header's
/// length does not belong to or that nobody reads.
pub fn mixed(chance: &mut Chance, turn: u64) -> Vec<u8> {
    let mut sheet = Sheet::draw(chance);
    let other = sheet.version.another(chance);
    let numbers = [0, 1, 2, 3, 4, 0x10, 0x20, 0xff];
    match turn % 7 {
        0 => {
            let line = sheet.line_of(chance, Kind::String);
            sheet.lines[line] = writing::string(&sheet.plan.strings[line - 1], other);
        }
        1 => {
            for (line, string) in sheet.lines[1..].iter_mut().zip(&sheet.plan.strings) {
                *line = writing::string(string, other);
            }
        }
        2 => sheet.lines[0] = writing::header(&sheet.plan, other),
        3 => {
            let line = sheet.line_of(chance, Kind::Release);
            let at = line - 1 - sheet.plan.strings.len();
            sheet.lines[line] = writing::release(&sheet.plan.releases[at], other);
        }
        4 => sheet.lines = writing::lines(&sheet.plan, other),
        5 => {
            let number = numbers[turn as usize / 7 % numbers.len()];
            put(&mut sheet.lines[0], VERSION, number);
        }
        _ => {
            sheet.lines[0] = writing::header(&sheet.plan, other);
            let number = numbers[turn as usize / 7 % numbers.len()];
            put(&mut sheet.lines[0], VERSION, number);
        }
    }
    sheet.text()
}
