//! All that is written for an export of the register, and for a plan file as a table of the register.

use super::reader;
use super::run_length::RunLength;
use super::writer::table;
use crate::rules::frames;
use crate::saving::Saved;
use crate::writing;

/// The plan file, in version 03, of an export with an N beside it, or the export's refusal.
pub fn registered(text: &[u8], run: RunLength) -> Saved {
    reader::read(text, run).map(|plan| writing::text(&plan))
}

/// The strings of a plan file as the register has them, or the file's refusal.
pub fn tabled(text: &[u8]) -> Saved {
    frames::read(text).map(|plan| table(&plan))
}
