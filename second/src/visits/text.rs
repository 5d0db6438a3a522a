//! Visit lists as text: a line for each record, its release, first day and length between commas, ended by CR LF.

use super::Visit;
use crate::decimal::numbers_of;
use crate::rows::{self, Row};
use crate::rules::frames::{require, Refusal, MOST_BYTES};

const MOST_DIGITS: usize = 7;

/// The list in a text: 1 comes first, then 13 with the first line that is not three such numbers. An empty text has no records.
pub fn read(text: &[u8]) -> Result<Vec<Visit>, Refusal> {
    require(text.len() <= MOST_BYTES, 1, 0)?;
    // Each piece keeps its 0a, so that the last one can be seen to lack it.
    let lines = text.split_inclusive(|byte| *byte == b'\n').zip(1..);
    lines
        .map(|(text, line)| visit_of(text).ok_or(Refusal { number: 13, line }))
        .collect()
}

fn visit_of(line: &[u8]) -> Option<Visit> {
    match numbers_of(line, MOST_DIGITS)?[..] {
        [release, first, length] => Some(Visit {
            release,
            first,
            length,
        }),
        _ => None,
    }
}

pub fn written(visits: &[Visit]) -> Vec<u8> {
    rows::text(&rows_of(visits))
}

pub fn rows_of(visits: &[Visit]) -> Vec<Row> {
    let row = |visit: &Visit| Row::of(&[visit.release, visit.first, visit.length]);
    visits.iter().map(row).collect()
}
