//! Printing questions with their answers, and asking the clerk for them.

use super::answer::Calendar;
use super::questions::question;
use crate::chance::Chance;
use std::io;
use std::path::{Path, PathBuf};
use std::process::{Command, Stdio};

pub struct Asked {
    /// The clerk; nobody is asked without one.
    pub clerk: Option<PathBuf>,
    pub questions: u64,
    pub seed: u64,
}

/// Each question on a line behind `?`, and under it what the clerk has to write.
pub fn print_all(asked: &Asked) {
    let calendar = Calendar::new();
    for number in 0..asked.questions {
        let words = question(&calendar, &mut Chance::new(asked.seed, number));
        print!("? {:?}\n{}", words, calendar.answer(&words));
    }
}

/// The first question whose answer differs: the words, what was to be written and what was.
pub fn first_difference(clerk: &Path, asked: &Asked) -> io::Result<Option<String>> {
    let calendar = Calendar::new();
    for number in 0..asked.questions {
        let words = question(&calendar, &mut Chance::new(asked.seed, number));
        // an empty word is complained of before any word is looked at
        if words.iter().any(|word| word.is_empty()) {
            continue;
        }
        let (expected, beside) = (calendar.answer(&words), calendar.beside(&words));
        let given = Command::new(clerk)
            .args(&words)
            .stdin(Stdio::null())
            .output()?;
        if given.stdout != expected.as_bytes() || given.stderr != beside.as_bytes() {
            let said = String::from_utf8_lossy(&given.stderr);
            let given = String::from_utf8_lossy(&given.stdout);
            return Ok(Some(format!(
                "question {} of seed {}: clerk {:?}\nexpected:\n{}{}given:\n{}{}",
                number, asked.seed, words, expected, beside, given, said
            )));
        }
    }
    Ok(None)
}
