//! One batch of the desk: making and answering its files, and asking for them.

use crate::desk::{ask_through_input, ask_with_names, compare, Case};
use crate::mix::make;
use crate::options::Comparison;
use crate::rules::answer::Answer;
use crate::stop::Stop;
use crate::tally::Tally;
use std::fs;
use std::ops::Range;
use std::path::Path;
use std::slice;
use std::time::Instant;

/// Compares the files of these numbers. Without a difference none of them is needed any more.
pub fn compare_batch(
    job: &Comparison,
    desk: &Path,
    folder: &Path,
    files: Range<u64>,
) -> Result<Tally, Stop> {
    let mut tally = Tally::default();
    let mut cases = Vec::new();
    for file in files {
        cases.push(prepare(job, folder, file, &mut tally)?);
    }
    let begin = Instant::now();
    ask_for_all(job, desk, &cases)?;
    ask_for_some_alone(job, desk, &cases)?;
    tally.other = begin.elapsed();
    if job.keep.is_none() {
        for case in &cases {
            fs::remove_file(&case.path)?;
        }
    }
    Ok(tally)
}

/// Makes, answers and writes one file. The claim must hold on this program's own answer; as the
/// desk has to give the same answer, it is tried on the desk as well.
fn prepare(job: &Comparison, folder: &Path, file: u64, tally: &mut Tally) -> Result<Case, Stop> {
    let begin = Instant::now();
    let made = make(job.seed, file);
    let answer = Answer::of_text(&made.text);
    tally.own += begin.elapsed();
    tally.count_file(made.kind);
    tally.count_answer(&answer);
    let case = Case {
        file,
        kind: made.kind,
        path: folder.join(format!("{file:06}.plan")),
        answer: answer.to_string(),
    };
    fs::write(&case.path, &made.text)?;
    if answer.breaks_the_claim() {
        let what = "a plan that passes misses";
        return Err(found(job, &case, what, &case.answer));
    }
    Ok(case)
}

fn ask_for_all(job: &Comparison, desk: &Path, cases: &[Case]) -> Result<(), Stop> {
    let output = ask_with_names(desk, cases)?;
    match compare(&output, cases) {
        None => Ok(()),
        Some(difference) => {
            let case = &cases[difference.at];
            Err(differs(job, case, "difference", &difference.given))
        }
    }
}

fn ask_for_some_alone(job: &Comparison, desk: &Path, cases: &[Case]) -> Result<(), Stop> {
    for case in cases.iter().filter(|case| job.asks_alone(case.file)) {
        let alone = slice::from_ref(case);
        ask_for_all(job, desk, alone)?;
        let output = ask_through_input(desk, case)?;
        if let Some(difference) = compare(&output, alone) {
            let what = "difference through standard input";
            return Err(differs(job, case, what, &difference.given));
        }
    }
    Ok(())
}

fn differs(job: &Comparison, case: &Case, what: &str, given: &str) -> Stop {
    let lines = format!("expected:\n{}given:\n{given}", case.answer);
    found(job, case, what, &lines)
}

fn found(job: &Comparison, case: &Case, what: &str, lines: &str) -> Stop {
    Stop::found(job, case.file, case.kind, &case.path, what, lines)
}
