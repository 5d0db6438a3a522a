//! One batch of boards: making plan files and inputs, asking for each by a start of its own, and comparing all that is written and the
//! status that is told.

use super::answer::{boarded, written};
use super::{files, inputs};
use crate::calendar::answer::Calendar;
use crate::chance::Chance;
use crate::options::Comparison;
use crate::rules::frames::read;
use crate::rules::plan::Length;
use crate::stop::Stop;
use crate::tally::Tally;
use std::env;
use std::fs::{self, File};
use std::io::{self, Write};
use std::ops::Range;
use std::path::{Path, PathBuf};
use std::process::{Command, Stdio};
use std::time::Instant;

/// Many starts by one shell: a start with an empty first word ends with its status. What it says on standard error goes to descriptor 3, and
/// the status stands behind that.
const STARTS: &str = r#"exec 3>"$2"
while read -r name; do
    "$1" "" "$name.plan" <"$name.input" >"$name.board" 2>&3
    echo " ended $?" >&3
done"#;

const ENDINGS: [&str; 3] = ["plan", "input", "board"];

struct Case {
    /// The file's number under the seed.
    file: u64,
    kind: &'static str,
    input: Vec<u8>,
    board: String,
    refused: bool,
}

/// Compares the boards of these numbers. Without a difference none of their files is needed any more.
pub fn compare_batch(
    job: &Comparison,
    board: &Path,
    calendar: &Calendar,
    folder: &Path,
    files: Range<u64>,
) -> Result<Tally, Stop> {
    let mut tally = Tally::default();
    let begin = Instant::now();
    let mut cases = Vec::new();
    for file in files {
        cases.push(prepare(job, calendar, folder, file, &mut tally)?);
    }
    tally.own = begin.elapsed();
    let begin = Instant::now();
    let board = program(board)?;
    compare_told(job, folder, &cases, &start_each(&board, folder, &cases)?)?;
    for case in &cases {
        let given = fs::read(path(folder, case, "board"))?;
        same(job, folder, case, "difference", &case.board, &given)?;
        if job.asks_alone(case.file) {
            compare_alone(job, &board, folder, case)?;
        }
    }
    tally.other = begin.elapsed();
    if job.keep.is_none() {
        for (case, ending) in cases
            .iter()
            .flat_map(|case| ENDINGS.map(|ending| (case, ending)))
        {
            fs::remove_file(path(folder, case, ending))?;
        }
    }
    Ok(tally)
}

fn name(file: u64) -> String {
    format!("{file:06}")
}

fn path(folder: &Path, case: &Case, ending: &str) -> PathBuf {
    folder.join(format!("{}.{ending}", name(case.file)))
}

/// The program's whole path, as it is started in the folder of the files.
fn program(board: &Path) -> io::Result<PathBuf> {
    let whole = env::current_dir()?.join(board);
    let named =
        |error: io::Error| io::Error::new(error.kind(), format!("{}: {error}", whole.display()));
    fs::metadata(&whole).map_err(named)?;
    Ok(whole)
}

/// Makes, answers and writes one plan file with its input.
fn prepare(
    job: &Comparison,
    calendar: &Calendar,
    folder: &Path,
    file: u64,
    tally: &mut Tally,
) -> io::Result<Case> {
    /// Stands for the days of a run that is refused.
    const SOME_DAYS: Length = 30;
    let made = files::make(job.seed, file);
    let days = read(&made.text).map_or(SOME_DAYS, |plan| plan.days);
    // a sequence of its own, so that the input does not follow from how the file was made
    let mut chance = Chance::new(!job.seed, file);
    let input = inputs::any_input(&mut chance, calendar, days);
    let board = boarded(calendar, &made.text, &input);
    tally.count_file(made.kind);
    tally.count_saved(&board);
    let refused = board.is_err();
    let case = Case {
        file,
        kind: made.kind,
        input,
        board: written(board),
        refused,
    };
    fs::write(path(folder, &case, "plan"), &made.text)?;
    fs::write(path(folder, &case, "input"), &case.input)?;
    Ok(case)
}

/// All that is told, a line for each start.
fn start_each(board: &Path, folder: &Path, cases: &[Case]) -> io::Result<Vec<u8>> {
    let told = folder.join(name(cases[0].file) + ".told");
    let names: String = cases.iter().map(|case| name(case.file) + "\n").collect();
    let mut shell = Command::new("sh")
        .args(["-c", STARTS, "sh"])
        .args([board, &told])
        .current_dir(folder)
        .stdin(Stdio::piped())
        .spawn()?;
    // taken, so that the list ends where all names are written
    let input = shell.stdin.take();
    input
        .expect("the shell's input is a pipe")
        .write_all(names.as_bytes())?;
    shell.wait()?;
    let lines = fs::read(&told)?;
    fs::remove_file(&told)?;
    Ok(lines)
}

/// For each start its status, 0 or 1 for a refusal, and nothing on standard error.
fn compare_told(job: &Comparison, folder: &Path, cases: &[Case], told: &[u8]) -> Result<(), Stop> {
    let mut rest = told;
    for (at, case) in cases.iter().enumerate() {
        let status = if case.refused { 1 } else { 0 };
        let line = format!(" ended {status}\n");
        // the last line is all that is left
        match rest.strip_prefix(line.as_bytes()) {
            Some(after) if at + 1 < cases.len() || after.is_empty() => rest = after,
            _ => {
                let what = "difference of the status or on standard error";
                return same(job, folder, case, what, &line, rest);
            }
        }
    }
    Ok(())
}

/// Without the empty word nobody asks for the status; all else is the same.
fn compare_alone(job: &Comparison, board: &Path, folder: &Path, case: &Case) -> Result<(), Stop> {
    let output = Command::new(board)
        .arg(format!("{}.plan", name(case.file)))
        .current_dir(folder)
        .stdin(File::open(path(folder, case, "input"))?)
        .output()?;
    let same =
        |what, expected: &str, given: Vec<u8>| same(job, folder, case, what, expected, &given);
    same(
        "difference without the empty word",
        &case.board,
        output.stdout,
    )?;
    same(
        "difference on standard error without the empty word",
        "",
        output.stderr,
    )
}

/// Both texts are the same; else the input is shown, and both from the first line on that differs.
fn same(
    job: &Comparison,
    folder: &Path,
    case: &Case,
    what: &str,
    expected: &str,
    given: &[u8],
) -> Result<(), Stop> {
    const SHOWN: usize = 1_000;
    if expected.as_bytes() == given {
        return Ok(());
    }
    let shown = |text: &[u8]| String::from_utf8_lossy(&text[..text.len().min(SHOWN)]).into_owned();
    let line = first_other_line(expected.as_bytes(), given);
    let from_there = |text: &[u8]| {
        let lines = text.split_inclusive(|byte| *byte == b'\n').skip(line - 1);
        shown(&lines.flatten().copied().take(SHOWN).collect::<Vec<u8>>())
    };
    let lines = format!(
        "input:\n{}\nexpected from line {line} on:\n{}\ngiven:\n{}",
        shown(&case.input),
        from_there(expected.as_bytes()),
        from_there(given)
    );
    let plan = path(folder, case, "plan");
    Err(Stop::found(job, case.file, case.kind, &plan, what, &lines))
}

/// Counted from 1.
fn first_other_line(one: &[u8], other: &[u8]) -> usize {
    let same = one.iter().zip(other).take_while(|(a, b)| a == b).count();
    1 + one[..same].iter().filter(|byte| **byte == b'\n').count()
}
