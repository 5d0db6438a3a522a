//! One batch of the clerk: making its files, asking about them, and comparing what is written.

use crate::chance::Chance;
use crate::complaints;
use crate::options::{Comparison, Subject};
use crate::questions;
use crate::saving::written;
use crate::sets::behind;
use crate::stop::Stop;
use crate::tally::Tally;
use std::env;
use std::fs;
use std::io;
use std::ops::Range;
use std::path::{Path, PathBuf};
use std::process::{Command, Output, Stdio};
use std::time::Instant;

/// The most bytes that the clerk takes as a list of commands.
const LONGEST_LIST: usize = 65_536;

/// A command about one file, and all that has to be written for it.
struct Question {
    file: u64,
    path: PathBuf,
    kind: &'static str,
    command: String,
    answer: Vec<u8>,
    /// What is said on standard error.
    beside: String,
    /// Where another file is that the command names.
    beside_file: Option<PathBuf>,
}

/// Compares the files of these numbers. Without a difference none of them is needed any more.
pub fn compare_batch(
    job: &Comparison,
    clerk: &Path,
    subject: Subject,
    folder: &Path,
    files: Range<u64>,
) -> Result<Tally, Stop> {
    if files.start == 0 {
        complaints::compare(clerk, subject, folder)?;
    }
    let mut tally = Tally::default();
    let begin = Instant::now();
    let mut questions = Vec::new();
    for file in files.clone() {
        questions.extend(prepare(job, subject, folder, file, &mut tally)?);
    }
    tally.own = begin.elapsed();
    let begin = Instant::now();
    ask_in_lists(job, clerk, folder, &questions)?;
    ask_some_alone(job, clerk, folder, &questions)?;
    tally.other = begin.elapsed();
    if job.keep.is_none() {
        for file in files {
            fs::remove_file(folder.join(name(subject, file)))?;
        }
        for other in questions.iter().filter_map(|one| one.beside_file.as_ref()) {
            fs::remove_file(other)?;
        }
    }
    Ok(tally)
}

fn name(subject: Subject, file: u64) -> String {
    let ending = match subject {
        Subject::Register => "csv",
        _ => "plan",
    };
    format!("{file:06}.{ending}")
}

/// Makes and writes one file, and asks about it.
fn prepare(
    job: &Comparison,
    subject: Subject,
    folder: &Path,
    file: u64,
    tally: &mut Tally,
) -> Result<Vec<Question>, Stop> {
    let made = questions::file(subject, job.seed, file);
    let (kind, name) = (made.kind, name(subject, file));
    let path = folder.join(&name);
    fs::write(&path, &made.text)?;
    tally.count_file(kind);
    // a sequence of its own, so that the questions do not follow from how the file was made
    let mut chance = Chance::new(!job.seed, file);
    let asked = questions::about(subject, &mut chance, &made.text, &name)
        .map_err(|what| Stop::found(job, file, kind, &path, what, ""))?;
    let mut questions = Vec::new();
    for one in asked {
        tally.count_saved(&one.answer);
        questions.push(Question {
            file,
            path: path.clone(),
            kind,
            command: one.command,
            answer: written(one.answer),
            beside: one.beside,
            beside_file: one.beside_file.as_ref().map(|(name, _)| folder.join(name)),
        });
        if let Some((name, bytes)) = &one.beside_file {
            fs::write(folder.join(name), bytes)?;
        }
    }
    Ok(questions)
}

/// Many questions to a start.
fn ask_in_lists(
    job: &Comparison,
    clerk: &Path,
    folder: &Path,
    questions: &[Question],
) -> Result<(), Stop> {
    let list = format!("{:06}.commands", questions[0].file);
    let mut rest = questions;
    while !rest.is_empty() {
        let (part, after) = rest.split_at(fitting(rest));
        let commands: String = part.iter().map(command_line).collect();
        fs::write(folder.join(&list), commands)?;
        let output = ask(clerk, folder, &["each", &list])?;
        compare(job, part, true, &output)?;
        rest = after;
    }
    if job.keep.is_none() {
        fs::remove_file(folder.join(&list))?;
    }
    Ok(())
}

/// How many questions fit into a list.
fn fitting(questions: &[Question]) -> usize {
    let mut length = 0;
    let too_long = |question: &Question| {
        length += command_line(question).len();
        length > LONGEST_LIST
    };
    let end = questions.iter().position(too_long);
    end.unwrap_or(questions.len())
}

fn command_line(question: &Question) -> String {
    format!("{}\n", question.command)
}

/// A start for each question about some of the files.
fn ask_some_alone(
    job: &Comparison,
    clerk: &Path,
    folder: &Path,
    questions: &[Question],
) -> Result<(), Stop> {
    for question in questions.iter().filter(|one| job.asks_alone(one.file)) {
        let words: Vec<&str> = question.command.split(' ').collect();
        let output = ask(clerk, folder, &words)?;
        compare(job, std::slice::from_ref(question), false, &output)?;
    }
    Ok(())
}

/// Starts the clerk in the folder, so that a command has no more of a file's name than it needs.
pub fn ask(clerk: &Path, folder: &Path, words: &[&str]) -> io::Result<Output> {
    let program = env::current_dir()?.join(clerk);
    let named =
        |error: io::Error| io::Error::new(error.kind(), format!("{}: {error}", program.display()));
    Command::new(&program)
        .current_dir(folder)
        .args(words)
        .stdin(Stdio::null())
        .output()
        .map_err(named)
}

/// Compares the clerk's whole output with the answers; in a list each is under its command.
fn compare(
    job: &Comparison,
    questions: &[Question],
    listed: bool,
    output: &Output,
) -> Result<(), Stop> {
    let mut rest = output.stdout.as_slice();
    for question in questions {
        let mut expected = Vec::new();
        if listed {
            expected.extend(command_line(question).as_bytes());
        }
        expected.extend(&question.answer);
        match behind(rest, &expected) {
            Some(after) => rest = after,
            None => return Err(differs(job, question, rest, output)),
        }
    }
    let beside: String = questions.iter().map(|one| one.beside.as_str()).collect();
    if rest.is_empty() && output.stderr == beside.as_bytes() {
        return Ok(());
    }
    Err(differs(job, &questions[questions.len() - 1], rest, output))
}

/// The question, what has to be written for it, and what was written from there on.
fn differs(job: &Comparison, question: &Question, given: &[u8], output: &Output) -> Stop {
    const SHOWN: usize = 2_000;
    let shown =
        |bytes: &[u8]| String::from_utf8_lossy(&bytes[..bytes.len().min(SHOWN)]).into_owned();
    // the file of the question is kept; another one that its command names is shown here
    let other = question.beside_file.as_ref();
    let other = other.and_then(|path| fs::read(path).ok());
    let lines = format!(
        "{}\n{}expected:\n{}\ngiven:\n{}\n({}) {}",
        question.command,
        other.map_or(String::new(), |bytes| shown(&bytes) + "\n"),
        shown(&question.answer),
        shown(given),
        output.status,
        shown(&output.stderr)
    );
    Stop::found(
        job,
        question.file,
        question.kind,
        &question.path,
        "difference",
        &lines,
    )
}
