//! A second program, written from documents 01 and 02 alone, that the desk and the clerk are compared with.

mod assigning;
mod bars;
mod batch;
mod calendar;
mod chance;
mod clerk;
mod compare;
mod complaints;
mod crew;
mod days;
mod decimal;
mod desk;
mod edges;
mod evaluation;
mod explaining;
mod faults;
mod late;
mod misses;
mod mix;
mod options;
mod orders;
mod plans;
mod questions;
mod refused;
mod register;
mod rows;
mod rules;
mod running;
mod saving;
mod selftest;
mod sets;
mod showing;
mod slack;
mod stop;
mod tally;
mod texts;
mod turning;
mod visits;
mod writing;
mod wrong;

use calendar::answer::Calendar;
use calendar::ask::{first_difference, print_all, Asked};
use compare::compare_all;
use crew::answer::{boarded, written};
use options::{task, Comparison, Task, USAGE};
use register::answer::{registered, tabled};
use rules::answer::Answer;
use rules::frames::{read, Refusal};
use rules::plan::Plan;
use rules::rule::{all_breaks, PAGE};
use saving::Saved;
use std::io::{ErrorKind, Read, Write};
use std::path::Path;
use std::process::ExitCode;
use stop::Stop;
use visits::answer::{checked, visited};

/// Status where a file is refused.
const REFUSED: u8 = 1;
/// Status where nothing could be compared.
const UNABLE: u8 = 2;

fn main() -> ExitCode {
    match task(std::env::args().skip(1)) {
        Some(Task::Compare(job)) => run_comparison(&job),
        Some(Task::Answer(path)) => show_answer(&path, Answer::of_text),
        Some(Task::Register(path, run)) => show_text(&path, |text| registered(text, run)),
        Some(Task::Table(path)) => show_text(&path, tabled),
        Some(Task::Run(path)) => show_plan(&path, running::told),
        Some(Task::Slack(path)) => show_plan(&path, slack::answer::told),
        Some(Task::Why(path)) => show_text(&path, explaining::explained),
        Some(Task::Reason(path)) => show_text(&path, refused::reasoned),
        Some(Task::Demand(path)) => show_text(&path, explaining::staircase),
        Some(Task::Visits(path)) => show_text(&path, visited),
        Some(Task::CheckVisits(plan, visits)) => check_visits(&plan, &visits),
        Some(Task::Board(path)) => show_board(&path),
        Some(Task::Assign(path)) => show_text(&path, assigning::assigned),
        Some(Task::EverySet(path)) => show_plan(&path, sets::lines),
        Some(Task::Bars(path)) => show_plan(&path, bars::told),
        Some(Task::Days(path)) => show_plan(&path, days::told),
        Some(Task::Breaks(path)) => show_plan(&path, breaks),
        Some(Task::Wrong(mistake, path)) => show_answer(&path, |text| wrong::answer(mistake, text)),
        Some(Task::Sets(path)) => show_sets(&path),
        Some(Task::Mistakes) => shown(&wrong::listed(), ExitCode::SUCCESS),
        Some(Task::Selftest) => run_selftest(),
        Some(Task::Calendar) => show_calendar(),
        Some(Task::Dates(asked)) => run_dates(&asked),
        Some(Task::Misses(asked)) => run_misses(&asked),
        Some(Task::Orders(asked)) => run_orders(&asked),
        None => {
            eprintln!("{USAGE}");
            ExitCode::from(UNABLE)
        }
    }
}

fn run_comparison(job: &Comparison) -> ExitCode {
    println!("second: seed {}", job.seed);
    match compare_all(job) {
        Ok(tally) => {
            if job.tally {
                print!("{tally}");
            }
            println!(
                "second: {} files, {} answers, seed {}, no difference",
                job.files,
                tally.answers(),
                job.seed
            );
            ExitCode::SUCCESS
        }
        Err(Stop::Found { report, .. }) => {
            println!("{}", report.trim_end());
            ExitCode::FAILURE
        }
        Err(Stop::Unable(error)) => unable(&error.to_string()),
    }
}

fn show_answer(path: &Path, answer: impl Fn(&[u8]) -> Answer) -> ExitCode {
    show(path, |text| match answer(text) {
        Answer::Refused(refusal) => Err(refusal),
        given => Ok(given.to_string()),
    })
}

fn show_text(path: &Path, said: impl Fn(&[u8]) -> Saved) -> ExitCode {
    let lines = |text: Vec<u8>| String::from_utf8(text).expect("all that is written is ASCII");
    show(path, |text| said(text).map(lines))
}

/// The board of a plan file, the start date and the diary on standard input; a refusal is its bare number.
fn show_board(path: &Path) -> ExitCode {
    let mut input = Vec::new();
    if let Err(error) = std::io::stdin().read_to_end(&mut input) {
        return unable(&error.to_string());
    }
    match std::fs::read(path) {
        Ok(plan) => {
            let board = boarded(&Calendar::new(), &plan, &input);
            let status = board.as_ref().map_or(REFUSED, |_| 0);
            shown(&written(board), ExitCode::from(status))
        }
        Err(error) => unable(&format!("{}: {error}", path.display())),
    }
}

fn show_plan(path: &Path, lines: impl Fn(&Plan) -> String) -> ExitCode {
    show(path, |text| read(text).map(|plan| lines(&plan)))
}

/// What is said of a file, or its refusal.
fn show(path: &Path, said: impl Fn(&[u8]) -> Result<String, Refusal>) -> ExitCode {
    match std::fs::read(path) {
        Ok(text) => match said(&text) {
            Ok(lines) => shown(&lines, ExitCode::SUCCESS),
            Err(refusal) => shown(
                &Answer::Refused(refusal).to_string(),
                ExitCode::from(REFUSED),
            ),
        },
        Err(error) => unable(&format!("{}: {error}", path.display())),
    }
}

fn check_visits(plan: &Path, visits: &Path) -> ExitCode {
    match std::fs::read(visits) {
        Ok(list) => show_text(plan, |plan| checked(plan, &list)),
        Err(error) => unable(&format!("{}: {error}", visits.display())),
    }
}

fn show_sets(path: &Path) -> ExitCode {
    match std::fs::read_to_string(path) {
        Ok(text) => match evaluation::answered(&text) {
            Some(lines) => shown(&lines, ExitCode::SUCCESS),
            None => unable(&format!("{}: a line that is no set", path.display())),
        },
        Err(error) => unable(&format!("{}: {error}", path.display())),
    }
}

/// Written at once; a reader who has seen enough and went away, as `head` does, is no fault.
fn shown(lines: &str, status: ExitCode) -> ExitCode {
    match std::io::stdout().write_all(lines.as_bytes()) {
        Err(error) if error.kind() != ErrorKind::BrokenPipe => unable(&error.to_string()),
        _ => status,
    }
}

/// A line for each interval that breaks the rule, and how many intervals were compared.
fn breaks(plan: &Plan) -> String {
    let cycle = plan.cycle().expect("a plan that was read has H in bounds");
    let mut lines = String::new();
    for (interval, blocking, demand) in all_breaks(plan, cycle) {
        lines += &format!("interval {interval} blocking {blocking} demand {demand}\n");
    }
    lines += &format!("intervals 1 to {}\n", (PAGE.last)(plan, cycle));
    lines
}

fn run_selftest() -> ExitCode {
    let wrong = selftest::wrong_cases();
    for case in &wrong {
        println!("second: {case}");
    }
    if wrong.is_empty() {
        println!("second: the documents' plans and dates come out as they say");
        ExitCode::SUCCESS
    } else {
        ExitCode::FAILURE
    }
}

fn show_calendar() -> ExitCode {
    let lines = calendar::sheets();
    let mut text = String::new();
    for sheet in &lines {
        text.push_str(&format!("{sheet}\n"));
    }
    print!("{text}");
    ExitCode::SUCCESS
}

fn run_dates(asked: &Asked) -> ExitCode {
    let clerk = match &asked.clerk {
        Some(clerk) => clerk,
        None => {
            print_all(asked);
            return ExitCode::SUCCESS;
        }
    };
    match first_difference(clerk, asked) {
        Ok(None) => {
            println!(
                "second: {} questions about dates, seed {}, no difference",
                asked.questions, asked.seed
            );
            ExitCode::SUCCESS
        }
        Ok(Some(report)) => {
            println!("second: {}", report.trim_end());
            ExitCode::FAILURE
        }
        Err(error) => unable(&format!("{}: {error}", clerk.display())),
    }
}

fn run_misses(asked: &misses::ask::Asked) -> ExitCode {
    match misses::ask::ask_all(asked) {
        Ok(Ok(counts)) => {
            println!("{counts}");
            ExitCode::SUCCESS
        }
        Ok(Err(wrong)) => {
            println!("second: {}", wrong.trim_end());
            ExitCode::FAILURE
        }
        Err(error) => unable(&format!("{}: {error}", asked.clerk.display())),
    }
}

fn run_orders(asked: &orders::ask::Asked) -> ExitCode {
    match orders::ask::ask_all(asked) {
        Ok(Ok(counts)) => {
            println!("{counts}");
            ExitCode::SUCCESS
        }
        Ok(Err(wrong)) => {
            println!("second: {}", wrong.trim_end());
            ExitCode::FAILURE
        }
        Err(error) => unable(&format!("{}: {error}", asked.clerk.display())),
    }
}

fn unable(error: &str) -> ExitCode {
    eprintln!("second: {error}");
    ExitCode::from(UNABLE)
}
