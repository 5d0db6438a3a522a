//! What the program is asked to do.

use crate::calendar::ask::Asked;
use crate::misses;
use crate::orders;
use crate::register::run_length::RunLength;
use crate::wrong::Mistake;
use std::path::PathBuf;
use std::str::FromStr;

pub const USAGE: &str =
    "usage: second --desk PATH [--files N] [--seed S] [--batch B] [--keep DIR] [--tally]
       second --clerk PATH [--about SUBJECT] [--files N] [--seed S] [--batch B] [--keep DIR] [--tally]
              a SUBJECT is one of save quick show turn register table run visits why demand slack assign sets bars
       second --boards PATH [--files N] [--seed S] [--batch B] [--keep DIR] [--tally]
       second --answer FILE
       second --register FILE N
       second --table FILE
       second --run FILE
       second --slack FILE
       second --why FILE
       second --reason FILE
       second --demand FILE
       second --visits FILE
       second --check-visits FILE VISITS
       second --board FILE < START-DATE-AND-DIARY
       second --assign FILE
       second --every-set FILE
       second --bars FILE
       second --days FILE
       second --breaks FILE
       second --wrong equation-7|one-by-one|stop-at-dmax|load-equal-to-h|start-early|stopped-pays|one-week|who-is-interrupted FILE
       second --sets FILE
       second --mistakes
       second --calendar
       second --misses CLERK [--plans N] [--small M] [--late L] [--drawn K] [--seed S]
       second --orders CLERK DESK [--pairs N] [--seed S]
       second --dates [--ask CLERK] [--questions N] [--seed S]
       second --selftest";

pub enum Task {
    Compare(Comparison),
    Answer(PathBuf),
    Register(PathBuf, RunLength),
    Table(PathBuf),
    Run(PathBuf),
    Slack(PathBuf),
    Why(PathBuf),
    Reason(PathBuf),
    Demand(PathBuf),
    Visits(PathBuf),
    CheckVisits(PathBuf, PathBuf),
    Board(PathBuf),
    Assign(PathBuf),
    EverySet(PathBuf),
    Bars(PathBuf),
    Days(PathBuf),
    Breaks(PathBuf),
    Wrong(Mistake, PathBuf),
    /// Sets of strings, a line each, as the benchmark of the source's evaluation writes them.
    Sets(PathBuf),
    Mistakes,
    Selftest,
    Calendar,
    Dates(Asked),
    Misses(misses::ask::Asked),
    Orders(orders::ask::Asked),
}

/// The program that is compared with this one.
pub enum Program {
    Desk(PathBuf),
    Clerk(PathBuf, Subject),
    /// The crew's board.
    Board(PathBuf),
}

/// What the clerk is asked about.
#[derive(Clone, Copy)]
pub enum Subject {
    /// Plans written back.
    Save,
    /// Quick verdicts.
    Quick,
    /// Plans in decimal words.
    Show,
    /// Files of one version turned into the other.
    Turn,
    /// The register's exports read into plans.
    Register,
    /// Plans' strings written as the register has them.
    Table,
    /// Runs told stint by stint.
    Run,
    /// Visits of our own runs, and visit lists.
    Visits,
    /// How far each number of a plan can go.
    Slack,
    /// Verdicts told string by string.
    Why,
    /// Demands told interval by interval.
    Demand,
    /// Plans with the set that the search finds.
    Assign,
    /// Every permission set.
    Sets,
    /// Runs as bars.
    Bars,
}

impl FromStr for Subject {
    type Err = ();

    fn from_str(word: &str) -> Result<Subject, ()> {
        match word {
            "save" => Ok(Subject::Save),
            "quick" => Ok(Subject::Quick),
            "show" => Ok(Subject::Show),
            "turn" => Ok(Subject::Turn),
            "register" => Ok(Subject::Register),
            "table" => Ok(Subject::Table),
            "run" => Ok(Subject::Run),
            "visits" => Ok(Subject::Visits),
            "slack" => Ok(Subject::Slack),
            "why" => Ok(Subject::Why),
            "demand" => Ok(Subject::Demand),
            "assign" => Ok(Subject::Assign),
            "sets" => Ok(Subject::Sets),
            "bars" => Ok(Subject::Bars),
            _ => Err(()),
        }
    }
}

pub struct Comparison {
    pub program: Program,
    pub files: u64,
    pub seed: u64,
    pub batch: u64,
    pub keep: Option<PathBuf>,
    pub tally: bool,
}

/// Files that are also asked about one by one, each by a start of its own.
const ASKED_ALONE: u64 = 48;

impl Comparison {
    /// Spreads the files asked about alone evenly over all files.
    pub fn asks_alone(&self, file: u64) -> bool {
        file * ASKED_ALONE / self.files != (file + 1) * ASKED_ALONE / self.files
    }
}

/// Reads the arguments; nothing if they ask for no task or have a word too many.
pub fn task(mut words: impl Iterator<Item = String>) -> Option<Task> {
    let (mut desk, mut clerk, mut board) = (None, None, None);
    let mut about = Subject::Save;
    let (mut files, mut seed, mut batch) = (50_000, 1, 200);
    let (mut keep, mut tally) = (None, false);
    while let Some(word) = words.next() {
        match word.as_str() {
            "--answer" => return words.next().map(|path| Task::Answer(path.into())),
            "--register" => return Some(Task::Register(value(&mut words)?, value(&mut words)?)),
            "--table" => return words.next().map(|path| Task::Table(path.into())),
            "--run" => return words.next().map(|path| Task::Run(path.into())),
            "--slack" => return words.next().map(|path| Task::Slack(path.into())),
            "--why" => return words.next().map(|path| Task::Why(path.into())),
            "--reason" => return words.next().map(|path| Task::Reason(path.into())),
            "--demand" => return words.next().map(|path| Task::Demand(path.into())),
            "--visits" => return words.next().map(|path| Task::Visits(path.into())),
            "--check-visits" => {
                return Some(Task::CheckVisits(value(&mut words)?, value(&mut words)?))
            }
            "--board" => return words.next().map(|path| Task::Board(path.into())),
            "--assign" => return words.next().map(|path| Task::Assign(path.into())),
            "--every-set" => return words.next().map(|path| Task::EverySet(path.into())),
            "--bars" => return words.next().map(|path| Task::Bars(path.into())),
            "--days" => return words.next().map(|path| Task::Days(path.into())),
            "--breaks" => return words.next().map(|path| Task::Breaks(path.into())),
            "--wrong" => return Some(Task::Wrong(value(&mut words)?, value(&mut words)?)),
            "--sets" => return words.next().map(|path| Task::Sets(path.into())),
            "--mistakes" => return Some(Task::Mistakes),
            "--selftest" => return Some(Task::Selftest),
            "--calendar" => return Some(Task::Calendar),
            "--dates" => return asked(words).map(Task::Dates),
            "--misses" => return missing(words).map(Task::Misses),
            "--orders" => return reordered(words).map(Task::Orders),
            "--desk" => desk = Some(value(&mut words)?),
            "--clerk" => clerk = Some(value(&mut words)?),
            "--boards" => board = Some(value(&mut words)?),
            "--about" => about = value(&mut words)?,
            "--files" => files = value(&mut words)?,
            "--seed" => seed = value(&mut words)?,
            "--batch" => batch = value(&mut words)?,
            "--keep" => keep = Some(value(&mut words)?),
            "--tally" => tally = true,
            _ => return None,
        }
    }
    if files == 0 || batch == 0 {
        return None;
    }
    let program = match (desk, clerk, board) {
        (Some(desk), None, None) => Program::Desk(desk),
        (None, Some(clerk), None) => Program::Clerk(clerk, about),
        (None, None, Some(board)) => Program::Board(board),
        _ => return None,
    };
    Some(Task::Compare(Comparison {
        program,
        files,
        seed,
        batch,
        keep,
        tally,
    }))
}

/// How many questions about dates, which, and whom to ask.
fn asked(mut words: impl Iterator<Item = String>) -> Option<Asked> {
    let (mut clerk, mut questions, mut seed) = (None, 1_000, 1);
    while let Some(word) = words.next() {
        match word.as_str() {
            "--ask" => clerk = Some(value(&mut words)?),
            "--questions" => questions = value(&mut words)?,
            "--seed" => seed = value(&mut words)?,
            _ => return None,
        }
    }
    Some(Asked {
        clerk,
        questions,
        seed,
    })
}

/// Whom to ask for releases that miss, and for how many plans.
fn missing(mut words: impl Iterator<Item = String>) -> Option<misses::ask::Asked> {
    let clerk = value(&mut words)?;
    let (mut plans, mut small, mut late, mut drawn, mut seed) = (5_000, 1_000, 1_000, 1_000, 1);
    while let Some(word) = words.next() {
        match word.as_str() {
            "--plans" => plans = value(&mut words)?,
            "--small" => small = value(&mut words)?,
            "--late" => late = value(&mut words)?,
            "--drawn" => drawn = value(&mut words)?,
            "--seed" => seed = value(&mut words)?,
            _ => return None,
        }
    }
    Some(misses::ask::Asked {
        clerk,
        plans,
        small,
        late,
        drawn,
        seed,
    })
}

/// Whom to ask which string is which, and whom for verdicts and sets, for how many pairs of files.
fn reordered(mut words: impl Iterator<Item = String>) -> Option<orders::ask::Asked> {
    let (clerk, desk) = (value(&mut words)?, value(&mut words)?);
    let (mut pairs, mut seed) = (5_000, 1);
    while let Some(word) = words.next() {
        match word.as_str() {
            "--pairs" => pairs = value(&mut words)?,
            "--seed" => seed = value(&mut words)?,
            _ => return None,
        }
    }
    Some(orders::ask::Asked {
        clerk,
        desk,
        pairs,
        seed,
    })
}

fn value<T: FromStr>(words: &mut impl Iterator<Item = String>) -> Option<T> {
    words.next()?.parse().ok()
}
