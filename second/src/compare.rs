//! All batches over the machine's cores, up to the first stop.

use crate::batch;
use crate::calendar::answer::Calendar;
use crate::clerk;
use crate::crew;
use crate::options::{Comparison, Program};
use crate::stop::Stop;
use crate::tally::Tally;
use std::fs;
use std::io;
use std::ops::Range;
use std::path::{Path, PathBuf};
use std::sync::atomic::{AtomicU64, Ordering};
use std::sync::{Mutex, MutexGuard};
use std::thread;

/// What the threads share.
struct Shared {
    /// The first file of the next batch.
    next: AtomicU64,
    results: Mutex<Results>,
}

#[derive(Default)]
struct Results {
    tally: Tally,
    /// The earliest batch that stopped, by its first file.
    stop: Option<(u64, Stop)>,
}

/// Compares all files, or stops at the first difference.
pub fn compare_all(job: &Comparison) -> Result<Tally, Stop> {
    let folder = folder(job);
    fs::create_dir_all(&folder)?;
    let results = run_threads(job, &folder);
    let stop = results.stop.map(|(_, stop)| stop);
    if job.keep.is_none() {
        sweep(&folder, stop.as_ref().and_then(Stop::shown))?;
    }
    match stop {
        Some(stop) => Err(stop),
        None => Ok(results.tally),
    }
}

fn folder(job: &Comparison) -> PathBuf {
    let own = || std::env::temp_dir().join(format!("second-{}", std::process::id()));
    job.keep.clone().unwrap_or_else(own)
}

fn run_threads(job: &Comparison, folder: &Path) -> Results {
    let shared = Shared {
        next: AtomicU64::new(0),
        results: Mutex::default(),
    };
    let threads = thread::available_parallelism().map_or(1, usize::from);
    thread::scope(|scope| {
        for _ in 0..threads {
            scope.spawn(|| work(job, folder, &shared));
        }
    });
    shared.results.into_inner().expect("every thread has ended")
}

/// One thread: takes batches in order until none is left or one has stopped.
fn work(job: &Comparison, folder: &Path, shared: &Shared) {
    let compare_batch = comparing(job, folder);
    while shared.results().stop.is_none() {
        let first = shared.next.fetch_add(job.batch, Ordering::Relaxed);
        if first >= job.files {
            return;
        }
        match compare_batch(first..job.files.min(first + job.batch)) {
            Ok(tally) => shared.results().tally.add(&tally),
            Err(stop) => shared.results().keep_first(first, stop),
        }
    }
}

type Batch<'a> = dyn Fn(Range<u64>) -> Result<Tally, Stop> + 'a;

/// How the files of these numbers are compared with the program that is asked.
fn comparing<'a>(job: &'a Comparison, folder: &'a Path) -> Box<Batch<'a>> {
    match &job.program {
        Program::Desk(desk) => {
            Box::new(move |files| batch::compare_batch(job, desk, folder, files))
        }
        Program::Clerk(clerk, about) => {
            Box::new(move |files| clerk::compare_batch(job, clerk, *about, folder, files))
        }
        Program::Board(board) => {
            // torn off once for all batches of a thread
            let calendar = Calendar::new();
            Box::new(move |files| crew::batch::compare_batch(job, board, &calendar, folder, files))
        }
    }
}

impl Shared {
    fn results(&self) -> MutexGuard<'_, Results> {
        self.results.lock().expect("no other thread has failed")
    }
}

impl Results {
    /// Threads may stop at the same time; the earliest batch speaks.
    fn keep_first(&mut self, first: u64, stop: Stop) {
        if self
            .stop
            .as_ref()
            .map_or(true, |(earlier, _)| first < *earlier)
        {
            self.stop = Some((first, stop));
        }
    }
}

/// Removes what is left in the folder but for the file that is shown.
fn sweep(folder: &Path, shown: Option<&Path>) -> io::Result<()> {
    for entry in fs::read_dir(folder)? {
        let path = entry?.path();
        if Some(path.as_path()) != shown {
            fs::remove_file(path)?;
        }
    }
    match shown {
        Some(_) => Ok(()),
        None => fs::remove_dir(folder),
    }
}
