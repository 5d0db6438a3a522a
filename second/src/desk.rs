//! Asking the desk, and finding where its output first differs.

use std::fs::File;
use std::io;
use std::os::unix::ffi::OsStrExt;
use std::path::{Path, PathBuf};
use std::process::{Command, Output, Stdio};

/// A file that was written, and the answer that the desk has to give for it.
pub struct Case {
    /// The file's number under the seed.
    pub file: u64,
    pub kind: &'static str,
    pub path: PathBuf,
    pub answer: String,
}

/// The first file whose output differs, and what the desk wrote from there on.
pub struct Difference {
    /// Place in the batch.
    pub at: usize,
    pub given: String,
}

pub fn ask_with_names(desk: &Path, cases: &[Case]) -> io::Result<Output> {
    let names = cases.iter().map(|case| &case.path);
    output(desk, Command::new(desk).args(names).stdin(Stdio::null()))
}

pub fn ask_through_input(desk: &Path, case: &Case) -> io::Result<Output> {
    let text = File::open(&case.path)?;
    output(desk, Command::new(desk).stdin(text))
}

fn output(desk: &Path, command: &mut Command) -> io::Result<Output> {
    let named =
        |error: io::Error| io::Error::new(error.kind(), format!("{}: {error}", desk.display()));
    command.output().map_err(named)
}

/// Compares the desk's whole output with the answers to a batch of files asked by name.
pub fn compare(output: &Output, cases: &[Case]) -> Option<Difference> {
    // A single file is answered without its name.
    let named = cases.len() > 1;
    let mut rest = output.stdout.as_slice();
    for (at, case) in cases.iter().enumerate() {
        let expected = block(case, named);
        match rest.strip_prefix(expected.as_slice()) {
            Some(after) => rest = after,
            None => {
                let end = cases
                    .get(at + 1)
                    .and_then(|next| find(rest, &name_line(next)));
                let given = &rest[..end.unwrap_or(rest.len())];
                return Some(difference(at, given, output));
            }
        }
    }
    if rest.is_empty() {
        None
    } else {
        Some(difference(cases.len() - 1, rest, output))
    }
}

fn block(case: &Case, named: bool) -> Vec<u8> {
    let mut block = if named { name_line(case) } else { Vec::new() };
    block.extend(case.answer.as_bytes());
    block
}

fn name_line(case: &Case) -> Vec<u8> {
    let mut line = case.path.as_os_str().as_bytes().to_vec();
    line.push(b'\n');
    line
}

fn find(text: &[u8], part: &[u8]) -> Option<usize> {
    text.windows(part.len()).position(|window| window == part)
}

/// What was given, with the desk's own complaint if there is one.
fn difference(at: usize, given: &[u8], output: &Output) -> Difference {
    let mut shown = String::from_utf8_lossy(given).into_owned();
    if !output.stderr.is_empty() {
        shown += &format!(
            "({}) {}",
            output.status,
            String::from_utf8_lossy(&output.stderr)
        );
    }
    Difference { at, given: shown }
}
