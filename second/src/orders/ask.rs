//! Asking the clerk which string is which, and the desk for the verdict and the set in either order.

use super::answer::{first_of_all_orders, said, Matched, Said, Which};
use super::pairs::{pair, Pair};
use crate::clerk::ask;
use crate::rules::frames::read;
use std::fmt;
use std::fs::{self, File};
use std::io;
use std::path::{Path, PathBuf};
use std::process::{Command, Output};

pub struct Asked {
    pub clerk: PathBuf,
    pub desk: PathBuf,
    pub pairs: u64,
    pub seed: u64,
}

/// Pairs to a start of the clerk.
const BATCH: u64 = 200;

/// Of so many pairs one is also asked about by a start of its own, the first file or the second on standard input.
const ALONE: u64 = 100;

/// Up to so many strings every order is tried.
const FEW: usize = 6;

#[derive(Default)]
pub struct Counts {
    same: u64,
    /// Of these, pairs of which the first plan has strings that are alike.
    alike: u64,
    alone: u64,
    lengths: u64,
    refused: u64,
    /// Pairs for which the desk finds takers, or nobody, by other numbers.
    other_sets: u64,
}

/// Everything that was said is right, or the first that is not.
pub fn ask_all(asked: &Asked) -> io::Result<Result<Counts, String>> {
    let folder = std::env::temp_dir().join(format!("second-orders-{}", std::process::id()));
    fs::create_dir_all(&folder)?;
    let counts = ask_batches(asked, &folder);
    fs::remove_dir_all(&folder)?;
    counts
}

fn ask_batches(asked: &Asked, folder: &Path) -> io::Result<Result<Counts, String>> {
    let mut counts = Counts::default();
    let mut first = 0;
    while first < asked.pairs {
        let end = asked.pairs.min(first + BATCH);
        let pairs: Vec<(u64, Pair)> = (first..end)
            .map(|number| (number, pair(asked.seed, number)))
            .collect();
        if let Err(wrong) = ask_batch(asked, folder, &pairs, &mut counts)? {
            return Ok(Err(wrong));
        }
        first = end;
    }
    Ok(Ok(counts))
}

fn ask_batch(
    asked: &Asked,
    folder: &Path,
    pairs: &[(u64, Pair)],
    counts: &mut Counts,
) -> io::Result<Result<(), String>> {
    let (mut commands, mut lines, mut complaints) = (String::new(), String::new(), String::new());
    let mut reordered = Vec::new();
    for (number, pair) in pairs {
        let own = said(&pair.first, &pair.second);
        if let Some(wrong) = claim_broken(pair, &own) {
            return Ok(Err(report(asked, *number, pair, wrong)));
        }
        counts.count(pair, &own);
        fs::write(folder.join(name(*number, Which::First)), &pair.first)?;
        fs::write(folder.join(name(*number, Which::Second)), &pair.second)?;
        commands += &command(*number);
        lines += &(command(*number) + &own.line());
        complaints += &complaint(*number, &own);
        if let Said::Matched(Matched::Same(_)) = own {
            reordered.push((*number, pair));
        }
        if number % ALONE == 0 {
            if let Err(what) = ask_alone(asked, folder, *number, &own)? {
                return Ok(Err(report(asked, *number, pair, &what)));
            }
        }
    }
    fs::write(folder.join("commands"), commands)?;
    let output = ask(&asked.clerk, folder, &["each", "commands"])?;
    if output.stdout != lines.as_bytes() || output.stderr != complaints.as_bytes() {
        let (number, pair, what) = first_other(pairs, &output);
        return Ok(Err(report(asked, number, pair, &what)));
    }
    ask_desk(asked, folder, &reordered, counts)
}

fn name(number: u64, which: Which) -> String {
    match which {
        Which::First => format!("{number:06}-a.plan"),
        Which::Second => format!("{number:06}-b.plan"),
    }
}

fn command(number: u64) -> String {
    let (first, second) = (name(number, Which::First), name(number, Which::Second));
    format!("same {first} {second}\n")
}

/// Which file is refused, on standard error.
fn complaint(number: u64, own: &Said) -> String {
    match own {
        Said::Refused(_, which) => format!("clerk: refused: {}\n", name(number, *which)),
        Said::Matched(_) => String::new(),
    }
}

/// What this program claims of its own answer: a plan of few strings has no smaller list, and none where it says so; and from the
/// second plan to the first it is the same answer turned round.
fn claim_broken(pair: &Pair, own: &Said) -> Option<&'static str> {
    let (first, second) = match (read(&pair.first), read(&pair.second)) {
        (Ok(first), Ok(second)) => (first, second),
        _ => return None,
    };
    let back = said(&pair.second, &pair.first);
    let (same, same_back) = (own.is_same(), back.is_same());
    if same != same_back {
        return Some("the plans are in another order one way alone");
    }
    if first.strings.len() != second.strings.len() || first.strings.len() > FEW {
        return None;
    }
    match (first_of_all_orders(&first, &second), own) {
        (Some(all), Said::Matched(Matched::Same(places))) if all == *places => None,
        (None, Said::Matched(Matched::Alone(_))) => None,
        _ => Some("every order tried says another thing"),
    }
}

/// A start of its own, with one of the files on standard input.
fn ask_alone(
    asked: &Asked,
    folder: &Path,
    number: u64,
    own: &Said,
) -> io::Result<Result<(), String>> {
    for input in [Which::First, Which::Second] {
        let words = match input {
            Which::First => [
                "same".to_string(),
                "-".to_string(),
                name(number, Which::Second),
            ],
            Which::Second => [
                "same".to_string(),
                name(number, Which::First),
                "-".to_string(),
            ],
        };
        let named = complaint(number, own).replace(&name(number, input), "-");
        let program = std::env::current_dir()?.join(&asked.clerk);
        let output = Command::new(program)
            .current_dir(folder)
            .args(&words)
            .stdin(File::open(folder.join(name(number, input)))?)
            .output()?;
        if output.stdout != own.line().as_bytes() || output.stderr != named.as_bytes() {
            return Ok(Err(format!("{}\n{}", words.join(" "), given(&output))));
        }
    }
    Ok(Ok(()))
}

/// The first pair whose lines are not as they have to be.
fn first_other<'a>(pairs: &'a [(u64, Pair)], output: &Output) -> (u64, &'a Pair, String) {
    let mut rest = output.stdout.as_slice();
    for (number, pair) in pairs {
        let expected = command(*number) + &said(&pair.first, &pair.second).line();
        match rest.strip_prefix(expected.as_bytes()) {
            Some(after) => rest = after,
            None => {
                let shown = String::from_utf8_lossy(&rest[..rest.len().min(500)]).into_owned();
                return (
                    *number,
                    pair,
                    format!("expected:\n{expected}given:\n{shown}"),
                );
            }
        }
    }
    let (number, pair) = &pairs[pairs.len() - 1];
    (*number, pair, given(output))
}

fn given(output: &Output) -> String {
    let text =
        |bytes: &[u8]| String::from_utf8_lossy(&bytes[..bytes.len().min(2_000)]).into_owned();
    format!("given:\n{}{}", text(&output.stdout), text(&output.stderr))
}

/// By the desk, the same verdict line in either order, and as many takers.
fn ask_desk(
    asked: &Asked,
    folder: &Path,
    reordered: &[(u64, &Pair)],
    counts: &mut Counts,
) -> io::Result<Result<(), String>> {
    let mut names = Vec::new();
    for (number, _) in reordered {
        names.extend([name(*number, Which::First), name(*number, Which::Second)]);
    }
    if names.is_empty() {
        return Ok(Ok(()));
    }
    let words: Vec<&str> = names.iter().map(String::as_str).collect();
    let output = ask(&asked.desk, folder, &words)?;
    let text = String::from_utf8_lossy(&output.stdout).into_owned();
    let lines: Vec<&str> = text.lines().collect();
    for (at, (number, pair)) in reordered.iter().enumerate() {
        // for each file its name, the verdict, the set and the run
        let both = match lines.get(8 * at..8 * at + 8) {
            Some(both) => both,
            None => return Ok(Err(report(asked, *number, pair, &given(&output)))),
        };
        if both[1] != both[5] || takers(both[2]) != takers(both[6]) {
            let what = format!("the desk says by order:\n{}", both.join("\n"));
            return Ok(Err(report(asked, *number, pair, &what)));
        }
        counts.other_sets += u64::from(both[2] != both[6]);
    }
    Ok(Ok(()))
}

/// How many may take the bank by a line of the search; nothing for none.
fn takers(line: &str) -> Option<u32> {
    let set: u32 = line.strip_prefix("assign ")?.parse().ok()?;
    Some(set.count_ones())
}

fn report(asked: &Asked, number: u64, pair: &Pair, what: &str) -> String {
    let text = |bytes: &[u8]| String::from_utf8_lossy(bytes).into_owned();
    format!(
        "clerk same, seed {}, pair {number}: {what}\nfirst file:\n{}second file:\n{}",
        asked.seed,
        text(&pair.first),
        text(&pair.second)
    )
}

impl Said {
    fn is_same(&self) -> bool {
        matches!(self, Said::Matched(Matched::Same(_)))
    }
}

impl Counts {
    fn count(&mut self, pair: &Pair, own: &Said) {
        match own {
            Said::Matched(Matched::Same(_)) => {
                self.same += 1;
                let plan = read(&pair.first).expect("the plans were read");
                let repeated = |at: usize| plan.strings[..at].contains(&plan.strings[at]);
                self.alike += u64::from((0..plan.strings.len()).any(repeated));
            }
            Said::Matched(Matched::Alone(_)) => self.alone += 1,
            Said::Matched(Matched::Counts(..)) => self.lengths += 1,
            Said::Refused(..) => self.refused += 1,
        }
    }
}

impl fmt::Display for Counts {
    fn fmt(&self, out: &mut fmt::Formatter) -> fmt::Result {
        write!(
            out,
            "second: pairs of files: {} in another order, {} of them with strings alike; {} with a string alone, {} of other numbers of strings, {} refused; by the desk either order has one verdict and as many takers, by another set for {}; no difference",
            self.same, self.alike, self.alone, self.lengths, self.refused, self.other_sets
        )
    }
}
