//! Counts of what was compared, for those who want to see how wide the net is.

use crate::rules::answer::Answer;
use crate::rules::rule::Verdict;
use crate::rules::run::Outcome;
use crate::saving::Saved;
use std::collections::BTreeMap;
use std::fmt;
use std::time::Duration;

#[derive(Default)]
pub struct Tally {
    /// By the kind's name.
    kinds: BTreeMap<&'static str, u64>,
    /// By refusal number; the first is not used.
    refused: [u64; 16],
    /// Texts, pages and lines that the clerk has to write.
    saved: u64,
    overload: u64,
    fail: u64,
    pass: u64,
    set_none: u64,
    set_zero: u64,
    set_other: u64,
    clean: u64,
    moved: u64,
    miss: u64,
    /// Time spent on making and answering files, and on waiting for the other program.
    pub own: Duration,
    pub other: Duration,
}

impl Tally {
    pub fn count_file(&mut self, kind: &'static str) {
        *self.kinds.entry(kind).or_default() += 1;
    }

    pub fn count_saved(&mut self, saved: &Saved) {
        match saved {
            Ok(_) => self.saved += 1,
            Err(refusal) => self.refused[refusal.number] += 1,
        }
    }

    pub fn count_answer(&mut self, answer: &Answer) {
        match answer {
            Answer::Refused(refusal) => self.refused[refusal.number] += 1,
            Answer::Given {
                verdict,
                set,
                outcome,
            } => self.count_given(verdict, *set, outcome),
        }
    }

    fn count_given(&mut self, verdict: &Verdict, set: Option<u32>, outcome: &Outcome) {
        match verdict {
            Verdict::Overload => self.overload += 1,
            Verdict::Fail { .. } => self.fail += 1,
            Verdict::Pass { .. } => self.pass += 1,
        }
        match set {
            None => self.set_none += 1,
            Some(0) => self.set_zero += 1,
            Some(_) => self.set_other += 1,
        }
        match outcome {
            Outcome::Clean { moving: 0, .. } => self.clean += 1,
            Outcome::Clean { .. } => self.moved += 1,
            Outcome::Miss { .. } => self.miss += 1,
        }
    }

    pub fn add(&mut self, other: &Tally) {
        for (kind, count) in &other.kinds {
            *self.kinds.entry(kind).or_default() += count;
        }
        for (sum, more) in self.refused.iter_mut().zip(other.refused) {
            *sum += more;
        }
        self.overload += other.overload;
        self.fail += other.fail;
        self.pass += other.pass;
        self.set_none += other.set_none;
        self.set_zero += other.set_zero;
        self.set_other += other.set_other;
        self.clean += other.clean;
        self.moved += other.moved;
        self.miss += other.miss;
        self.own += other.own;
        self.other += other.other;
        self.saved += other.saved;
    }

    /// What the desk has to answer.
    fn list_answers(&self, out: &mut fmt::Formatter) -> fmt::Result {
        writeln!(out, "{:7} verdict overload", self.overload)?;
        writeln!(out, "{:7} verdict fail", self.fail)?;
        writeln!(out, "{:7} verdict pass", self.pass)?;
        writeln!(out, "{:7} assign none", self.set_none)?;
        writeln!(out, "{:7} assign 0", self.set_zero)?;
        writeln!(out, "{:7} assign another set", self.set_other)?;
        writeln!(out, "{:7} run clean without moving", self.clean)?;
        writeln!(out, "{:7} run clean with moving", self.moved)?;
        writeln!(out, "{:7} run miss", self.miss)
    }

    /// All answers that were compared.
    pub fn answers(&self) -> u64 {
        let refused: u64 = self.refused.iter().sum();
        refused + self.saved + self.clean + self.moved + self.miss
    }
}

impl fmt::Display for Tally {
    fn fmt(&self, out: &mut fmt::Formatter) -> fmt::Result {
        for (kind, count) in &self.kinds {
            writeln!(out, "{count:7} {kind}")?;
        }
        for (number, count) in self.refused.iter().enumerate().skip(1) {
            writeln!(out, "{count:7} refused {number}")?;
        }
        if self.saved > 0 {
            writeln!(out, "{:7} written", self.saved)?;
        } else {
            self.list_answers(out)?;
        }
        writeln!(
            out,
            "{:7.1} s in this program, {:.1} s in the other, over all threads",
            self.own.as_secs_f64(),
            self.other.as_secs_f64()
        )
    }
}
