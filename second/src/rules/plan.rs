//! A plan: one bank, its strings and a list of releases.
//!
//! All numbers are 64 bits wide, so that no sum or product within the bounds can overflow.

use std::ops::RangeInclusive;

/// When: a day number.
pub type Day = u64;

/// How long: a count of days.
pub type Length = u64;

/// The most that H may be.
pub const LONGEST_CYCLE: Length = 100_000;

/// The least and the most that N may be.
pub const RUN: RangeInclusive<Length> = 1..=1_000_000;

/// One string. The letters are those of document 01; A is each string's own (document 02, W-207), and so is J (W-213).
#[derive(Clone, Debug, PartialEq)]
pub struct BatteryString {
    /// 1: its jobs may take the bank, 0: they may not.
    pub x: u64,
    /// Least days between two releases.
    pub t: Length,
    /// Most working days of a job.
    pub c: Length,
    /// Days from the due day to the deadline.
    pub d: Length,
    /// A, the moving days that a taker of this string pays.
    pub moving: Length,
    /// J, the most days by which a release may come after its due day.
    pub late: Length,
}

impl BatteryString {
    /// A string as the document writes one, (T, C, D): it may not take the bank, moving is free, and it comes on its due days.
    pub fn plain(t: Length, c: Length, d: Length) -> BatteryString {
        BatteryString {
            x: 0,
            t,
            c,
            d,
            moving: 0,
            late: 0,
        }
    }

    /// Whether each of its numbers is within its bounds.
    pub fn is_bounded(&self) -> bool {
        self.x <= 1
            && (1..=1_000).contains(&self.t)
            && (1..=self.t).contains(&self.d)
            && self.moving <= 1_000
            && self.late < self.d
            && (1..=self.d - self.late).contains(&self.c)
    }
}

#[derive(Clone, Debug, PartialEq)]
pub struct Release {
    /// Counted from 1. In a plan not yet read it may name no string.
    pub place: u64,
    pub day: Day,
    pub need: Length,
    /// The day from which on its string's D and T count.
    pub due: Day,
}

impl Release {
    /// One that comes on its due day.
    pub fn new(place: u64, day: Day, need: Length) -> Release {
        Release {
            place,
            day,
            need,
            due: day,
        }
    }

    /// The same job, so many days later.
    pub fn put_off(self, by: Length) -> Release {
        Release {
            day: self.day + by,
            due: self.due + by,
            ..self
        }
    }
}

#[derive(Clone, Debug, PartialEq)]
pub struct Plan {
    /// N, the days of the run.
    pub days: Length,
    pub strings: Vec<BatteryString>,
    pub releases: Vec<Release>,
}

impl Plan {
    /// E: the most days for which a job of this string can hold the bank.
    pub fn hold(&self, string: &BatteryString) -> Length {
        string.c + string.moving * string.x
    }

    /// The string of a lawful release.
    pub fn string_of(&self, release: &Release) -> &BatteryString {
        &self.strings[release.place as usize - 1]
    }

    /// The day up to which, and not into which, a lawful release may be served.
    pub fn deadline(&self, release: &Release) -> Day {
        release.due + self.string_of(release).d
    }

    /// H, or nothing if it is over its bound.
    pub fn cycle(&self) -> Option<Length> {
        let mut cycle = 1;
        for string in &self.strings {
            cycle = cycle / common_divisor(cycle, string.t) * string.t;
            // A common multiple only grows; stopping here keeps it from overflowing.
            if cycle > LONGEST_CYCLE {
                return None;
            }
        }
        Some(cycle)
    }

    /// The smallest D − J: a window of fewer days holds no job.
    pub fn smallest_window(&self) -> Length {
        let windows = self.strings.iter().map(|s| s.d - s.late);
        windows.min().unwrap_or(0)
    }

    pub fn largest_d(&self) -> Length {
        self.strings.iter().map(|s| s.d).max().unwrap_or(0)
    }

    /// The moving cost of all strings, if they have one.
    pub fn common_moving(&self) -> Option<Length> {
        let first = self.strings.first()?.moving;
        let same = |string: &BatteryString| string.moving == first;
        self.strings.iter().all(same).then_some(first)
    }

    /// Whether no string has late days and every release comes on its due day: all that versions 01 and 02 can say.
    pub fn is_punctual(&self) -> bool {
        self.strings.iter().all(|string| string.late == 0)
            && self
                .releases
                .iter()
                .all(|release| release.due == release.day)
    }

    /// Gives every string the same moving cost.
    pub fn set_moving(&mut self, moving: Length) {
        for string in &mut self.strings {
            string.moving = moving;
        }
    }

    /// Gives every string as many late days. The releases are still to come.
    pub fn set_late(&mut self, late: Length) {
        for string in &mut self.strings {
            string.late = late;
        }
    }

    /// The same plan with the permissions of a set: place 1 is worth 1, place 2 is worth 2, ...
    pub fn with_set(&self, set: u32) -> Plan {
        let mut plan = self.clone();
        for (at, string) in plan.strings.iter_mut().enumerate() {
            string.x = u64::from(set >> at & 1);
        }
        plan
    }
}

fn common_divisor(a: u64, b: u64) -> u64 {
    if b == 0 {
        a
    } else {
        common_divisor(b, a % b)
    }
}
