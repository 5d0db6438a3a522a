//! Writing plans as lines of frames, in version 01, 02 or 03.

use crate::chance::Chance;
use crate::rules::plan::{BatteryString, Plan, Release};

/// Where a number stands in its frame, in bytes.
#[derive(Clone, Copy)]
pub struct Field {
    pub at: usize,
    pub width: usize,
}

const fn field(at: usize, width: usize) -> Field {
    Field { at, width }
}

pub const KIND: Field = field(0, 1);
pub const VERSION: Field = field(1, 1);
pub const COUNT: Field = field(2, 1);
pub const OLD_MOVING: Field = field(3, 2);
pub const OLD_DAYS: Field = field(5, 4);
pub const DAYS: Field = field(3, 4);
pub const X: Field = field(1, 1);
pub const T: Field = field(2, 2);
pub const C: Field = field(4, 2);
pub const D: Field = field(6, 2);
pub const MOVING: Field = field(8, 2);
pub const LATE: Field = field(10, 2);
pub const PLACE: Field = field(1, 1);
pub const DAY: Field = field(2, 4);
pub const NEED: Field = field(6, 2);
pub const DUE: Field = field(8, 4);

#[derive(Clone, Copy, PartialEq)]
pub enum Version {
    /// One moving cost, in the header.
    V01,
    /// Each string has its own.
    V02,
    /// Each string has its late days, and each release its due day.
    V03,
}

impl Version {
    const ALL: [Version; 3] = [Version::V01, Version::V02, Version::V03];

    pub fn number(self) -> u8 {
        match self {
            Version::V01 => 1,
            Version::V02 => 2,
            Version::V03 => 3,
        }
    }

    /// Where the header says N.
    pub fn days(self) -> Field {
        match self {
            Version::V01 => OLD_DAYS,
            Version::V02 | Version::V03 => DAYS,
        }
    }

    /// Whether a file of this version can say all of the plan.
    fn can_say(self, plan: &Plan) -> bool {
        match self {
            Version::V01 => plan.is_punctual() && plan.common_moving().is_some(),
            Version::V02 => plan.is_punctual(),
            Version::V03 => true,
        }
    }

    /// Any other version.
    pub fn another(self, chance: &mut Chance) -> Version {
        let others = Version::ALL.into_iter().filter(|version| *version != self);
        chance.pick(&others.collect::<Vec<_>>())
    }
}

/// The file that a plan is saved as: version 03.
pub fn text(plan: &Plan) -> Vec<u8> {
    lines(plan, Version::V03).concat()
}

/// A file of a plan in any version that says all of it.
pub fn any_text(chance: &mut Chance, plan: &Plan) -> Vec<u8> {
    lines(plan, any_version(chance, plan)).concat()
}

/// A version that can say all of the plan.
pub fn any_version(chance: &mut Chance, plan: &Plan) -> Version {
    let able = Version::ALL
        .into_iter()
        .filter(|version| version.can_say(plan));
    chance.pick(&able.collect::<Vec<_>>())
}

/// The lines of a plan's file, each with its 0a. Version 01 has the cost of the first string; before 03 no line says what is late.
pub fn lines(plan: &Plan, version: Version) -> Vec<Vec<u8>> {
    let mut lines = vec![header(plan, version)];
    lines.extend(plan.strings.iter().map(|one| string(one, version)));
    lines.extend(plan.releases.iter().map(|one| release(one, version)));
    lines
}

pub fn header(plan: &Plan, version: Version) -> Vec<u8> {
    let mut numbers = vec![
        (KIND, 1),
        (VERSION, u64::from(version.number())),
        (COUNT, plan.strings.len() as u64),
        (version.days(), plan.days),
    ];
    match version {
        Version::V01 => {
            let moving = plan.strings.first().map_or(0, |string| string.moving);
            numbers.push((OLD_MOVING, moving));
            line(9, &numbers)
        }
        Version::V02 | Version::V03 => line(7, &numbers),
    }
}

pub fn string(string: &BatteryString, version: Version) -> Vec<u8> {
    let numbers = [
        (KIND, 2),
        (X, string.x),
        (T, string.t),
        (C, string.c),
        (D, string.d),
        (MOVING, string.moving),
        (LATE, string.late),
    ];
    match version {
        Version::V01 => line(8, &numbers[..5]),
        Version::V02 => line(10, &numbers[..6]),
        Version::V03 => line(12, &numbers),
    }
}

pub fn release(release: &Release, version: Version) -> Vec<u8> {
    let numbers = [
        (KIND, 3),
        (PLACE, release.place),
        (DAY, release.day),
        (NEED, release.need),
        (DUE, release.due),
    ];
    match version {
        Version::V01 | Version::V02 => line(8, &numbers[..4]),
        Version::V03 => line(12, &numbers),
    }
}

fn line(length: usize, numbers: &[(Field, u64)]) -> Vec<u8> {
    let mut line = vec![b'0'; 2 * length];
    line.push(b'\n');
    for (field, value) in numbers {
        put(&mut line, *field, *value);
    }
    line
}

/// Writes a number over a field, low digits last. A line cut before the field's end stays as it is.
pub fn put(line: &mut [u8], field: Field, value: u64) {
    let width = 2 * field.width;
    let digits = format!("{value:016x}");
    let from = 2 * field.at;
    if let Some(place) = line.get_mut(from..from + width) {
        place.copy_from_slice(&digits.as_bytes()[16 - width..]);
    }
}
