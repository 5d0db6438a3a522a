//! Why a file is refused, by name, as the room naming writes it behind the refusal.

use crate::rules::frames::{read, Refusal};
use crate::rules::plan::{BatteryString, Plan};
use crate::saving::Saved;

/// The line of a refused file; of any other nothing.
pub fn reasoned(text: &[u8]) -> Saved {
    let line = read(text).err().map(|refusal| named(text, refusal));
    Ok(line.unwrap_or_default().into_bytes())
}

/// The line of a refusal, with the first rule of its number that the file breaks.
fn named(text: &[u8], refusal: Refusal) -> String {
    let Refusal { number, line } = refusal;
    let file = File::new(text);
    let reason = match number {
        1 => "more than 65536 bytes".to_string(),
        2 => malformed(file.line(line)),
        3 => no_frame(&file, line),
        4 => format!("n {} is not 1 to 10", file.count()),
        5 if line == 1 => head_outside(&file),
        5 => outside(line - 1, &file.string(line)),
        6 => over(&file),
        7 => "a release after the 1000th".to_string(),
        _ => unlawful(&file, line),
    };
    format!("refused {number} line {line}: {reason}\n")
}

/// The lines of a text, each without its 0a.
struct File<'a> {
    text: &'a [u8],
    lines: Vec<&'a [u8]>,
}

impl<'a> File<'a> {
    fn new(text: &'a [u8]) -> File<'a> {
        let mut lines: Vec<&[u8]> = text.split(|byte| *byte == b'\n').collect();
        // what stands behind the last 0a is a line only where it holds something
        if lines.last().map_or(false, |last| last.is_empty()) {
            lines.pop();
        }
        File { text, lines }
    }

    /// Counted from 1.
    fn line(&self, line: usize) -> &'a [u8] {
        self.lines[line - 1]
    }

    /// The bytes that a line of digits writes.
    fn frame(&self, line: usize) -> Vec<u8> {
        let digits = std::str::from_utf8(self.line(line)).expect("digits are ASCII");
        let pairs = (0..digits.len()).step_by(2);
        pairs
            .map(|at| u8::from_str_radix(&digits[at..at + 2], 16).expect("a well formed line"))
            .collect()
    }

    /// The number that some bytes of a line's frame write.
    fn number(&self, line: usize, bytes: std::ops::Range<usize>) -> u64 {
        let frame = self.frame(line);
        frame[bytes].iter().fold(0, |sum, byte| sum << 8 | u64::from(*byte))
    }

    fn version(&self) -> u64 {
        self.number(1, 1..2)
    }

    /// n.
    fn count(&self) -> u64 {
        self.number(1, 2..3)
    }

    fn string(&self, line: usize) -> BatteryString {
        let (moving, late) = match self.version() {
            1 => (self.number(1, 3..5), 0),
            2 => (self.number(line, 8..10), 0),
            _ => (self.number(line, 8..10), self.number(line, 10..12)),
        };
        BatteryString {
            x: self.number(line, 1..2),
            t: self.number(line, 2..4),
            c: self.number(line, 4..6),
            d: self.number(line, 6..8),
            moving,
            late,
        }
    }

    /// The plan and the releases that stand ahead of a line.
    fn ahead(&self, line: usize) -> Plan {
        let bytes: usize = self.lines[..line - 1].iter().map(|one| one.len() + 1).sum();
        read(&self.text[..bytes]).expect("what stands ahead of the first fault is lawful")
    }
}

/// 2.
fn malformed(line: &[u8]) -> String {
    if line.is_empty() {
        return "the line is empty".to_string();
    }
    let digits = b"0123456789abcdef";
    if let Some(ahead) = line.iter().position(|byte| !digits.contains(byte)) {
        let what = match line[ahead] {
            b'\r' => "a carriage return",
            b' ' => "a space",
            b'A'..=b'Z' => "a capital letter",
            _ => "not one of 0 to 9, a to f",
        };
        return format!("character {} is {what}", ahead + 1);
    }
    if line.len() % 2 == 1 {
        return format!("{} characters, an odd number", line.len());
    }
    "the line has no line end".to_string()
}

/// 3.
fn no_frame(file: &File, line: usize) -> String {
    if line > file.lines.len() {
        return if line == 1 {
            "the file is empty".to_string()
        } else {
            format!("string {} of {} is missing", line - 1, file.count())
        };
    }
    let frame = file.frame(line);
    // of a header that is a frame of no version only its own numbers can be said
    let strings = if line == 1 { 0 } else { file.count() as usize };
    let kind = match line {
        1 => 1,
        _ if line <= strings + 1 => 2,
        _ => 3,
    };
    if frame[0] != kind {
        return format!("kind {} in place of {kind}", frame[0]);
    }
    if kind == 1 && frame.len() > 1 && !(1..=3).contains(&frame[1]) {
        return format!("version {} is none of 1, 2, 3", frame[1]);
    }
    let version = if frame.len() > 1 || line > 1 { file.version() } else { 1 };
    let length = match (kind, version) {
        (1, 1) => 9,
        (1, _) => 7,
        (2, 1) => 8,
        (2, 2) => 10,
        (2, _) => 12,
        (_, 3) => 12,
        _ => 8,
    };
    format!("length {} in place of {length}", frame.len())
}

/// 5, of the header.
fn head_outside(file: &File) -> String {
    let (moving, days) = match file.version() {
        1 => (file.number(1, 3..5), file.number(1, 5..9)),
        _ => (0, file.number(1, 3..7)),
    };
    if moving > 1_000 {
        return format!("A {moving} above 1000");
    }
    format!("N {days} is not 1 to 1000000")
}

/// 5, of the string at a place.
fn outside(place: usize, string: &BatteryString) -> String {
    let BatteryString { x, t, c, d, moving, late } = *string;
    let what = if t < 1 || t > 1_000 {
        format!("T {t} is not 1 to 1000")
    } else if d < 1 || d > t {
        format!("D {d} is not 1 to T {t}")
    } else if late >= d {
        format!("J {late} not below D {d}")
    } else if c < 1 {
        "C 0 below 1".to_string()
    } else if c > d - late && late == 0 {
        format!("C {c} above D {d}")
    } else if c > d - late {
        format!("C {c} above D {d} less J {late}")
    } else if x > 1 {
        format!("X {x} is not 0 or 1")
    } else {
        format!("A {moving} above 1000")
    };
    format!("string {place}, {what}")
}

/// 6: every smaller T is tried, down to D.
fn over(file: &File) -> String {
    let all: Vec<BatteryString> = (2..=file.count() as usize + 1).map(|line| file.string(line)).collect();
    let fits = |strings: &[BatteryString]| {
        let plan = Plan {
            days: 1,
            strings: strings.to_vec(),
            releases: Vec::new(),
        };
        plan.cycle().is_some()
    };
    let place = (1..=all.len())
        .find(|place| !fits(&all[..*place]))
        .expect("H is over its bound");
    let mut strings = all[..place].to_vec();
    let (t, d) = (strings[place - 1].t, strings[place - 1].d);
    let smaller = (d..t).rev().find(|smaller| {
        strings[place - 1].t = *smaller;
        fits(&strings)
    });
    let end = match smaller {
        Some(smaller) => format!("T {smaller} fits"),
        None => format!("no T from D {d} on fits"),
    };
    format!("string {place}, T {t} brings H over 100000; {end}")
}

/// 8.
fn unlawful(file: &File, line: usize) -> String {
    let plan = file.ahead(line);
    let (place, day, need) = (
        file.number(line, 1..2),
        file.number(line, 2..6),
        file.number(line, 6..8),
    );
    let due = match file.version() {
        3 => file.number(line, 8..12),
        _ => day,
    };
    let count = plan.strings.len() as u64;
    if place < 1 || place > count {
        return format!("place {place} is not 1 to {count}");
    }
    let string = &plan.strings[place as usize - 1];
    if need < 1 || need > string.c {
        return format!("string {place}, need {need} is not 1 to C {}", string.c);
    }
    if day >= plan.days {
        return format!("day {day} is not below N {}", plan.days);
    }
    if let Some(ahead) = plan.releases.last().filter(|ahead| day < ahead.day) {
        return format!("day {day} is before day {} of the release ahead", ahead.day);
    }
    if day < due {
        return format!("day {day} is before its due day {due}");
    }
    if day > due + string.late {
        return format!("day {day} is over J {} days after its due day {due}", string.late);
    }
    let mut same = plan.releases.iter().filter(|earlier| earlier.place == place);
    let last = same.next_back().expect("something is too close").due;
    format!("due day {due} is less than T {} days after {last} of the same string", string.t)
}
