//! Boards whose lines follow from document 02 by hand.

use super::answer::{boarded, written};
use crate::calendar::answer::Calendar;
use crate::selftest::{Cases, SAMPLE};

/// N 2, one string (3,1,2) with X 0, one release on day 0 with need 1: the document's example.
const PLAN: &[u8] = b"01020100000002\n02000003000100020000\n0301000000000001\n";

/// P6 with a run of 20 days: it misses on day 8.
const P6: &[u8] = b"010103000500000014\n0200006400030006\n020100640001000c\n0200006400020032\n\
    0303000000000002\n0302000000010001\n0301000000020003\n";

pub fn cases() -> Cases {
    let calendar = Calendar::new();
    let says = |plan: &[u8], input: &str, lines: &str| {
        written(boarded(&calendar, plan, input.as_bytes())) == lines
    };
    [boards(&says), starts(&says), diaries(&says)].concat()
}

/// Whether a plan file and an input give these lines.
type Says<'a> = dyn Fn(&[u8], &str, &str) -> bool + 'a;

fn boards(says: &Says) -> Cases {
    let idle = |days: u32| format!("010201{days:08x}\n02000003000100020000\n").into_bytes();
    vec![
        (
            "the document's board",
            says(PLAN, "2000-02-28\n02-29 1\n", "2000-02-28 Mon 1 work\n2000-02-29 Tue idle\n2000-02-29 Tue yearly 02-29\n"),
        ),
        (
            "a board without a diary",
            says(PLAN, "2000-02-28\n", "2000-02-28 Mon 1 work\n2000-02-29 Tue idle\n"),
        ),
        (
            "a board that moves",
            says(
                SAMPLE,
                "2023-12-30\n01-03 2\n",
                "2023-12-30 Sat 2 work\n2023-12-31 Sun 1 move\n2024-01-01 Mon 1 work\n2024-01-02 Tue 1 work\n\
                 2024-01-03 Wed 1 work\n2024-01-03 Wed yearly 01-03\n2024-01-04 Thu 2 work\n2024-01-05 Fri 2 work\n\
                 2024-01-06 Sat 2 work\n2024-01-07 Sun 2 work\n2024-01-08 Mon idle\n2024-01-09 Tue idle\n\
                 2024-01-10 Wed idle\n2024-01-11 Thu idle\n2024-01-12 Fri idle\n2024-01-13 Sat idle\n2024-01-14 Sun idle\n\
                 2024-01-15 Mon idle\n2024-01-16 Tue idle\n2024-01-17 Wed idle\n2024-01-18 Thu idle\n",
            ),
        ),
        (
            // the miss line as the document has it; the tests of its day stand on no line
            "a board that misses",
            says(
                P6,
                "2000-02-22\n03-01 1\n02-29 2\n",
                "2000-02-22 Tue 3 work\n2000-02-23 Wed 2 move\n2000-02-24 Thu 2 move\n2000-02-25 Fri 2 move\n\
                 2000-02-26 Sat 2 move\n2000-02-27 Sun 2 move\n2000-02-28 Mon 2 work\n2000-02-29 Tue 1 work\n\
                 2000-02-29 Tue yearly 02-29\n2000-03-01 Wed miss 1\n",
            ),
        ),
        (
            "both editions in a common year, in the diary's order",
            says(
                &idle(2),
                "2100-02-28\n02-29 2\n02-29 1\n02-28 1\n02-28 2\n02-29 2\n03-01 1\n",
                "2100-02-28 Sun idle\n2100-02-28 Sun yearly 02-29\n2100-02-28 Sun yearly 02-28\n2100-02-28 Sun yearly 02-28\n\
                 2100-02-28 Sun yearly 02-29\n2100-03-01 Mon idle\n2100-03-01 Mon yearly 03-01\n",
            ),
        ),
        (
            "both editions in a leap year",
            says(
                &idle(2),
                "2104-02-28\n02-29 2\n02-29 1\n",
                "2104-02-28 Thu idle\n2104-02-29 Fri idle\n2104-02-29 Fri yearly 02-29\n2104-02-29 Fri yearly 02-29\n",
            ),
        ),
        (
            "day N is the calendar's last",
            says(&idle(1), "2399-12-30\n", "2399-12-30 Thu idle\n"),
        ),
        ("day N is beyond it", says(&idle(1), "2399-12-31\n", "10\n")),
        ("146,097 days", says(&idle(146_097), "2000-01-01\n", "10\n")),
    ]
}

fn starts(says: &Says) -> Cases {
    let ten = |input: &str| says(PLAN, input, "10\n");
    vec![
        ("no input", ten("")),
        ("an empty start", ten("\n")),
        ("a start without its end", ten("2000-02-28")),
        ("a start with CR", ten("2000-02-28\r\n")),
        ("a start that does not exist", ten("2001-02-29\n")),
        ("a start before the calendar", ten("1999-12-31\n")),
        ("a start behind the calendar", ten("2400-01-01\n")),
        ("a start of nine characters", ten("2000-2-28\n")),
        ("a start and more", ten("2000-02-28 \n")),
        ("a diary without a start", ten("02-29 1\n")),
        (
            "a start that is none before 11",
            ten("2000-02-30\n02-29 3\n"),
        ),
        ("a plan that is refused", says(b"", "", "3\n")),
        (
            "5 of the plan before 10",
            says(b"01020100000000\n", "", "5\n"),
        ),
        (
            "8 of the plan before 11",
            says(
                b"01020100000002\n02000003000100020000\n0302000000000001\n",
                "2000-02-28\n02-29 3\n",
                "8\n",
            ),
        ),
    ]
}

fn diaries(says: &Says) -> Cases {
    let with = |diary: &str, lines: &str| says(PLAN, &format!("2000-03-01\n{diary}"), lines);
    let board = "2000-03-01 Wed 1 work\n2000-03-02 Thu idle\n";
    let twenty = "02-29 1\n".repeat(20);
    let twenty_first = |line: &str, lines: &str| with(&format!("{twenty}{line}"), lines);
    vec![
        ("twenty tests", with(&twenty, board)),
        ("a twenty-first test", twenty_first("02-29 1\n", "10\n")),
        (
            "a twenty-first test of edition 3",
            twenty_first("02-29 3\n", "11\n"),
        ),
        (
            "a twenty-first line of another shape",
            twenty_first("02-29\n", "10\n"),
        ),
        ("edition 0", with("02-29 0\n", "11\n")),
        ("edition 3", with("02-29 3\n", "11\n")),
        ("edition 3 before its date", with("02-30 3\n", "11\n")),
        ("a date in no year", with("02-30 1\n", "10\n")),
        ("month 13", with("13-01 2\n", "10\n")),
        ("edition a", with("02-29 a\n", "10\n")),
        ("edition 12", with("02-29 12\n", "10\n")),
        ("a test without its edition", with("02-29\n", "10\n")),
        ("a test with CR", with("02-29 1\r\n", "10\n")),
        ("a test without its end", with("02-29 1", "10\n")),
        (
            "a test of edition 3 without its end",
            with("02-29 3", "11\n"),
        ),
        ("an empty line", with("\n", "10\n")),
        ("11 on an earlier line", with("02-29 3\n02-30 1\n", "11\n")),
        ("10 on an earlier line", with("02-30 1\n02-29 3\n", "10\n")),
    ]
}
