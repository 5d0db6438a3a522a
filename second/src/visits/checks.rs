//! Visit lists whose answers follow from document 02 by hand.

use super::answer::{beside, checked, visited};
use crate::rules::frames::read;
use crate::saving::{written, Saved};
use crate::selftest::{refused, Cases, SAMPLE};
use crate::writing;

/// Place 1 has D 10 and moving 2, place 2 has D 12 and none. Place 2 has 5 days to do from day 0 up to day 12, place 1 4 days from day 3
/// up to day 13, place 2 again 3 days from day 20 up to day 32.
const PLAN: &[u8] = b"01020200000028\n020100140004000a0002\n020000140005000c0000\n\
    0302000000000005\n0301000000030004\n0302000000140003\n";

/// P6: the run misses on day 8.
const P6: &[u8] = b"010103000500000014\n0200006400030006\n020100640001000c\n0200006400020032\n\
    0303000000000002\n0302000000010001\n0301000000020003\n";

pub fn cases() -> Cases {
    [records(), sums(), orders(), spellings(), own()].concat()
}

/// What is said for records as `1,0,5 2,5,4`.
fn said(records: &str) -> Saved {
    let lines: String = records
        .split_whitespace()
        .map(|record| format!("{record}\r\n"))
        .collect();
    checked(PLAN, lines.as_bytes())
}

fn accepts(records: &str) -> bool {
    said(records) == Ok(b"accepted\n".to_vec())
}

fn records() -> Cases {
    vec![
        ("one visit for each release", accepts("1,0,5 2,5,4 3,20,3")),
        (
            "a length of 0",
            said("1,0,5 2,5,0 3,20,3") == refused(14, 2),
        ),
        (
            "a length of 0 that would change nothing",
            said("1,0,5 2,5,4 2,9,0 3,20,3") == refused(14, 3),
        ),
        (
            "another order",
            said("2,5,4 1,0,5 3,20,3") == refused(14, 2),
        ),
        (
            "a day in two visits",
            said("1,0,5 2,4,4 3,20,3") == refused(14, 2),
        ),
        (
            "a visit twice",
            said("1,0,5 1,0,5 2,5,4 3,20,3") == refused(14, 2),
        ),
        (
            "a visit within another",
            said("1,0,5 2,3,1 2,5,3 3,20,3") == refused(14, 2),
        ),
        ("release 0", said("0,0,5 2,5,4 3,20,3") == refused(14, 1)),
        (
            "a fourth release",
            said("1,0,5 2,5,4 3,20,3 4,23,1") == refused(14, 4),
        ),
        (
            "visits of one release that touch",
            said("1,0,2 1,2,3 2,5,4 3,20,3") == refused(14, 2),
        ),
        ("the same a day apart", accepts("1,0,2 1,3,3 2,6,4 3,20,3")),
        (
            "the same with another between",
            accepts("1,0,3 2,3,4 1,7,2 3,20,3"),
        ),
        (
            "a day before the release day",
            said("1,0,2 2,2,4 1,6,3 3,20,3") == refused(14, 2),
        ),
        ("up to the deadline day", accepts("1,0,5 2,9,4 3,20,3")),
        (
            "into the deadline day",
            said("1,0,5 2,10,4 3,20,3") == refused(14, 2),
        ),
        (
            "the longest and the latest",
            said("9999999,9999999,9999999") == refused(14, 1),
        ),
    ]
}

fn sums() -> Cases {
    vec![
        (
            "moving for the second visit",
            accepts("1,0,5 2,5,1 2,7,5 3,20,3"),
        ),
        (
            "no moving for the second visit",
            said("1,0,5 2,5,1 2,7,3 3,20,3") == refused(15, 2),
        ),
        (
            "moving for the first visit",
            said("1,0,5 2,5,6 3,20,3") == refused(15, 2),
        ),
        (
            "moving for the second and the third",
            accepts("1,0,3 2,3,3 1,6,1 2,7,3 1,10,1 2,11,2 3,20,3"),
        ),
        (
            "moving for one of them",
            said("1,0,3 2,3,1 1,6,1 2,7,3 1,10,1 2,11,2 3,20,3") == refused(15, 2),
        ),
        (
            "a day too few",
            said("1,0,4 2,5,4 3,20,3") == refused(15, 1),
        ),
        (
            "a day too many",
            said("1,0,5 2,5,4 3,20,4") == refused(15, 3),
        ),
        (
            "a release that nobody visits",
            said("1,0,5 2,5,4") == refused(15, 3),
        ),
        ("no visits", said("") == refused(15, 1)),
    ]
}

/// Two faults, and the one that comes first.
fn orders() -> Cases {
    let long = "1,0,5\r\n".repeat(9_363);
    let with_plan = |plan: &[u8], list: &str| checked(plan, list.as_bytes());
    let no_releases = b"01020100000014\n020100140004000a0002\n";
    vec![
        (
            "14 before 15",
            said("1,0,4 2,5,4 3,20,3 3,20,3") == refused(14, 4),
        ),
        (
            "the first record",
            said("1,0,5 0,5,4 3,20,0") == refused(14, 2),
        ),
        (
            "the first release",
            said("1,0,4 2,5,3 3,20,3") == refused(15, 1),
        ),
        ("13 before 14", said("0,0,0 x") == refused(13, 2)),
        ("65,541 bytes", with_plan(PLAN, &long) == refused(1, 0)),
        (
            "65,534 bytes",
            with_plan(PLAN, &long[7..]) == refused(14, 2),
        ),
        (
            "3 of the plan before all",
            with_plan(b"", &long) == refused(3, 1),
        ),
        (
            "3 of the plan before 13",
            with_plan(b"", "x") == refused(3, 1),
        ),
        (
            "no releases, no visits",
            with_plan(no_releases, "") == Ok(b"accepted\n".to_vec()),
        ),
        (
            "no releases, one visit",
            with_plan(no_releases, "1,0,1\r\n") == refused(14, 1),
        ),
    ]
}

/// Lines that are not three numbers with CR LF, behind one that is.
fn spellings() -> Cases {
    let second =
        |line: &str| checked(PLAN, format!("1,0,5\r\n{line}").as_bytes()) == refused(13, 2);
    vec![
        ("a visit with a leading zero", second("2,05,4\r\n")),
        ("a visit with 00", second("2,5,00\r\n")),
        ("a visit with eight digits", second("2,5,10000000\r\n")),
        (
            "a visit with seven digits",
            said("1,0,5 2,5,1000000") == refused(14, 2),
        ),
        ("a visit with a lone LF", second("2,5,4\n")),
        ("a visit with a lone CR", second("2,5,4\r")),
        ("a visit without its end", second("2,5,4")),
        ("a visit with a blank", second("2, 5,4\r\n")),
        ("a visit with a blank behind it", second("2,5,4 \r\n")),
        ("a visit of four numbers", second("2,5,4,0\r\n")),
        ("a visit of two numbers", second("2,5\r\n")),
        ("a visit without its length", second("2,5,\r\n")),
        ("a visit with a sign", second("2,+5,4\r\n")),
        ("a visit in quotes", second("\"2\",5,4\r\n")),
        ("an empty line of visits", second("\r\n")),
        ("a visit on day 0", said("2,0,4") == refused(14, 1)),
    ]
}

/// The sample's taker pays in its first visit, and the list would pay for the second visit of the other: our own run is not accepted
/// where moving costs days.
fn own() -> Cases {
    let free = read(SAMPLE).map(|mut plan| {
        plan.set_moving(0);
        writing::text(&plan)
    });
    let free = free.expect("the sample is lawful");
    let own = |plan: &[u8]| checked(plan, &written(visited(plan)));
    vec![
        (
            "the sample's visits",
            visited(SAMPLE) == Ok(b"1,0,1\r\n2,1,4\r\n1,5,4\r\n".to_vec()),
        ),
        ("the sample's visits checked", own(SAMPLE) == refused(15, 1)),
        (
            "with free moving",
            visited(&free) == Ok(b"1,0,1\r\n2,1,3\r\n1,4,4\r\n".to_vec()),
        ),
        (
            "with free moving checked",
            own(&free) == Ok(b"accepted\n".to_vec()),
        ),
        ("nothing said beside them", beside(SAMPLE).is_empty()),
        (
            "P6's visits",
            visited(P6) == Ok(b"1,0,1\r\n2,1,6\r\n3,7,1\r\n".to_vec()),
        ),
        (
            "what is said beside them",
            beside(P6) == "clerk: the run misses: visits up to day 8\n",
        ),
        ("visits of no plan", visited(b"") == refused(3, 1)),
    ]
}
