//! Exports and tables whose answers follow from document 02 by hand.

use super::answer::{registered, tabled};
use super::reader;
use super::run_length::RunLength;
use crate::rules::frames::read;
use crate::saving::{into_page, written, Page, Saved};
use crate::selftest::{refused, Cases, ROOF, SAMPLE};

/// The strings of the sample file.
const EXPORT: &[u8] = b"10,3,5,1,1,0\r\n10,5,10,0,1,0\r\n";

/// The sample file in version 03, without its releases.
const REGISTERED: &[u8] = b"01030200000014\n0201000a0003000500010000\n0200000a0005000a00010000\n";

/// The strings of the file with a string on the roof.
const ROOF_EXPORT: &[u8] = b"20,2,5,1,1,0\r\n20,3,10,1,4,0\r\n40,8,30,0,1,0\r\n";

/// The least and the most that a string may say.
const LEAST: &str = "1,1,1,0,0,0\r\n";
const MOST: &str = "1000,1000,1000,1,1000,0\r\n";

/// The most late days that a string may have.
const LATEST: &str = "1000,1,1000,1,1000,999\r\n";

pub fn cases() -> Cases {
    [
        exports(),
        orders(),
        spellings(),
        bounds(),
        cycles(),
        run_lengths(),
        tables(),
        round_trips(),
    ]
    .concat()
}

/// With N 20.
fn said(text: &str) -> Saved {
    registered(text.as_bytes(), RunLength(20))
}

fn exports() -> Cases {
    let ten = LEAST.repeat(10);
    let eleven = |line: &str| said(&format!("{ten}{line}"));
    vec![
        (
            "the sample's export",
            registered(EXPORT, RunLength(20)) == Ok(REGISTERED.to_vec()),
        ),
        ("an empty export", said("") == refused(4, 0)),
        ("ten lines", said(&ten).is_ok()),
        ("eleven lines", eleven(LEAST) == refused(4, 11)),
        (
            "an eleventh line that is none",
            eleven("\n") == refused(4, 11),
        ),
        (
            "an eleventh line without its end",
            eleven("x") == refused(4, 11),
        ),
        (
            "an eleventh line out of bounds",
            eleven("0,0,0,2,1001,0\r\n") == refused(4, 11),
        ),
        ("65,536 bytes", said(&"1".repeat(65_536)) == refused(13, 1)),
        ("65,537 bytes", said(&"1".repeat(65_537)) == refused(1, 0)),
        (
            "78,000 bytes of lawful lines",
            said(&LEAST.repeat(6_000)) == refused(1, 0),
        ),
        (
            "65,533 bytes of lawful lines",
            said(&LEAST.repeat(5_041)) == refused(4, 11),
        ),
    ]
}

/// Two faults, and the one that comes first.
fn orders() -> Cases {
    let with_run = |text: &str, days| registered(text.as_bytes(), RunLength(days));
    let nine = LEAST.repeat(9);
    let last_two = |tenth: &str| said(&format!("{nine}{tenth}{LEAST}"));
    vec![
        (
            "1 before N",
            with_run(&"1".repeat(65_537), 0) == refused(1, 0),
        ),
        ("N before an empty text", with_run("", 0) == refused(5, 0)),
        (
            "N before a line",
            with_run("x\r\n", 1_000_001) == refused(5, 0),
        ),
        (
            "N before an eleventh line",
            with_run(&LEAST.repeat(11), 0) == refused(5, 0),
        ),
        (
            "13 before 5 on a line",
            said("0,1,1,0,x,0\r\n") == refused(13, 1),
        ),
        (
            "13 before 5 on a line without its end",
            said("0,1,1,0,0,0") == refused(13, 1),
        ),
        (
            "5 on an earlier line",
            said("0,1,1,0,0,0\r\nx\r\n") == refused(5, 1),
        ),
        (
            "13 on an earlier line",
            said("x\r\n0,1,1,0,0,0\r\n") == refused(13, 1),
        ),
        (
            "13 on the tenth of eleven",
            last_two("1,1,1,0,0\r\n") == refused(13, 10),
        ),
        (
            "5 on the tenth of eleven",
            last_two("1,1,2,0,0,0\r\n") == refused(5, 10),
        ),
        (
            "13 before 6",
            said("997,1,1,0,0,0\r\n991,1,1,0,0,0\r\nx") == refused(13, 3),
        ),
        (
            "5 before 6",
            said("997,1,1,0,0,0\r\n991,1,1,0,0,0\r\n1,1,1,2,0,0\r\n") == refused(5, 3),
        ),
        (
            "4 before 6",
            said(&format!("997,1,1,0,0,0\r\n991,1,1,0,0,0\r\n{nine}")) == refused(4, 11),
        ),
    ]
}

/// Lines that are not six numbers with CR LF, behind a line that is. A line ends at its 0a.
fn spellings() -> Cases {
    let second = |line: &str| said(&format!("{LEAST}{line}")) == refused(13, 2);
    let amid = |line: &str| said(&format!("{LEAST}{line}{LEAST}")) == refused(13, 2);
    vec![
        ("a leading zero", second("01,1,1,0,0,0\r\n")),
        ("00", second("1,1,1,00,0,0\r\n")),
        ("00 for a moving cost", second("1,1,1,0,00,0\r\n")),
        ("00 for late days", second("1,1,1,0,0,00\r\n")),
        ("a single 0", said("1,1,1,0,0,0\r\n").is_ok()),
        ("an empty field", second("1,,1,0,0,0\r\n")),
        ("an empty first field", second(",1,1,0,0,0\r\n")),
        ("an empty last field", second("1,1,1,0,0,\r\n")),
        ("a blank before a number", second("1, 1,1,0,0,0\r\n")),
        ("a blank behind the line", second("1,1,1,0,0,0 \r\n")),
        ("a plus", second("+1,1,1,0,0,0\r\n")),
        ("a minus", second("1,1,1,-0,0,0\r\n")),
        ("a quote", second("\"1\",1,1,0,0,0\r\n")),
        ("a fifth digit", second("10000,1,1,0,0,0\r\n")),
        ("a fifth digit of 0", second("00001,1,1,0,0,0\r\n")),
        ("five numbers", second("1,1,1,0,0\r\n")),
        ("seven numbers", second("1,1,1,0,0,0,0\r\n")),
        ("a comma behind the line", second("1,1,1,0,0,0,\r\n")),
        ("semicolons", second("1;1;1;0;0;0\r\n")),
        (
            "a header line",
            said(&format!("T,C,D,X,A,J\r\n{LEAST}")) == refused(13, 1),
        ),
        ("an empty line", second("\r\n")),
        ("an empty line amid others", amid("\r\n")),
        ("a missing end", second("1,1,1,0,0,0")),
        ("a lone CR at the end", second("1,1,1,0,0,0\r")),
        ("a lone CR amid lines", amid("1,1,1,0,0,0\r")),
        ("a lone LF", second("1,1,1,0,0,0\n")),
        ("a lone LF amid lines", amid("1,1,1,0,0,0\n")),
        ("CR twice", second("1,1,1,0,0,0\r\r\n")),
        ("CR in a line", second("1,1\r,1,0,0,0\r\n")),
        ("LF and CR", second("1,1,1,0,0,0\n\r")),
        ("a 0a behind all lines", second("\n")),
    ]
}

fn bounds() -> Cases {
    let out = |line: &str| said(&format!("{LEAST}{line}\r\n")) == refused(5, 2);
    vec![
        ("the least string", said(LEAST).is_ok()),
        ("the largest string", said(MOST).is_ok()),
        ("T 0", out("0,1,1,0,0,0")),
        ("T 1,001", out("1001,1,1,0,0,0")),
        ("T 9,999", out("9999,1,1,0,0,0")),
        ("C 0", out("10,0,5,0,0,0")),
        ("C over D", out("10,6,5,0,0,0")),
        ("D 0", out("10,1,0,0,0,0")),
        ("D over T", out("10,1,11,0,0,0")),
        ("X 2", out("10,1,5,2,0,0")),
        ("a moving cost of 1,001", out("10,1,5,0,1001,0")),
        ("a moving cost of 9,999", out("10,1,5,1,9999,0")),
        ("the latest string", said(LATEST).is_ok()),
        ("J that is D", out("10,1,5,0,0,5")),
        ("J over D", out("10,1,5,0,0,9999")),
        ("C over what J leaves", out("10,3,5,0,0,3")),
        ("C that is what J leaves", said("10,2,5,0,0,3\r\n").is_ok()),
    ]
}

/// 813 and 369 have an H of 99,999, 885 and 113 one of 100,005; no periods have one in between.
fn cycles() -> Cases {
    let periods = |periods: &[u64]| {
        let lines: String = periods
            .iter()
            .map(|t| format!("{t},1,{t},0,0,0\r\n"))
            .collect();
        said(&lines)
    };
    vec![
        ("an export with H 99,999", periods(&[813, 369]).is_ok()),
        (
            "an export with H 100,005",
            periods(&[885, 113]) == refused(6, 2),
        ),
        (
            "an export with periods 997 and 991",
            periods(&[997, 991]) == refused(6, 2),
        ),
        (
            "6 with the last line",
            periods(&[997, 991, 1, 1]) == refused(6, 4),
        ),
        (
            "6 with the tenth line",
            periods(&[1, 1, 1, 997, 1, 991, 1, 1, 1, 1]) == refused(6, 10),
        ),
        (
            "an export with H 45,990",
            periods(&[7, 30, 90, 365]).is_ok(),
        ),
    ]
}

fn run_lengths() -> Cases {
    let with = |word: &str| {
        word.parse()
            .map(|run| reader::read(EXPORT, run).map(|plan| plan.days))
    };
    vec![
        ("N 0", with("0") == Ok(refused(5, 0))),
        ("N 1", with("1") == Ok(Ok(1))),
        ("N 1,000,000", with("1000000") == Ok(Ok(1_000_000))),
        ("N 1,000,001", with("1000001") == Ok(refused(5, 0))),
        ("N with zeros before it", with("00020") == Ok(Ok(20))),
        (
            "N 1 and 2 to the 32",
            with("4294967297") == Ok(refused(5, 0)),
        ),
        (
            "N 1 and 2 to the 64",
            with("18446744073709551617") == Ok(refused(5, 0)),
        ),
        (
            "N too large for the machine",
            with("99999999999999999999999999") == Ok(refused(5, 0)),
        ),
        (
            "N that is no run of digits",
            with("20 ") == Err(()) && with("") == Err(()) && with("+20") == Err(()),
        ),
    ]
}

fn tables() -> Cases {
    let whole = tabled(SAMPLE);
    let page = |size, place| written(into_page(&whole, Page { size, place }));
    let no_room = b"refused 9 line 0\n".to_vec();
    let refused_file = tabled(b"");
    vec![
        ("the sample's table", whole == Ok(EXPORT.to_vec())),
        (
            "the table of a version 03 file",
            tabled(REGISTERED) == Ok(EXPORT.to_vec()),
        ),
        ("the roof's table", tabled(ROOF) == Ok(ROOF_EXPORT.to_vec())),
        ("a table in a page that fits exactly", page(29, 0) == EXPORT),
        (
            "a table in a page one byte too short",
            page(28, 0) == no_room,
        ),
        (
            "a table amid its page",
            page(34, 3) == [b"...", EXPORT, b".."].concat(),
        ),
        ("a table from the page's end", page(29, 29) == no_room),
        (
            "a table from beyond the page's end",
            page(29, 30) == no_room,
        ),
        ("a table of no plan", tabled(EXPORT) == refused(2, 1)),
        ("a table of an empty file", refused_file == refused(3, 1)),
        (
            "3 before 9",
            into_page(&refused_file, Page { size: 0, place: 1 }) == refused(3, 1),
        ),
    ]
}

/// Written and read back gives the same strings; read and written back gives the same bytes.
fn round_trips() -> Cases {
    let strings_stay = |file: &[u8]| {
        let strings = read(file).map(|plan| plan.strings);
        let table = tabled(file).expect("the file is lawful");
        reader::read(&table, RunLength(1)).map(|plan| plan.strings) == strings
    };
    let bytes_stay = |export: &[u8]| {
        let file = registered(export, RunLength(1)).expect("the export is lawful");
        tabled(&file).as_deref() == Ok(export)
    };
    vec![
        (
            "the sample's strings written and read back",
            strings_stay(SAMPLE),
        ),
        (
            "the roof's strings written and read back",
            strings_stay(ROOF),
        ),
        (
            "the sample's export read and written back",
            bytes_stay(EXPORT),
        ),
        (
            "the roof's export read and written back",
            bytes_stay(ROOF_EXPORT),
        ),
        (
            "the ends of all bounds read and written back",
            bytes_stay(format!("{LEAST}{MOST}{LATEST}").as_bytes()),
        ),
        (
            "no releases",
            registered(EXPORT, RunLength(20))
                .and_then(|file| read(&file))
                .map(|plan| plan.releases.len())
                == Ok(0),
        ),
    ]
}
