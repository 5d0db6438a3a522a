//! Late access (document 02, W-213): plans and files whose answers follow from the request by hand, and small plans with late days
//! held against every list of releases there is.

use crate::chance::Chance;
use crate::misses::plans::small_late_plan;
use crate::rules::every_list::can_miss;
use crate::rules::frames::{read, Refusal};
use crate::rules::plan::{Plan, Release};
use crate::rules::quick::quick;
use crate::rules::rule::{blocking_limit, jobs, verdict, Verdict, PAGE};
use crate::rules::run::{run, Outcome};
use crate::running::told;
use crate::selftest::{plan, refused, Cases};

pub fn cases() -> Cases {
    [rules(), bounds(), releases(), runs(), every_list()].concat()
}

/// Strings as (T, C, D) and J.
fn with_late(strings: &[((u64, u64, u64), u64)]) -> Plan {
    let plain: Vec<_> = strings.iter().map(|(string, _)| *string).collect();
    let mut plan = plan(&plain, 0);
    for (string, (_, late)) in plan.strings.iter_mut().zip(strings) {
        string.late = *late;
    }
    plan
}

/// All numbers were found by hand.
fn rules() -> Cases {
    let verdicts = |plan: &Plan| {
        let cycle = plan.cycle().expect("H is in bounds");
        (verdict(plan, cycle), quick(plan, cycle))
    };
    let fail = |(interval, blocking, demand), pairs| Verdict::Fail {
        interval,
        blocking,
        demand,
        pairs,
    };
    let pass = |pairs| Verdict::Pass { pairs };
    let string = &with_late(&[((10, 2, 6), 3)]).strings[0];
    let counts = [2, 3, 12, 13, 22, 23].map(|window| jobs(string, window));
    let single = with_late(&[((3, 1, 2), 1)]);
    let double = with_late(&[((3, 1, 2), 1), ((3, 1, 2), 1)]);
    // it fails by the rule, and yet can never miss
    let blocked = with_late(&[((5, 1, 4), 0), ((4, 2, 4), 2)]);
    let limits = [1, 2, 3, 4].map(|interval| blocking_limit(&PAGE, &blocked, interval));
    vec![
        (
            "jobs of a string with late days",
            counts == [0, 1, 1, 2, 2, 3],
        ),
        (
            "the limit from the smallest D less J on",
            limits == [0, 1, 1, 0],
        ),
        (
            "a late string alone",
            verdicts(&single) == (pass(4), pass(2)),
        ),
        (
            "two late strings",
            verdicts(&double) == (fail((1, 0, 2), 1), fail((1, 0, 2), 1)),
        ),
        (
            "a late string that blocks",
            verdicts(&blocked) == (fail((2, 1, 3), 3), fail((2, 1, 3), 2)),
        ),
        ("the same never misses", !can_miss(&blocked)),
    ]
}

/// A string line of a version 03 file by its C, D and J.
fn reads(c: u64, d: u64, late: u64) -> Result<u64, Refusal> {
    let text = format!("01030100000014\n0200000a{c:04x}{d:04x}0000{late:04x}\n");
    read(text.as_bytes()).map(|plan| plan.strings[0].late)
}

fn bounds() -> Cases {
    vec![
        ("J 0", reads(5, 5, 0) == Ok(0)),
        ("J D less 1", reads(1, 5, 4) == Ok(4)),
        ("J D in a file", reads(1, 5, 5) == refused(5, 2)),
        ("J 65,535", reads(1, 5, 65_535) == refused(5, 2)),
        ("C D less J", reads(2, 5, 3) == Ok(3)),
        ("C over D less J", reads(3, 5, 3) == refused(5, 2)),
    ]
}

/// Releases as (day, due day) of a string with T 10, D 6 and J 3.
fn lawful(releases: &[(u64, u64)]) -> Result<(), Refusal> {
    let mut text = "01030100000064\n0200000a0002000600000003\n".to_string();
    for (day, due) in releases {
        text += &format!("0301{day:08x}0002{due:08x}\n");
    }
    read(text.as_bytes()).map(|_| ())
}

fn releases() -> Cases {
    let again = |first, second| lawful(&[first, second]);
    vec![
        ("on its due day", lawful(&[(7, 7)]) == Ok(())),
        ("J days after it", lawful(&[(10, 7)]) == Ok(())),
        ("over J days after it", lawful(&[(11, 7)]) == refused(8, 3)),
        ("before its due day", lawful(&[(6, 7)]) == refused(8, 3)),
        (
            "due days T apart, the first late",
            again((3, 0), (10, 10)) == Ok(()),
        ),
        (
            "due days T apart, the second late",
            again((0, 0), (13, 10)) == Ok(()),
        ),
        (
            "due days closer than T, days T apart",
            again((0, 0), (10, 9)) == refused(8, 4),
        ),
        (
            "due days closer than T, days further apart",
            again((0, 0), (12, 9)) == refused(8, 4),
        ),
        ("the last day of the run", lawful(&[(99, 97)]) == Ok(())),
        ("beyond the run", lawful(&[(100, 97)]) == refused(8, 3)),
        (
            "due before the day ahead",
            lawful(&[(8, 5), (8, 8)]) == refused(8, 4),
        ),
    ]
}

/// The deadline counts from the due day; between jobs of one deadline the one that came earlier goes first, whenever it was due.
fn runs() -> Cases {
    let string = ((10, 3, 6), 3);
    let mut late = with_late(&[string, ((10, 2, 10), 0)]);
    let first = Release {
        due: 0,
        ..Release::new(1, 3, 3)
    };
    late.releases = vec![first];
    let alone = run(&late);
    late.releases.insert(0, Release::new(2, 2, 2));
    let behind = run(&late);
    // both have their deadline on day 10; place 2 is due later and comes earlier
    let mut tie = with_late(&[((20, 1, 8), 4), ((20, 1, 6), 1), ((20, 4, 20), 0)]);
    tie.days = 10;
    let due = |due, release: Release| Release { due, ..release };
    tie.releases = vec![
        Release::new(3, 4, 4),
        due(4, Release::new(2, 5, 1)),
        due(2, Release::new(1, 6, 1)),
    ];
    let tied = "days 0 to 3 idle\ndays 4 to 7 place 3 work release 1\n\
        day 8 place 2 work release 2\nday 9 place 1 work release 3\nrun clean work 6 move 0 idle 4\n";
    vec![
        (
            "a late job in time",
            alone
                == Outcome::Clean {
                    work: 3,
                    moving: 0,
                    idle: 17,
                },
        ),
        (
            "the earlier release day, not the earlier due day",
            told(&tie) == tied,
        ),
        (
            "a late job too late",
            behind == Outcome::Miss { day: 6, place: 1 },
        ),
    ]
}

/// A small plan with late days that passes misses for no list of releases.
fn every_list() -> Cases {
    const PLANS: u64 = 60;
    let never_misses = |number| !can_miss(&small_late_plan(&mut Chance::new(1, number), true));
    vec![("late plans that pass", (0..PLANS).all(never_misses))]
}
