//! Which kind of file comes when, and the making of it.

use crate::chance::Chance;
use crate::faults::{bytes, cuts, lines, long, noise, release_count, several, values, versions};
use crate::plans::{border, claim, cycles, extreme, far, load, releases, shaped, strings, takings};
use crate::rules::plan::Plan;
use crate::writing::Version;
use crate::{faults, writing};

/// A kind of file. The turn counts the files of this kind, from 0.
pub struct Kind {
    pub name: &'static str,
    /// Files of this kind in each 1,000.
    pub share: u64,
    pub make: fn(&mut Chance, u64) -> Vec<u8>,
}

/// Files in one round of all kinds.
const ROUND: u64 = 1_000;

/// A step without a common divisor with the round, so that a few files already mix the kinds.
const STRIDE: u64 = 617;

macro_rules! kind {
    ($name:expr, $share:expr, $make:path) => {
        $crate::mix::Kind {
            name: $name,
            share: $share,
            make: $make,
        }
    };
}
pub(crate) use kind;

const KINDS: [Kind; 33] = [
    kind!("lawful", 148, lawful),
    kind!("permissions matter", 50, permissions_matter),
    kind!("choice of permissions", 20, choices),
    kind!("equal deadlines", 40, equal_deadlines),
    kind!("payer waits", 12, payer_waits),
    kind!("takers tie", 12, takers_tie),
    kind!("border", 90, at_the_border),
    kind!("load about H", 40, load_about_cycle),
    kind!("numbers at bounds", 10, upper_bounds),
    kind!("largest load", 2, largest_load),
    kind!("claim", 100, pressed),
    kind!("ten strings", 8, ten_strings),
    kind!("long run", 4, long_run),
    kind!("late fail", 4, late_fail),
    kind!("many pairs", 4, many_pairs),
    kind!("heavy search", 1, heavy),
    kind!("H near its bound", 10, cycle_near_bound),
    kind!("one byte", 256, bytes::one_byte),
    kind!("text cut", 20, cuts::text_cut),
    kind!("line cut", 10, cuts::line_cut),
    kind!("line grown", 5, cuts::line_grown),
    kind!("line fault", 25, lines::line_fault),
    kind!("n", 6, values::count),
    kind!("kind or version", 21, values::kind_or_version),
    kind!("versions mixed", 16, versions::mixed),
    kind!("A or N at bound", 6, values::header_bounds),
    kind!("a string at bound", 14, values::string_bounds),
    kind!("release at bound", 22, faults::releases::one_release),
    kind!("1,000 releases", 9, release_count::many_releases),
    kind!("long text", 3, long::long_text),
    kind!("noise", 8, noise::noise),
    kind!("several faults", 22, several_faults),
    kind!("full list", 2, full_list),
];

pub struct Made {
    /// The kind's name.
    pub kind: &'static str,
    pub text: Vec<u8>,
}

/// The file of this number under this seed.
pub fn make(seed: u64, file: u64) -> Made {
    make_of(&KINDS, seed, file)
}

/// The file of this number under this seed, of the kinds of a table whose shares make up a round.
pub fn make_of(kinds: &[Kind], seed: u64, file: u64) -> Made {
    let (kind, turn) = kind_and_turn(kinds, file);
    let mut chance = Chance::new(seed, file);
    let text = (kind.make)(&mut chance, turn);
    Made {
        kind: kind.name,
        text,
    }
}

/// Kinds at the border between pass and fail, as often as they stand here.
const AT_THE_BORDER: [&str; 10] = [
    "border",
    "border",
    "border",
    "border",
    "border",
    "load about H",
    "choice of permissions",
    "permissions matter",
    "equal deadlines",
    "late fail",
];

/// The file of this number under this seed, most often at the border; one in twenty is of any kind.
pub fn make_at_the_border(seed: u64, file: u64) -> Made {
    if file % 20 == 19 {
        return make(seed, file);
    }
    let mut chance = Chance::new(seed, file);
    let name = chance.pick(&AT_THE_BORDER);
    let named = KINDS.iter().find(|kind| kind.name == name);
    let kind = named.expect("every kind at the border is in the table");
    let text = (kind.make)(&mut chance, file);
    Made { kind: name, text }
}

/// The file of this number under this seed: every other one of any kind; the rest lawful, with moving
/// costs that are equal, equal but for one string, or different, in versions 01 and 02 and now and then in
/// 03, and one in eight then damaged.
pub fn make_to_turn(seed: u64, file: u64) -> Made {
    if file % 2 == 0 {
        return make(seed, file);
    }
    let mut chance = Chance::new(seed, file);
    let limit = strings::cost_limit(&mut chance, 2_000_000);
    let mut plan = strings::mixed(&mut chance, 8, limit);
    let turn = file / 2 % 5;
    if turn < 4 {
        plan.set_late(0);
    }
    let most = chance.between(0, 30) as usize;
    releases::fill(&mut chance, &mut plan, most);
    let version = match turn {
        0 => Version::V01,
        1..=3 => Version::V02,
        _ => Version::V03,
    };
    draw_costs(&mut chance, &mut plan, turn);
    let mut text = writing::lines(&plan, version).concat();
    if chance.one_in(8) {
        let at = chance.index(text.len());
        text[at] = chance.pick(b"0123456789abcdef\nG");
    }
    Made {
        kind: "to turn",
        text,
    }
}

/// By turns: equal twice, equal but for one string, different.
fn draw_costs(chance: &mut Chance, plan: &mut Plan, turn: u64) {
    let moving = chance.between(0, 1_000);
    match turn % 4 {
        0 | 1 => plan.set_moving(moving),
        2 => {
            plan.set_moving(moving);
            let one = chance.index(plan.strings.len());
            plan.strings[one].moving = if moving > 0 { moving - 1 } else { 1 };
        }
        _ => {
            for string in &mut plan.strings {
                string.moving = chance.between(0, 3);
            }
        }
    }
}

fn kind_and_turn(kinds: &[Kind], file: u64) -> (&Kind, u64) {
    let mut place = file * STRIDE % ROUND;
    let mut at = 0;
    while place >= kinds[at].share {
        place -= kinds[at].share;
        at += 1;
    }
    (&kinds[at], file / ROUND * kinds[at].share + place)
}

/// Gives a plan a run and releases, and writes it.
fn filled(chance: &mut Chance, mut plan: Plan) -> Vec<u8> {
    let most = chance.between(0, 30) as usize;
    releases::fill(chance, &mut plan, most);
    writing::any_text(chance, &plan)
}

fn lawful(chance: &mut Chance, _: u64) -> Vec<u8> {
    let limit = strings::cost_limit(chance, 2_000_000);
    let plan = strings::mixed(chance, 8, limit);
    filled(chance, plan)
}

fn permissions_matter(chance: &mut Chance, _: u64) -> Vec<u8> {
    let plan = shaped::contrast(chance);
    filled(chance, plan)
}

fn choices(chance: &mut Chance, _: u64) -> Vec<u8> {
    let plan = shaped::choices(chance);
    filled(chance, plan)
}

fn equal_deadlines(chance: &mut Chance, _: u64) -> Vec<u8> {
    let plan = shaped::equal_deadlines(chance);
    filled(chance, plan)
}

fn payer_waits(chance: &mut Chance, _: u64) -> Vec<u8> {
    let plan = takings::payer_waits(chance);
    writing::any_text(chance, &plan)
}

fn takers_tie(chance: &mut Chance, _: u64) -> Vec<u8> {
    let plan = takings::takers_tie(chance);
    writing::any_text(chance, &plan)
}

/// The last plan that passes and the first that does not, in turn.
fn at_the_border(chance: &mut Chance, turn: u64) -> Vec<u8> {
    let border = border::border(chance);
    let plan = if turn % 2 == 0 {
        border.inside
    } else {
        border.outside
    };
    filled(chance, plan)
}

fn load_about_cycle(chance: &mut Chance, turn: u64) -> Vec<u8> {
    let plan = load::full(chance, turn);
    filled(chance, plan)
}

fn upper_bounds(chance: &mut Chance, _: u64) -> Vec<u8> {
    let plan = extreme::upper_bounds(chance);
    filled(chance, plan)
}

fn largest_load(chance: &mut Chance, _: u64) -> Vec<u8> {
    let plan = extreme::largest_load(chance);
    filled(chance, plan)
}

fn pressed(chance: &mut Chance, _: u64) -> Vec<u8> {
    let plan = claim::pressed(chance);
    writing::any_text(chance, &plan)
}

fn ten_strings(chance: &mut Chance, _: u64) -> Vec<u8> {
    let plan = shaped::ten_strings(chance);
    filled(chance, plan)
}

fn long_run(chance: &mut Chance, _: u64) -> Vec<u8> {
    let plan = far::long_run(chance);
    writing::any_text(chance, &plan)
}

fn late_fail(chance: &mut Chance, _: u64) -> Vec<u8> {
    let plan = far::late_fail(chance);
    filled(chance, plan)
}

fn many_pairs(chance: &mut Chance, _: u64) -> Vec<u8> {
    let plan = far::many_pairs(chance);
    filled(chance, plan)
}

fn heavy(chance: &mut Chance, _: u64) -> Vec<u8> {
    let plan = extreme::heavy(chance);
    filled(chance, plan)
}

fn cycle_near_bound(chance: &mut Chance, _: u64) -> Vec<u8> {
    let plan = cycles::near_bound(chance);
    filled(chance, plan)
}

fn several_faults(chance: &mut Chance, _: u64) -> Vec<u8> {
    several::several(chance)
}

/// As many releases as a list may have, over strings of any kind.
fn full_list(chance: &mut Chance, _: u64) -> Vec<u8> {
    let mut plan = strings::mixed(chance, 6, 100_000);
    plan.days = chance.between(2_000, 40_000);
    plan.releases = releases::list(chance, &plan, 1_000);
    writing::any_text(chance, &plan)
}
