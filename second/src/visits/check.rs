//! Whether a visit list is accepted: the rules in the request's words and order.

use super::Visit;
use crate::rules::frames::{require, Refusal};
use crate::rules::plan::{Length, Plan, Release};

/// 14 with the number of the first record that breaks a rule on its own or against those before it; then 15 with the first release that
/// does not add up.
pub fn check(plan: &Plan, visits: &[Visit]) -> Result<(), Refusal> {
    for (at, visit) in visits.iter().enumerate() {
        require(may_follow(plan, &visits[..at], visit), 14, at + 1)?;
    }
    for (before, release) in plan.releases.iter().enumerate() {
        require(adds_up(plan, visits, release, before + 1), 15, before + 1)?;
    }
    Ok(())
}

fn may_follow(plan: &Plan, before: &[Visit], visit: &Visit) -> bool {
    visit.length >= 1
        && before.iter().all(|earlier| earlier.end() <= visit.first)
        && before.iter().all(|earlier| !touch(earlier, visit))
        && named(plan, visit).map_or(false, |release| is_in_time(plan, release, visit))
}

/// The listed release that a visit names.
fn named<'a>(plan: &'a Plan, visit: &Visit) -> Option<&'a Release> {
    let number = usize::try_from(visit.release).ok()?;
    plan.releases.get(number.checked_sub(1)?)
}

/// Two visits of one release that could have been one.
fn touch(earlier: &Visit, later: &Visit) -> bool {
    earlier.release == later.release && earlier.end() == later.first
}

/// From the release day up to, not into, the deadline day.
fn is_in_time(plan: &Plan, release: &Release, visit: &Visit) -> bool {
    release.day <= visit.first && visit.end() <= plan.deadline(release)
}

/// Its need, and its string's moving cost for every visit after the first. One that nobody visits lacks its need.
fn adds_up(plan: &Plan, visits: &[Visit], release: &Release, number: usize) -> bool {
    let own = visits.iter().filter(|visit| visit.release == number as u64);
    let lengths: Vec<Length> = own.map(|visit| visit.length).collect();
    let after_the_first = lengths.len().saturating_sub(1) as u64;
    lengths.iter().sum::<Length>()
        == release.need + plan.string_of(release).moving * after_the_first
}

/// The same rules said of the whole list at once: what is accepted has to be accepted so.
pub fn keeps_every_rule(plan: &Plan, visits: &[Visit]) -> bool {
    let releases = || plan.releases.iter().zip(1..);
    let of_one = |number: u64| visits.iter().filter(move |visit| visit.release == number);
    let in_order = visits.windows(2).all(|pair| pair[0].end() <= pair[1].first);
    let apart = |number| {
        let own: Vec<&Visit> = of_one(number).collect();
        own.windows(2).all(|pair| pair[0].end() != pair[1].first)
    };
    let in_time =
        |release: &Release, number| of_one(number).all(|visit| is_in_time(plan, release, visit));
    visits.iter().all(|visit| visit.length >= 1)
        && in_order
        && visits.iter().all(|visit| named(plan, visit).is_some())
        && releases().all(|(_, number)| apart(number))
        && releases().all(|(release, number)| in_time(release, number))
        && releases().all(|(release, number)| adds_up(plan, visits, release, number as usize))
}
