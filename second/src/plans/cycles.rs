//! Periods whose H is near its bound.

use super::strings::with_permissions;
use crate::chance::Chance;
use crate::rules::plan::{BatteryString, Plan, LONGEST_CYCLE};

/// A plan with such an H, on either side of the bound.
pub fn near_bound(chance: &mut Chance) -> Plan {
    let periods = match chance.below(8) {
        0 => vec![997, 991],
        1 => vec![7, 30, 90, 365],
        // 99,999 and 100,005, the numbers nearest to the bound that periods make up.
        2 => vec![813, 369],
        3 => vec![885, 113],
        _ => periods_near_bound(chance),
    };
    let strings = periods
        .into_iter()
        .map(|t| BatteryString::plain(t, chance.between(1, (t + 7) / 8), t))
        .collect();
    with_permissions(chance, strings)
}

/// Draws an H near the bound until periods make it up.
fn periods_near_bound(chance: &mut Chance) -> Vec<u64> {
    loop {
        let cycle = chance.between(LONGEST_CYCLE - 150, LONGEST_CYCLE + 150);
        let mut parts = prime_powers(cycle);
        chance.shuffle(&mut parts);
        let periods = gathered(&parts);
        if periods.len() <= 4 && periods.iter().all(|t| *t <= 1_000) {
            return periods;
        }
    }
}

/// The powers of different primes that a number is the product of.
fn prime_powers(mut number: u64) -> Vec<u64> {
    let mut parts = Vec::new();
    let mut prime = 2;
    while number > 1 {
        let mut part = 1;
        while number % prime == 0 {
            number /= prime;
            part *= prime;
        }
        if part > 1 {
            parts.push(part);
        }
        prime += 1;
    }
    parts
}

/// Multiplies parts into periods of at most 1,000 where that is possible.
fn gathered(parts: &[u64]) -> Vec<u64> {
    let mut periods: Vec<u64> = Vec::new();
    for part in parts {
        match periods.iter_mut().find(|period| **period * part <= 1_000) {
            Some(period) => *period *= part,
            None => periods.push(*part),
        }
    }
    periods
}
