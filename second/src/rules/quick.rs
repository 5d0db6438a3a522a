//! The quick verdict (document 02, W-204): only pairs at which, with the blocking held, some string's job count has grown.

use super::plan::{BatteryString, Length, Plan};
use super::rule::{blocking_limit, demand, jobs, load, Verdict, PAGE};

/// The quick verdict on a plan within its bounds, with the X that it carries.
pub fn quick(plan: &Plan, cycle: Length) -> Verdict {
    if load(plan, cycle) > cycle {
        return Verdict::Overload;
    }
    let mut pairs = 0;
    for interval in 1..plan.largest_d() + cycle {
        for blocking in 0..=blocking_limit(&PAGE, plan, interval) {
            if !some_count_grows(plan, interval, blocking) {
                continue;
            }
            pairs += 1;
            let demand = demand(plan, interval, blocking);
            if demand > interval {
                return Verdict::Fail {
                    interval,
                    blocking,
                    demand,
                    pairs,
                };
            }
        }
    }
    Verdict::Pass { pairs }
}

/// Whether some string counts more jobs than one interval earlier.
fn some_count_grows(plan: &Plan, interval: Length, blocking: Length) -> bool {
    plan.strings
        .iter()
        .any(|string| count(string, interval, blocking) > count(string, interval - 1, blocking))
}

/// The jobs that the demand counts. A window of less than no days has none.
fn count(string: &BatteryString, interval: Length, blocking: Length) -> u64 {
    if string.x == 0 {
        jobs(string, interval)
    } else if interval < blocking {
        0
    } else {
        jobs(string, interval - blocking)
    }
}
