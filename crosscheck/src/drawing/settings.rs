//! Random settings of ranges and hosts: mostly those that the plan wants, with others among them, some of them refused.

use super::Plan;
use crate::random::Random;

/// The ranges that the plan wants, sometimes in another order, after others, or with some that are refused.
pub fn ranges(random: &mut Random, plan: &Plan) -> Vec<[u16; 3]> {
    let mut ranges = plan.ranges.clone();
    if random.percent(15) {
        let before = random.below(ranges.len() + 1);
        ranges.insert(before, other_range(random));
    }
    if random.percent(5) {
        ranges.push(other_range(random));
    }
    if random.percent(10) && !plan.ranges.is_empty() {
        // Refused, so the type keeps its values.
        let [ty, _, _] = random.pick(&plan.ranges);
        ranges.push(random.pick(&[[ty, 65_535, 2], [ty, 65_521, 16], [ty, 0, 17]]));
    }
    ranges
}

fn other_range(random: &mut Random) -> [u16; 3] {
    let ty = match random.percent(80) {
        true => random.below(8) as u16,
        false => random.pick(&[8, 9, 255, 65_535]),
    };
    let first = random.pick(&[0, 1, 7, 300, 65_519, 65_520, 65_521, 65_534, 65_535]);
    let count = random.pick(&[0, 1, 2, 3, 15, 16, 17, 65_535]);
    [ty, first, count]
}

/// Settings of the guards that are asked, mostly such that they hold for a while.
pub fn settings(random: &mut Random, plan: &Plan, host: u64) -> Vec<[u16; 4]> {
    let mut settings = Vec::new();
    for &guard in &plan.guards {
        if random.percent(92) {
            settings.push(setting(random, plan, host, guard));
        }
    }
    while random.percent(18) {
        let before = random.below(settings.len() + 1);
        settings.insert(before, other_setting(random, plan, host));
    }
    if random.percent(15) && !plan.guards.is_empty() {
        let guard = random.pick(&plan.guards);
        settings.push(refused_setting(random, host, guard));
    }
    settings
}

/// A setting that is refused, so the guard keeps what it had.
fn refused_setting(random: &mut Random, host: u64, guard: u16) -> [u16; 4] {
    match host {
        0 => random.pick(&[
            [guard, 0, 2, 0],
            [guard, 5, 0, 65_535],
            [guard, 1, 3, 0],
            [guard, 3, 65_535, 0],
        ]),
        _ => random.pick(&[[guard, 256, 65_535, 0], [guard, 65_535, 0, 0]]),
    }
}

fn setting(random: &mut Random, plan: &Plan, host: u64, guard: u16) -> [u16; 4] {
    match host {
        0 => limit(random, plan, guard),
        _ => tally(random, plan, guard),
    }
}

fn limit(random: &mut Random, plan: &Plan, guard: u16) -> [u16; 4] {
    let operand = random.weighted(&[(5, 1), (2, 2), (3, 3), (1, 4)]);
    let value = random.pick(&plan.values);
    match random.below(4) {
        0 => [guard, operand, 2, value.saturating_sub(1)],
        1 => [guard, operand, 0, value.saturating_add(1)],
        2 => [guard, operand, random.below(3) as u16, value],
        // Most values are below this or above it.
        _ => random.pick(&[[guard, operand, 0, 65_535], [guard, operand, 2, 0]]),
    }
}

fn tally(random: &mut Random, plan: &Plan, guard: u16) -> [u16; 4] {
    let label = random.pick(&plan.labels);
    let bound = match plan.often {
        None => random.weighted(&[(1, 0), (3, 1), (4, 2), (4, 3), (4, 6), (1, 65_535)]),
        Some(_) => random.pick(&[65_534, 65_535]),
    };
    // The fourth number of a tally is not looked at.
    [guard, label, bound, random.field()]
}

/// A setting at random: of a guard that may not be asked, or out of range.
fn other_setting(random: &mut Random, plan: &Plan, host: u64) -> [u16; 4] {
    let guard = random.pick(&[0, 1, 5, 30, 31, 31, 32, 33, 65_535]);
    if random.percent(40) {
        return setting(random, plan, host, guard);
    }
    let guard = match random.percent(50) {
        true => random.below(32) as u16,
        false => guard,
    };
    let one = random.pick(&[0, 1, 2, 3, 4, 5, 255, 256, 65_535]);
    let two = random.pick(&[0, 1, 2, 3, 4, 65_535]);
    [guard, one, two, random.field()]
}
