//! What the yard brings: values for the types, and answers for the guards.

use std::collections::BTreeMap;

use super::{Event, Fault, Variables};

/// Asks question 19 of the fields of a setting, which are given as in range or not.
fn ask_in_range(fields: &[bool]) -> Result<(), Fault> {
    match fields.iter().position(|&in_range| !in_range) {
        None => Ok(()),
        Some(wrong) => Err(Fault::new(19, wrong)),
    }
}

/// A roster by first value and count.
#[derive(Clone, Debug, Default)]
pub struct Ranges {
    values: BTreeMap<u16, Vec<u16>>,
}

impl Ranges {
    pub fn new() -> Ranges {
        Ranges::default()
    }

    pub fn set(&mut self, ty: u16, first: u16, count: u16) -> Result<(), Fault> {
        let end = u32::from(first) + u32::from(count);
        ask_in_range(&[ty <= 7, true, count <= 16 && end <= 65_536])?;
        let values = (0..count).map(|step| first + step).collect();
        self.values.insert(ty, values);
        Ok(())
    }

    /// The values of a type; none where it is unknown.
    pub(super) fn values(&self, ty: u16) -> Option<&Vec<u16>> {
        self.values.get(&ty)
    }
}

/// Answers guards.
#[derive(Clone, Debug)]
pub enum Host {
    Limits(Limits),
    Tallies(Tallies),
}

/// Guards that compare an operand with a constant.
#[derive(Clone, Debug, Default)]
pub struct Limits {
    entries: BTreeMap<u16, Limit>,
}

#[derive(Clone, Copy, Debug)]
struct Limit {
    operand: u16,
    comparison: u16,
    constant: u16,
}

/// Guards that say yes while fewer events of a label were told than a bound.
#[derive(Clone, Debug, Default)]
pub struct Tallies {
    entries: BTreeMap<u16, Tally>,
}

#[derive(Clone, Copy, Debug)]
struct Tally {
    label: u16,
    bound: u16,
    told: u16,
}

impl Host {
    pub fn limits() -> Host {
        Host::Limits(Limits::default())
    }

    pub fn tallies() -> Host {
        Host::Tallies(Tallies::default())
    }

    /// For limits: guard, operand, comparison, constant. For tallies: guard, label, bound, and
    /// the fourth number is not looked at.
    pub fn set(&mut self, a: u16, b: u16, c: u16, d: u16) -> Result<(), Fault> {
        match self {
            Host::Limits(limits) => limits.set(a, b, c, d),
            Host::Tallies(tallies) => tallies.set(a, b, c),
        }
    }

    pub(super) fn says_yes(&self, guard: u16, event: Event, variables: Variables) -> bool {
        match self {
            Host::Limits(limits) => limits.says_yes(guard, event, variables),
            Host::Tallies(tallies) => tallies.says_yes(guard),
        }
    }

    pub(super) fn tell(&mut self, event: Event) {
        match self {
            Host::Limits(_) => {}
            Host::Tallies(tallies) => tallies.tell(event),
        }
    }
}

impl Limits {
    fn set(
        &mut self,
        guard: u16,
        operand: u16,
        comparison: u16,
        constant: u16,
    ) -> Result<(), Fault> {
        ask_in_range(&[guard <= 31, (1..=4).contains(&operand), comparison <= 2])?;
        let limit = Limit {
            operand,
            comparison,
            constant,
        };
        self.entries.insert(guard, limit);
        Ok(())
    }

    fn says_yes(&self, guard: u16, event: Event, variables: Variables) -> bool {
        self.entries
            .get(&guard)
            .is_some_and(|limit| limit.holds(event, variables))
    }
}

impl Limit {
    fn holds(self, event: Event, variables: Variables) -> bool {
        let operand = match self.operand {
            1 => variables.outer,
            2 => variables.inner,
            3 => event.arguments()[0],
            _ => event.arguments()[1],
        };
        // An absent operand is no, whatever the comparison.
        operand.is_some_and(|value| match self.comparison {
            0 => value < self.constant,
            1 => value == self.constant,
            _ => value > self.constant,
        })
    }
}

impl Tallies {
    fn set(&mut self, guard: u16, label: u16, bound: u16) -> Result<(), Fault> {
        ask_in_range(&[guard <= 31, label <= 255])?;
        let tally = Tally {
            label,
            bound,
            told: 0,
        };
        self.entries.insert(guard, tally);
        Ok(())
    }

    fn says_yes(&self, guard: u16) -> bool {
        self.entries
            .get(&guard)
            .is_some_and(|tally| tally.told < tally.bound)
    }

    fn tell(&mut self, event: Event) {
        for tally in self.entries.values_mut() {
            if tally.label == event.label {
                tally.told = tally.told.saturating_add(1);
            }
        }
    }
}
