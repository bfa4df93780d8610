// crosscheck: mod second
//! Reads procedure files and runs their diagrams, straight from the pages in `docs/`.
//!
//! It is meant to be compared with the product, so it is simple rather than fast: rows are
//! vectors, sets are ordered sets, and the rules are one plain recursion over the nodes.

mod reading;
mod rules;
mod run;
mod setting;

#[cfg(test)]
mod tests;

pub use reading::Procedure;
pub use run::Run;
pub use setting::{Host, Limits, Ranges, Tallies};

/// A question that was answered no.
#[derive(Clone, Copy, Debug, PartialEq, Eq)]
pub struct Fault {
    pub number: u64,
    pub layer: u64,
    pub place: u64,
}

impl Fault {
    /// Each question belongs to one layer, so the number gives it.
    fn new(number: u64, place: usize) -> Fault {
        let layer = match number {
            1..=10 => 1,
            11..=14 => 2,
            15..=18 => 3,
            _ => 4,
        };
        let place = place as u64;
        Fault {
            number,
            layer,
            place,
        }
    }
}

/// A label and up to two arguments. The derived order is the one of the pages: by label, count,
/// first and second argument.
#[derive(Clone, Copy, Debug, PartialEq, Eq, PartialOrd, Ord)]
pub struct Event {
    pub label: u16,
    pub count: u16,
    pub first: u16,
    pub second: u16,
}

impl Event {
    /// The event of a label and its arguments; a second one without a first does not occur.
    fn of(label: u16, arguments: [Option<u16>; 2]) -> Event {
        Event {
            label,
            count: arguments.iter().flatten().count() as u16,
            first: arguments[0].unwrap_or(0),
            second: arguments[1].unwrap_or(0),
        }
    }

    /// The arguments that the event has; an absent one is not the same as 0.
    fn arguments(self) -> [Option<u16>; 2] {
        [
            (self.count >= 1).then_some(self.first),
            (self.count >= 2).then_some(self.second),
        ]
    }

    /// The first field that is out of form, if any.
    fn wrong_field(self) -> Option<usize> {
        let in_form = [
            self.label <= 255,
            self.count <= 2,
            self.count >= 1 || self.first == 0,
            self.count >= 2 || self.second == 0,
        ];
        in_form.iter().position(|&field| !field)
    }
}

/// The values of the binders in scope; absent where there is none.
#[derive(Clone, Copy, Debug, Default, PartialEq, Eq, PartialOrd, Ord)]
struct Variables {
    outer: Option<u16>,
    inner: Option<u16>,
}

impl Variables {
    /// The outermost binder gives the outer variable, the next one the inner.
    fn with(self, value: u16) -> Variables {
        match self.outer {
            None => Variables {
                outer: Some(value),
                ..self
            },
            Some(_) => Variables {
                inner: Some(value),
                ..self
            },
        }
    }
}
