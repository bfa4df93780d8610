//! Hunting for a case on which the two interpreters differ.

use std::sync::atomic::{AtomicBool, AtomicU64, Ordering::Relaxed};
use std::sync::Mutex;
use std::thread;
use std::time::{Duration, Instant};

use crate::case::Case;
use crate::compare::{
    difference, difference_from, difference_of_reading, guarded, Difference, Outcome,
};
use crate::counts::Counts;
use crate::drawing::{damaged, draw};
use crate::random::Random;
use crate::shrink::smallest;

/// Diagrams may be as deep as there are nodes, and menus may be kept on the stack.
const STACK: usize = 256 << 20;

/// How long a case is made smaller.
const SHRINKING: Duration = Duration::from_secs(30);

/// How many damaged copies of each case's file are read.
const READINGS: usize = 8;

/// How long to hunt.
#[derive(Clone, Copy, Debug)]
pub enum Length {
    /// So many cases.
    Cases(u64),
    /// So long, and for so many calls at least.
    Time { time: Duration, calls: u64 },
}

/// What a hunt came to.
pub struct Hunt {
    pub counts: Counts,
    pub time: Duration,
    /// The case that took longest, and how long.
    pub slowest: (u64, Duration),
    pub found: Option<Found>,
}

/// A case on which the two differ.
pub struct Found {
    pub number: u64,
    pub case: Case,
    pub difference: Difference,
}

/// Compares cases of a seed, by as many threads as are wanted, until the first difference or the end.
pub fn hunt(seed: u64, length: Length, threads: usize, announce: bool) -> Hunt {
    let hunting = Hunting {
        seed,
        length,
        announce,
        start: Instant::now(),
        next: AtomicU64::new(0),
        calls: AtomicU64::new(0),
        stop: AtomicBool::new(false),
        hunt: Mutex::new(Hunt {
            counts: Counts::default(),
            time: Duration::ZERO,
            slowest: (0, Duration::ZERO),
            found: None,
        }),
    };
    thread::scope(|scope| {
        for _ in 0..threads {
            with_stack()
                .spawn_scoped(scope, || hunting.work())
                .expect("a thread");
        }
    });
    let mut hunt = hunting.hunt.into_inner().expect("no thread panicked");
    hunt.time = hunting.start.elapsed();
    hunt
}

/// A thread with stack enough for both interpreters.
pub fn with_stack() -> thread::Builder {
    thread::Builder::new().stack_size(STACK)
}

/// Draws the case of a number, and compares; then some damaged copies of its file. Where they differ, the case is the one that does.
pub fn compared(seed: u64, number: u64, counts: &mut Counts) -> (Case, Option<Difference>) {
    let mut random = Random::of_case(seed, number);
    let mut case = Case::default();
    let second: Outcome = guarded(|| draw(&mut random, &mut case, counts));
    let difference = match second {
        Ok(text) => difference_from(&case, Ok(text)),
        Err(message) => panicked(&case, message),
    };
    if difference.is_some() {
        return (case, difference);
    }
    for _ in 0..READINGS {
        let damaged = damaged(&mut random, &case.file);
        let difference = difference_of_reading(&damaged, counts);
        if difference.is_some() {
            return (damaged, difference);
        }
    }
    (case, None)
}

/// Drawing panicked: the second interpreter did, with the case as far as it was drawn, or else what draws did.
fn panicked(case: &Case, message: String) -> Option<Difference> {
    difference(case).or_else(|| {
        Some(Difference {
            call: "nothing; the case could not be drawn",
            product: Ok(vec![]),
            second: Err(message),
        })
    })
}

/// A smaller case that differs as well.
pub fn smaller(found: Found) -> Found {
    let case = smallest(found.case.clone(), SHRINKING, |case| {
        difference(case).is_some()
    });
    match difference(&case) {
        Some(difference) => Found {
            case,
            difference,
            ..found
        },
        None => found,
    }
}

struct Hunting {
    seed: u64,
    length: Length,
    announce: bool,
    start: Instant,
    next: AtomicU64,
    calls: AtomicU64,
    stop: AtomicBool,
    hunt: Mutex<Hunt>,
}

impl Hunting {
    fn work(&self) {
        let mut counts = Counts::default();
        let mut slowest = (0, Duration::ZERO);
        while let Some(number) = self.next_number() {
            if self.announce {
                eprintln!("case {number}");
            }
            let start = Instant::now();
            let before = counts.calls();
            let (case, difference) = compared(self.seed, number, &mut counts);
            self.calls.fetch_add(counts.calls() - before, Relaxed);
            slowest = slower(slowest, (number, start.elapsed()));
            if let Some(difference) = difference {
                self.found(Found {
                    number,
                    case,
                    difference,
                });
            }
        }
        let mut hunt = self.hunt.lock().expect("no thread panicked");
        hunt.counts.add(&counts);
        hunt.slowest = slower(hunt.slowest, slowest);
    }

    /// The number of the next case, unless the hunt is over.
    fn next_number(&self) -> Option<u64> {
        if self.stop.load(Relaxed) {
            return None;
        }
        let number = self.next.fetch_add(1, Relaxed);
        let goes_on = match self.length {
            Length::Cases(cases) => number < cases,
            Length::Time { time, calls } => {
                self.start.elapsed() < time || self.calls.load(Relaxed) < calls
            }
        };
        goes_on.then_some(number)
    }

    /// Keeps the difference with the lowest number, and ends the hunt.
    fn found(&self, found: Found) {
        self.stop.store(true, Relaxed);
        let mut hunt = self.hunt.lock().expect("no thread panicked");
        let earlier = hunt.found.as_ref().map(|other| other.number);
        if earlier.is_none_or(|number| found.number < number) {
            hunt.found = Some(found);
        }
    }
}

fn slower(one: (u64, Duration), other: (u64, Duration)) -> (u64, Duration) {
    if one.1 < other.1 {
        other
    } else {
        one
    }
}
