//! Counting what the cases met, to see that they are not refusals alone.

use crate::case::{Call, Player, Said};
use crate::record::{records_of, ARROW, KINDS};
use crate::second::Fault;

/// How many questions there are.
const QUESTIONS: usize = 19;

/// What was met in some cases.
#[derive(Clone, Default)]
pub struct Counts {
    cases: u64,
    accepted: u64,
    /// Accepted files that have a record of each kind.
    kinds: [u64; ARROW as usize + 1],
    readings: Answers,
    openings: Answers,
    offers: Answers,
    menus: Answers,
    tells: u64,
    held: u64,
    most_held: usize,
    several: u64,
    finished: u64,
}

/// The answers of one kind of call.
#[derive(Clone, Copy, Default)]
struct Answers {
    taken: u64,
    refused: [u64; QUESTIONS + 1],
}

impl Counts {
    /// Counts a file.
    pub fn begin(&mut self, player: &Player, file: &[u8]) {
        self.cases += 1;
        if !player.accepted() {
            return;
        }
        self.accepted += 1;
        let records = records_of(file).unwrap_or_default();
        for kind in 1..=ARROW {
            if records.iter().any(|record| record.kind == kind) {
                self.kinds[usize::from(kind)] += 1;
            }
        }
    }

    /// Counts the reading of a damaged file.
    pub fn reading(&mut self, answer: &Result<usize, Fault>) {
        self.readings.count(answer);
    }

    /// Counts a call and what it came to.
    pub fn call(&mut self, call: &Call, said: &Said) {
        match said {
            Said::Told { held, finished } => self.told(*held, *finished),
            Said::Answer(answer) => {
                let answers = match call {
                    Call::Offer(_) => &mut self.offers,
                    Call::Menu(_) => &mut self.menus,
                    _ => &mut self.openings,
                };
                answers.count(answer);
            }
        }
    }

    fn told(&mut self, held: usize, finished: bool) {
        if held == 0 {
            return;
        }
        self.tells += 1;
        self.held += held as u64;
        self.most_held = self.most_held.max(held);
        self.several += u64::from(held > 1);
        self.finished += u64::from(finished);
    }

    /// How many calls there were, those that tell left out.
    pub fn calls(&self) -> u64 {
        self.openings.all() + self.offers.all() + self.menus.all()
    }

    /// Adds what others met.
    pub fn add(&mut self, other: &Counts) {
        self.cases += other.cases;
        self.accepted += other.accepted;
        for (mine, others) in self.kinds.iter_mut().zip(other.kinds) {
            *mine += others;
        }
        self.readings.add(&other.readings);
        self.openings.add(&other.openings);
        self.offers.add(&other.offers);
        self.menus.add(&other.menus);
        self.tells += other.tells;
        self.held += other.held;
        self.most_held = self.most_held.max(other.most_held);
        self.several += other.several;
        self.finished += other.finished;
    }

    /// The counts as lines to print.
    pub fn lines(&self) -> Vec<String> {
        let mut lines = vec![
            format!(
                "files: {}, accepted {}",
                self.cases,
                share(self.accepted, self.cases)
            ),
            format!("kinds of records in accepted files: {}", self.kinds_met()),
        ];
        lines.push(self.readings.line("readings of damaged files besides"));
        lines.push(self.openings.line("openings"));
        lines.push(self.offers.line("offers"));
        lines.push(self.menus.line("menus"));
        lines.push(format!(
            "held states of open runs: {:.2} in the mean, {} at most, several {}, finished {}",
            self.held as f64 / self.tells.max(1) as f64,
            self.most_held,
            share(self.several, self.tells),
            share(self.finished, self.tells)
        ));
        lines
    }

    fn kinds_met(&self) -> String {
        let kinds: Vec<String> = (1..=usize::from(ARROW))
            .map(|kind| format!("{} {}", KINDS[kind], share(self.kinds[kind], self.accepted)))
            .collect();
        kinds.join(", ")
    }
}

impl Answers {
    fn count(&mut self, answer: &Result<usize, Fault>) {
        match answer {
            Ok(_) => self.taken += 1,
            Err(fault) => self.refused[(fault.number as usize).min(QUESTIONS)] += 1,
        }
    }

    fn all(&self) -> u64 {
        self.taken + self.refused.iter().sum::<u64>()
    }

    fn add(&mut self, other: &Answers) {
        self.taken += other.taken;
        for (mine, others) in self.refused.iter_mut().zip(other.refused) {
            *mine += others;
        }
    }

    fn line(&self, name: &str) -> String {
        let all = self.all();
        let mut line = format!("{name}: {all}, not refused {}", share(self.taken, all));
        for (number, &count) in self.refused.iter().enumerate() {
            if count > 0 {
                line += &format!(", refused by {number} {}", share(count, all));
            }
        }
        line
    }
}

fn share(part: u64, whole: u64) -> String {
    format!("{:.1}%", 100.0 * part as f64 / whole.max(1) as f64)
}
