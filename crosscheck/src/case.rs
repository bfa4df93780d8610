//! A case: what both interpreters are given, and the text that the second one makes of it.

use std::fmt;

use crate::product::Input;
use crate::second::{Event, Fault, Host, Procedure, Ranges, Run};

/// More places than this are taken for this many.
const MOST_PLACES: u64 = 65_536;

/// A call on the run.
#[derive(Clone, Copy, Debug, PartialEq, Eq)]
pub enum Call {
    Offer(Event),
    /// With so many places.
    Menu(u64),
    /// With this ceiling.
    Open(u64),
    Tell,
}

impl fmt::Display for Call {
    fn fmt(&self, f: &mut fmt::Formatter<'_>) -> fmt::Result {
        match self {
            Call::Offer(event) => write!(
                f,
                "offer label {}, {} arguments, {}, {}",
                event.label, event.count, event.first, event.second
            ),
            Call::Menu(places) => write!(f, "menu with {places} places"),
            Call::Open(ceiling) => write!(f, "open with ceiling {ceiling}"),
            Call::Tell => write!(f, "tell"),
        }
    }
}

/// What a file, a host and a list of calls are played with.
#[derive(Clone, Debug, Default)]
pub struct Case {
    /// 0 for limits, another number for tallies.
    pub host: u64,
    pub file: Vec<u8>,
    /// Type, first, count.
    pub ranges: Vec<[u16; 3]>,
    /// Guard, and then the three numbers of a limit or a tally.
    pub settings: Vec<[u16; 4]>,
    pub calls: Vec<Call>,
    /// What stands in the numbers that a call does not use, and, where it is above 65,535, in the place of 65,535, for which it is taken.
    pub noise: u64,
    /// So many numbers, at most, are left over behind ranges, settings and calls.
    pub left_over: usize,
}

impl Case {
    /// The case as the product is given it.
    pub fn input(&self) -> Input {
        Input {
            host: self.host,
            file: self.file.clone(),
            ranges: self.padded(self.ranges.iter().flatten().map(|&x| self.noisy(x)), 2),
            settings: self.padded(self.settings.iter().flatten().map(|&x| self.noisy(x)), 3),
            calls: self.padded(self.calls.iter().flat_map(|call| self.encoded(call)), 4),
        }
    }

    fn encoded(&self, call: &Call) -> [u64; 5] {
        let unused = self.noise;
        match *call {
            Call::Offer(event) => [
                0,
                self.noisy(event.label),
                self.noisy(event.count),
                self.noisy(event.first),
                self.noisy(event.second),
            ],
            Call::Menu(places) => [1, places, unused, unused, unused],
            Call::Open(ceiling) => [2, ceiling, unused, unused, unused],
            Call::Tell => [self.noise.max(3), unused, unused, unused, unused],
        }
    }

    /// A number of two bytes, or for the highest one some number above it.
    fn noisy(&self, number: u16) -> u64 {
        match number {
            u16::MAX => self.noise.max(u64::from(number)),
            _ => u64::from(number),
        }
    }

    fn padded(&self, numbers: impl Iterator<Item = u64>, most: usize) -> Vec<u64> {
        let left_over = self.left_over.min(most);
        numbers
            .chain(std::iter::repeat_n(self.noise, left_over))
            .collect()
    }
}

/// The text of a case as the second interpreter makes it.
pub fn text_of_second(case: &Case) -> Vec<u64> {
    let mut player = Player::new(case);
    for call in &case.calls {
        player.make(call);
    }
    player.text
}

/// The answer of a file's reading by the second interpreter: how many nodes it has.
pub fn reading_of_second(file: &[u8]) -> Result<usize, Fault> {
    Procedure::read(file).map(|procedure| procedure.node_count())
}

/// An answer as a text.
pub fn text_of_answer(answer: Result<usize, Fault>) -> Vec<u64> {
    match answer {
        Ok(count) => vec![0, count as u64],
        Err(fault) => vec![fault.number, fault.layer, fault.place],
    }
}

/// What a call came to.
pub enum Said {
    Answer(Result<usize, Fault>),
    Told { held: usize, finished: bool },
}

/// The second interpreter at play: it makes a case's calls one by one, and the text meanwhile.
pub struct Player {
    procedure: Procedure,
    ranges: Ranges,
    host: Host,
    run: Run,
    text: Vec<u64>,
    starts: Vec<usize>,
    accepted: bool,
}

impl Player {
    /// One that has read the file, and made ranges and settings, but no call.
    pub fn new(case: &Case) -> Player {
        let read = Procedure::read(&case.file);
        let mut player = Player {
            accepted: read.is_ok(),
            procedure: Procedure::empty(),
            ranges: Ranges::new(),
            host: match case.host {
                0 => Host::limits(),
                _ => Host::tallies(),
            },
            run: Run::new(),
            text: Vec::new(),
            starts: Vec::new(),
        };
        player.answer(read.as_ref().map(Procedure::node_count).map_err(|f| *f));
        if let Ok(procedure) = read {
            player.procedure = procedure;
        }
        for &[ty, first, count] in &case.ranges {
            let answer = player.ranges.set(ty, first, count);
            player.answer(answer.map(|()| 0));
        }
        for &[guard, one, two, three] in &case.settings {
            let answer = player.host.set(guard, one, two, three);
            player.answer(answer.map(|()| 0));
        }
        player
    }

    /// Makes a call.
    pub fn make(&mut self, call: &Call) -> Said {
        self.starts.push(self.text.len());
        match *call {
            Call::Offer(event) => {
                let answer = self.run.offer(&mut self.host, event);
                self.answer(answer)
            }
            Call::Menu(places) => self.menu(places.min(MOST_PLACES) as usize),
            Call::Open(ceiling) => {
                let ceiling = usize::try_from(ceiling).unwrap_or(usize::MAX);
                let answer = self.run.open(&self.procedure, &self.ranges, ceiling);
                self.answer(answer)
            }
            Call::Tell => self.tell(),
        }
    }

    /// Whether the file was accepted.
    pub fn accepted(&self) -> bool {
        self.accepted
    }

    /// The events that would be taken now, or refused for their many successors.
    pub fn whole_menu(&self) -> Vec<Event> {
        self.run.menu(&self.host, MOST_PLACES as usize).1
    }

    /// Where the text of each call begins.
    pub fn starts(&self) -> &[usize] {
        &self.starts
    }

    /// The text up to now.
    pub fn text(&self) -> &[u64] {
        &self.text
    }

    fn answer(&mut self, answer: Result<usize, Fault>) -> Said {
        self.text.extend(text_of_answer(answer));
        Said::Answer(answer)
    }

    fn menu(&mut self, places: usize) -> Said {
        let (answer, events) = self.run.menu(&self.host, places);
        self.text.extend(text_of_answer(answer));
        for event in events {
            let fields = [event.label, event.count, event.first, event.second];
            self.text.extend(fields.map(u64::from));
        }
        Said::Answer(answer)
    }

    fn tell(&mut self) -> Said {
        let rows = self.run.rows();
        let width = self.run.width();
        let finished = self.run.is_finished();
        self.text
            .extend([rows.len() as u64, width as u64, u64::from(finished)]);
        for row in &rows {
            self.text
                .extend(row.iter().take(width).map(|&cell| u64::from(cell)));
        }
        Said::Told {
            held: rows.len(),
            finished,
        }
    }
}
