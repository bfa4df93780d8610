//! Random bytes, files, settings and calls: nothing panics, and what must agree agrees.

use super::super::rules::{Diagram, Offer, Rows};
use super::*;

/// A xorshift generator, so that every run of the tests is the same.
struct Dice(u64);

impl Dice {
    fn below(&mut self, bound: usize) -> usize {
        self.0 ^= self.0 << 13;
        self.0 ^= self.0 >> 7;
        self.0 ^= self.0 << 17;
        (self.0 >> 11) as usize % bound.max(1)
    }

    fn small(&mut self, bound: u16) -> u16 {
        self.below(usize::from(bound)) as u16
    }

    fn chance(&mut self, one_in: usize) -> bool {
        self.below(one_in) == 0
    }
}

/// A tree of parts, drawn from the inside out.
struct Drawer<'d> {
    dice: &'d mut Dice,
    records: Vec<Record>,
    nodes: u16,
}

impl Drawer<'_> {
    fn put(&mut self, record: Record) -> u16 {
        self.records.push(record);
        self.nodes += 1;
        self.nodes - 1
    }

    fn labels(&mut self) -> Vec<u16> {
        (0..4).filter(|_| self.dice.chance(3)).collect()
    }

    /// A part that has `depth` levels at most, under some binders.
    fn part(&mut self, depth: usize, binders: u16) -> u16 {
        let kind = if depth == 0 { 0 } else { self.dice.below(9) };
        let below = depth.saturating_sub(1);
        let record = match kind {
            2 => sequence(self.part(below, binders), self.part(below, binders)),
            3 => closure(self.part(below, binders)),
            4 => guard(self.dice.small(4), self.part(below, binders)),
            5 => choice(self.part(below, binders), self.part(below, binders)),
            6 => {
                let (left, right) = (self.part(below, binders), self.part(below, binders));
                synchronisation(left, right, &self.labels())
            }
            7 if binders < 2 => some(self.dice.small(2), self.part(below, binders + 1)),
            8 if binders < 2 => {
                let body = self.part(below, binders + 1);
                every(self.dice.small(2), body, &self.labels())
            }
            _ => return self.automaton(below, binders),
        };
        self.put(record)
    }

    fn automaton(&mut self, below: usize, binders: u16) -> u16 {
        let count = 1 + self.dice.small(4);
        let states: Vec<(u16, u16)> = (0..count)
            .map(|_| {
                if below > 0 && self.dice.chance(4) {
                    (self.dice.small(3), self.part(below, binders))
                } else {
                    (self.dice.small(2), NONE)
                }
            })
            .collect();
        let start = self.dice.small(count);
        let node = self.put(automaton(start, &states));
        for _ in 0..self.dice.below(6) {
            let arrow = self.arrow(node, count, binders);
            self.records.push(arrow);
        }
        node
    }

    fn arrow(&mut self, node: u16, count: u16, binders: u16) -> Record {
        let first = self.argument(binders);
        let second = match first {
            ABSENT => ABSENT,
            _ => self.argument(binders),
        };
        let (from, to) = (self.dice.small(count), self.dice.small(count));
        let label = self.dice.small(4);
        let arrow = arrow_with(node, from, to, label, first, second);
        let arrow = but(arrow, 5, self.dice.small(2));
        match self.dice.below(3) {
            0 => guarded(arrow, self.dice.small(4)),
            _ => arrow,
        }
    }

    fn argument(&mut self, binders: u16) -> (u16, u16) {
        match self.dice.below(6) {
            0 => (1, self.dice.small(3)),
            1 if binders >= 1 => OUTER,
            2 if binders >= 2 => INNER,
            _ => ABSENT,
        }
    }
}

fn drawing(dice: &mut Dice) -> Vec<Record> {
    let depth = 1 + dice.below(5);
    let mut drawer = Drawer {
        dice,
        records: Vec::new(),
        nodes: 0,
    };
    drawer.part(depth, 0);
    drawer.records
}

fn random_ranges(dice: &mut Dice) -> Ranges {
    ranges(&[
        (0, dice.small(3), 1 + dice.small(3)),
        (1, dice.small(3), 1 + dice.small(3)),
    ])
}

fn random_host(dice: &mut Dice) -> Host {
    let limits = dice.chance(2);
    let mut host = if limits {
        Host::limits()
    } else {
        Host::tallies()
    };
    for guard in 0..4 {
        let (second, third) = if limits {
            (1 + dice.small(4), dice.small(3))
        } else {
            (dice.small(4), dice.small(5))
        };
        host.set(guard, second, third, dice.small(3))
            .expect("a setting");
    }
    host
}

/// Every event that a random drawing can have an arrow for, and some more.
fn all_events() -> Vec<Event> {
    let mut events = Vec::new();
    for label in 0..4 {
        events.push(event(label, &[]));
        for first in 0..6 {
            events.push(event(label, &[first]));
            events.extend((0..6).map(|second| event(label, &[first, second])));
        }
    }
    events.sort();
    events
}

#[test]
fn cuts_agree_with_all_successors_and_menus_with_offers() {
    let mut dice = Dice(0x9e37_79b9_7f4a_7c15);
    let events = all_events();
    let (mut opened, mut moved, mut cut) = (0, 0, 0);
    for _ in 0..3_000 {
        let Ok(procedure) = Procedure::read(&file(&drawing(&mut dice))) else {
            continue;
        };
        let ranges = random_ranges(&mut dice);
        let mut host = random_host(&mut dice);
        let Ok(diagram) = Diagram::open(&procedure, &ranges) else {
            continue;
        };
        let mut run = Run::new();
        let ceiling = 1 + dice.below(12);
        assert_eq!(run.open(&procedure, &ranges, ceiling), Ok(1));
        opened += 1;
        for _ in 0..6 {
            let held: Rows = run.rows().into_iter().collect();
            let count = |event: Event, wanted: usize| {
                let mut offer = Offer::new(&diagram, &host, event, wanted);
                offer.successors_of_all(&held)
            };
            let all: Vec<Rows> = events.iter().map(|&event| count(event, 4_000)).collect();
            for (&event, successors) in events.iter().zip(&all) {
                for wanted in [1, 2, 3, 7] {
                    let some = count(event, wanted);
                    assert!(some.is_subset(successors));
                    assert_eq!(some.len(), successors.len().min(wanted));
                    cut += usize::from(successors.len() > wanted);
                }
            }
            let menu: Vec<Event> = events
                .iter()
                .zip(&all)
                .filter(|(_, successors)| !successors.is_empty())
                .map(|(&event, _)| event)
                .collect();
            assert_eq!(run.menu(&host, 100_000), (Ok(menu.len()), menu.clone()));
            if menu.is_empty() {
                break;
            }
            let chosen = menu[dice.below(menu.len())];
            let place = events.binary_search(&chosen).expect("an event of the menu");
            let answer = run.offer(&mut host, chosen);
            if all[place].len() > ceiling {
                assert_eq!(answer, Err(fault(17, 3, ceiling as u64)));
            } else {
                assert_eq!(answer, Ok(all[place].len()));
                assert!(run.rows().iter().eq(&all[place]));
                moved += 1;
            }
        }
    }
    // The loop is to have met what it is for.
    assert!(
        opened > 1_500 && moved > 1_500 && cut > 1_500,
        "{opened} {moved} {cut}"
    );
}

#[test]
fn no_bytes_are_too_much() {
    let mut dice = Dice(0x2545_f491_4f6c_dd1d);
    let mut accepted = 0;
    for _ in 0..20_000 {
        let mut bytes = file(&drawing(&mut dice));
        for _ in 0..dice.below(3) {
            let place = dice.below(bytes.len());
            bytes[place] = dice.below(256) as u8;
        }
        if dice.chance(8) {
            bytes.truncate(dice.below(bytes.len()));
        }
        let procedure = Procedure::read(&bytes).unwrap_or_else(|_| Procedure::empty());
        accepted += usize::from(procedure.node_count() > 0);
        drive(&mut dice, &procedure);
    }
    assert!(accepted > 5_000);
    for _ in 0..2_000 {
        let length = dice.below(200);
        let bytes: Vec<u8> = (0..length).map(|_| dice.small(10) as u8).collect();
        let _ = Procedure::read(&bytes);
    }
}

/// Opens with any settings and ceiling, and makes any calls.
fn drive(dice: &mut Dice, procedure: &Procedure) {
    let any = |dice: &mut Dice| match dice.below(4) {
        0 => dice.small(u16::MAX),
        _ => dice.small(20),
    };
    let mut ranges = Ranges::new();
    for _ in 0..6 {
        let _ = ranges.set(dice.small(9), any(dice), any(dice));
    }
    let mut host = random_host(dice);
    let _ = host.set(any(dice), any(dice), any(dice), any(dice));
    let mut run = Run::new();
    let _ = run.open(procedure, &ranges, dice.below(140));
    for _ in 0..4 {
        let (_, menu) = run.menu(&host, dice.below(40));
        let listed = menu.get(dice.below(menu.len())).copied();
        let wild = Event {
            label: any(dice),
            count: dice.small(4),
            first: dice.small(3),
            second: dice.small(3),
        };
        let offered = if dice.chance(5) { None } else { listed };
        let _ = run.offer(&mut host, offered.unwrap_or(wild));
        assert!(run.rows().iter().all(|row| row.len() == run.width()));
        let _ = run.is_finished();
    }
}
