//! What the benchmark measures: diagrams, each with the calls that lead somewhere and those that are made there again and again.

use crate::case::{Call, Case};
use crate::draft::{Argument, Arrow, Draft, State};
use crate::second::Event;

/// A line of the benchmark's table.
#[derive(Clone)]
pub struct Line {
    pub name: String,
    /// The case without calls.
    pub setup: Case,
    /// The shortest list of calls that leads where the others are made; it begins with an opening.
    pub lead: Vec<Call>,
    /// What is made again and again.
    pub cycle: Vec<Call>,
    /// So many of the cycle's first calls are measured one by one as well.
    pub singles: usize,
    /// The cycle may be made so many times.
    pub most_cycles: usize,
}

impl Line {
    fn new(name: &str, setup: &Case, lead: &[Call], cycle: &[Call]) -> Line {
        Line {
            name: name.to_string(),
            setup: setup.clone(),
            lead: lead.to_vec(),
            cycle: cycle.to_vec(),
            singles: 1,
            most_cycles: 10_000,
        }
    }

    fn with_singles(mut self, singles: usize) -> Line {
        self.singles = singles;
        self
    }

    /// The case with the leading calls and so many of the others, from the first one again when they are through.
    pub fn case(&self, calls: usize) -> Case {
        let repeated = self.cycle.iter().cycle().take(calls);
        Case {
            calls: self.lead.iter().chain(repeated).copied().collect(),
            ..self.setup.clone()
        }
    }
}

/// All lines, in the order of the table.
pub fn all() -> Vec<Line> {
    let diagrams = [
        axles(),
        guarded_axles(),
        bench(),
        instances(1, "16 instances with two successors each"),
        instances(8, "the same with each arrow drawn 8 times"),
        one_stuck(),
        readings(),
        readings_together(),
        chain(),
        full_row(),
        long_menu(),
    ];
    diagrams.concat()
}

const OPEN: Call = Call::Open(128);

fn offer(label: u16) -> Call {
    Call::Offer(Event {
        label,
        count: 0,
        first: 0,
        second: 0,
    })
}

fn offer_with(label: u16, first: u16) -> Call {
    Call::Offer(Event {
        label,
        count: 1,
        first,
        second: 0,
    })
}

fn setup(draft: &Draft, ranges: &[[u16; 3]]) -> Case {
    Case {
        file: draft.file(),
        ranges: ranges.to_vec(),
        ..Case::default()
    }
}

const SELECT: u16 = 2;
const MEASURE: u16 = 3;
const STORE: u16 = 4;

/// One axle after the other, of six: selected, measured some times, stored.
fn draw_axles(guard: Option<u16>) -> Draft {
    let mut draft = Draft::new();
    let axle = draft.automaton(&[State::PLAIN, State::PLAIN, State::FINAL]);
    let measure = Arrow::new(axle, 1, 1, MEASURE).with(Argument::Outer);
    draft.arrow(Arrow::new(axle, 0, 1, SELECT).with(Argument::Outer));
    draft.arrow(guard.map_or(measure, |guard| measure.guarded(guard)));
    draft.arrow(Arrow::new(axle, 1, 2, STORE));
    let any = draft.quantified_choice(0, axle);
    draft.closure(any);
    draft
}

/// All six axles, each measured three times.
fn all_axles() -> Vec<Call> {
    (1..=6)
        .flat_map(|axle| {
            let measure = offer_with(MEASURE, axle);
            [
                offer_with(SELECT, axle),
                measure,
                measure,
                measure,
                offer(STORE),
            ]
        })
        .collect()
}

const AXLES: [u16; 3] = [0, 1, 6];

fn axles() -> Vec<Line> {
    let setup = setup(&draw_axles(None), &[AXLES]);
    vec![
        Line::new("axles: offers", &setup, &[OPEN], &all_axles()).with_singles(5),
        Line::new(
            "axles: menus of 6 events",
            &setup,
            &[OPEN],
            &[Call::Menu(6)],
        ),
    ]
}

fn guarded_axles() -> Vec<Line> {
    let mut setup = setup(&draw_axles(Some(0)), &[AXLES]);
    setup.host = 1;
    // More selections than a play makes.
    setup.settings = vec![[0, SELECT, 65_535, 0], [1, MEASURE, 65_535, 0]];
    let lead = [OPEN, offer_with(SELECT, 6)];
    vec![
        Line::new("axles with tallies: offers", &setup, &[OPEN], &all_axles()).with_singles(5),
        Line::new(
            "axles with tallies: menus of 2 events",
            &setup,
            &lead,
            &[Call::Menu(2)],
        ),
    ]
}

const DRIVE_IN: u16 = 1;
const DRIVE_OUT: u16 = 9;

/// A side of a bench: in, some test of 16, out once the test is through.
fn draw_side(draft: &mut Draft, ty: u16, labels: [u16; 3]) -> u16 {
    let test = draft.automaton(&[State::PLAIN, State::PLAIN, State::FINAL]);
    let [begin, read, end] = labels;
    draft.arrow(Arrow::new(test, 0, 1, begin).with(Argument::Outer));
    draft.arrow(Arrow::new(test, 1, 1, read).with(Argument::Outer));
    draft.arrow(Arrow::new(test, 1, 2, end));
    let tests = draft.quantified_choice(ty, test);
    let side = draft.automaton(&[State::PLAIN, State::deep(tests), State::FINAL]);
    draft.arrow(Arrow::new(side, 0, 1, DRIVE_IN));
    draft.arrow(Arrow::new(side, 1, 2, DRIVE_OUT).waiting());
    side
}

fn bench() -> Vec<Line> {
    let mut draft = Draft::new();
    let left = draw_side(&mut draft, 0, [3, 4, 5]);
    let right = draw_side(&mut draft, 1, [6, 7, 8]);
    let sides = draft.synchronisation(left, right, &[DRIVE_IN, DRIVE_OUT]);
    draft.closure(sides);
    let setup = setup(&draft, &[[0, 1, 16], [1, 1, 16]]);
    let cycle = [
        offer(DRIVE_IN),
        offer_with(3, 16),
        offer_with(6, 1),
        offer_with(4, 16),
        offer_with(7, 1),
        offer(5),
        offer(8),
        offer(DRIVE_OUT),
    ];
    let inside = [OPEN, offer(DRIVE_IN)];
    vec![
        Line::new("bench of two sides: offers", &setup, &[OPEN], &cycle).with_singles(8),
        Line::new(
            "bench of two sides: menus of 32 events",
            &setup,
            &inside,
            &[Call::Menu(32)],
        ),
    ]
}

const TOGETHER: u16 = 10;
const ALONE: u16 = 11;

/// Instances that all move together, with two successors each, or by itself into a state that none leaves.
fn draw_instances(times: usize) -> Draft {
    let mut draft = Draft::new();
    let instance = draft.automaton(&[State::PLAIN; 3]);
    for _ in 0..times {
        for (from, to) in [(0, 0), (0, 1), (1, 0), (1, 1)] {
            draft.arrow(Arrow::new(instance, from, to, TOGETHER));
        }
    }
    draft.arrow(Arrow::new(instance, 0, 2, ALONE).with(Argument::Outer));
    draft.quantified_synchronisation(0, instance, &[TOGETHER]);
    draft
}

const SIXTEEN: [u16; 3] = [0, 1, 16];

fn instances(times: usize, name: &str) -> Vec<Line> {
    let setup = setup(&draw_instances(times), &[SIXTEEN]);
    vec![
        Line::new(
            &format!("{name}: offers refused by 17"),
            &setup,
            &[OPEN],
            &[offer(TOGETHER)],
        ),
        Line::new(
            &format!("{name}: menus of 17 events"),
            &setup,
            &[OPEN],
            &[Call::Menu(17)],
        ),
    ]
}

fn one_stuck() -> Vec<Line> {
    let setup = setup(&draw_instances(1), &[SIXTEEN]);
    // The last instance is the one that is found stuck last.
    let lead = [OPEN, offer_with(ALONE, 16)];
    vec![
        Line::new(
            "16 instances, the last one stuck: offers refused by 16",
            &setup,
            &lead,
            &[offer(TOGETHER)],
        ),
        Line::new(
            "16 instances, the last one stuck: menus of 15 events",
            &setup,
            &lead,
            &[Call::Menu(15)],
        ),
    ]
}

/// Seven parts of two states, each of which may go to either: by a label of its own, and by a common one.
fn draw_readings(set: &[u16]) -> Draft {
    let mut draft = Draft::new();
    let parts: Vec<u16> = (0..7)
        .map(|number| {
            let part = draft.automaton(&[State::PLAIN; 2]);
            for (from, to) in [(0, 0), (0, 1), (1, 0), (1, 1)] {
                draft.arrow(Arrow::new(part, from, to, number));
                draft.arrow(Arrow::new(part, from, to, TOGETHER));
            }
            part
        })
        .collect();
    draft.joined(&parts, set);
    draft
}

fn readings() -> Vec<Line> {
    let setup = setup(&draw_readings(&[]), &[]);
    let each: Vec<Call> = (0..7).map(offer).collect();
    let lead = [&[OPEN], &each[..]].concat();
    vec![
        Line::new(
            "7 parts side by side, 128 states held: offers to one part",
            &setup,
            &lead,
            &each,
        )
        .with_singles(7),
        Line::new(
            "7 parts side by side, 128 states held: menus of 8 events",
            &setup,
            &lead,
            &[Call::Menu(8)],
        ),
    ]
}

fn readings_together() -> Vec<Line> {
    let setup = setup(&draw_readings(&[TOGETHER]), &[]);
    let lead = [OPEN, offer(TOGETHER)];
    vec![
        Line::new(
            "7 parts in a set, 128 states held: offers to all parts",
            &setup,
            &lead,
            &[offer(TOGETHER)],
        ),
        Line::new(
            "7 parts in a set, 128 states held: menus of 8 events",
            &setup,
            &lead,
            &[Call::Menu(8)],
        ),
    ]
}

/// As many automata of one cell as the 64 nodes have room for, with the synchronisations that join them: 32.
fn chain() -> Vec<Line> {
    let mut draft = Draft::new();
    let parts: Vec<u16> = (0..32).map(|_| moving(&mut draft)).collect();
    draft.joined(&parts, &[TOGETHER]);
    together("32 automata in one set", &setup(&draft, &[]))
}

/// As many cells as a row has, each an automaton's: 48.
fn full_row() -> Vec<Line> {
    let mut draft = Draft::new();
    let parts: Vec<u16> = (0..3)
        .map(|_| {
            let body = moving(&mut draft);
            draft.quantified_synchronisation(0, body, &[TOGETHER])
        })
        .collect();
    draft.joined(&parts, &[TOGETHER]);
    together(
        "3 times 16 instances in one set",
        &setup(&draft, &[SIXTEEN]),
    )
}

fn moving(draft: &mut Draft) -> u16 {
    let part = draft.automaton(&[State::PLAIN; 2]);
    draft.arrow(Arrow::new(part, 0, 1, TOGETHER));
    draft.arrow(Arrow::new(part, 1, 0, TOGETHER));
    part
}

fn together(name: &str, setup: &Case) -> Vec<Line> {
    vec![
        Line::new(
            &format!("{name}: offers"),
            setup,
            &[OPEN],
            &[offer(TOGETHER)],
        ),
        Line::new(
            &format!("{name}: menus of 1 event"),
            setup,
            &[OPEN],
            &[Call::Menu(1)],
        ),
    ]
}

/// The longest menu that there is: 256 arrows with 16 times 16 values each.
fn long_menu() -> Vec<Line> {
    let mut draft = Draft::new();
    let body = draft.automaton(&[State::PLAIN]);
    for label in 0..256 {
        let arrow = Arrow::new(body, 0, 0, label);
        draft.arrow(arrow.with_both(Argument::Outer, Argument::Inner));
    }
    let inner = draft.quantified_choice(1, body);
    draft.quantified_choice(0, inner);
    let setup = setup(&draft, &[[0, 0, 16], [1, 0, 16]]);
    vec![Line::new(
        "256 arrows under two binders: menu of 65,536 events",
        &setup,
        &[OPEN],
        &[Call::Menu(65_536)],
    )]
}
