//! Random procedures that are sound, or nearly always: all kinds of nodes, one within another.

use super::{Plan, CEILINGS};
use crate::draft::{Argument, Arrow, Draft, State};
use crate::random::Random;
use crate::record::NONE;

/// What the parts of one procedure share, so that they meet: few labels, types, guards and constants.
struct Palette {
    labels: Vec<Label>,
    types: Vec<[u16; 3]>,
    guards: Vec<u16>,
    constants: Vec<u16>,
    /// How many arrows of a hundred have a guard.
    guarded: usize,
    /// How many states of a hundred are final.
    finals: usize,
    /// How many binders may be one above the other; two, but where a refusal is wanted.
    binders: usize,
}

/// A label, and how many arguments its arrows mostly have.
#[derive(Clone, Copy)]
struct Label {
    number: u16,
    arguments: usize,
}

/// What a part may take up.
#[derive(Clone, Copy)]
struct Size {
    nodes: usize,
    width: usize,
    /// How many binders there are above.
    binders: usize,
}

struct Drawing<'a> {
    random: &'a mut Random,
    draft: Draft,
    palette: Palette,
    arrows_left: usize,
}

/// The kinds of nodes that have children.
#[derive(Clone, Copy)]
enum Kind {
    Automaton,
    Sequence,
    Closure,
    Guard,
    Choice,
    Synchronisation,
    QuantifiedChoice,
    QuantifiedSynchronisation,
}

const KINDS: [(usize, Kind); 8] = [
    (4, Kind::Automaton),
    (3, Kind::Sequence),
    (3, Kind::Closure),
    (2, Kind::Guard),
    (3, Kind::Choice),
    (4, Kind::Synchronisation),
    (3, Kind::QuantifiedChoice),
    (4, Kind::QuantifiedSynchronisation),
];

/// Draws a procedure.
pub fn draw(random: &mut Random) -> Plan {
    let palette = Palette::draw(random);
    let size = Size {
        nodes: match random.below(20) {
            0 => 64,
            1 => random.within(40, 70),
            2..6 => random.within(15, 40),
            _ => random.within(1, 14),
        },
        width: match random.below(20) {
            0 => random.within(49, 80),
            1..4 => random.within(40, 48),
            4..7 => random.within(20, 40),
            _ => random.within(3, 20),
        },
        binders: 0,
    };
    let mut drawing = Drawing {
        arrows_left: match random.percent(3) {
            true => 258,
            false => 256,
        },
        draft: Draft::new(),
        palette,
        random,
    };
    drawing.root(size);
    drawing.plan()
}

impl Palette {
    fn draw(random: &mut Random) -> Palette {
        let types = draw_types(random);
        let constants = draw_constants(random, &types);
        let labels = random.within(1, 5);
        Palette {
            labels: (0..labels).map(|_| Label::draw(random)).collect(),
            types,
            guards: (0..random.within(1, 3))
                .map(|_| random.pick(&[0, 1, 2, 3, 7, 30, 31]))
                .collect(),
            constants,
            guarded: random.pick(&[0, 5, 10, 25, 60]),
            finals: random.pick(&[25, 45, 60, 75]),
            binders: match random.percent(2) {
                true => 3,
                false => 2,
            },
        }
    }
}

impl Label {
    fn draw(random: &mut Random) -> Label {
        Label {
            number: match random.percent(85) {
                true => random.below(12) as u16,
                false => random.pick(&[0, 100, 254, 255]),
            },
            arguments: random.weighted(&[(6, 0), (4, 1), (1, 2)]),
        }
    }
}

/// One to three types with their ranges; one in many is unknown, or has no value.
fn draw_types(random: &mut Random) -> Vec<[u16; 3]> {
    let types = random.within(1, 3) as u16;
    let lowest = random.below(8) as u16;
    (0..types)
        .map(|number| {
            let count = match random.below(40) {
                0 => 0,
                1..6 => random.within(5, 15),
                6..8 => 16,
                _ => random.within(1, 4),
            } as u16;
            let first = match random.below(10) {
                // The last value is the highest that there is.
                0 => 65_535 - count.saturating_sub(1),
                1 => random.field().min(65_000),
                _ => random.below(6) as u16,
            };
            [(lowest + 3 * number) % 8, first, count]
        })
        .collect()
}

/// Constants for arrows, mostly values of the types.
fn draw_constants(random: &mut Random, types: &[[u16; 3]]) -> Vec<u16> {
    let constants = random.within(1, 2);
    (0..constants)
        .map(|_| match random.percent(80) {
            true => {
                let [_, first, count] = random.pick(types);
                first + random.below(usize::from(count.max(1))) as u16
            }
            false => random.pick(&[0, 1, 255, 256, 65_535]),
        })
        .collect()
}

impl Drawing<'_> {
    /// The whole: often started again and again, so that runs go on.
    fn root(&mut self, size: Size) {
        if size.nodes > 1 && size.width > 1 && self.random.percent(45) {
            let body = self.node(size.under(1));
            self.draft.closure(body);
        } else {
            self.node(size);
        }
    }

    /// A node with all that is below it.
    fn node(&mut self, size: Size) -> u16 {
        if size.nodes <= 1 || size.width <= 1 || self.random.percent(4) {
            return self.automaton(size);
        }
        match self.random.weighted(&KINDS) {
            Kind::Automaton => self.automaton(size),
            Kind::Sequence => {
                let (first, second) = self.both(size.under(1));
                self.draft.sequence(first, second)
            }
            Kind::Closure => {
                let body = self.node(size.under(1));
                self.draft.closure(body)
            }
            Kind::Guard => {
                let body = self.node(size.under(1));
                let guard = self.random.pick(&self.palette.guards);
                self.draft.guard(guard, body)
            }
            Kind::Choice => {
                let (left, right) = self.both(size.under(1));
                self.draft.choice(left, right)
            }
            Kind::Synchronisation => self.synchronisation(size),
            Kind::QuantifiedChoice => self.quantified_choice(size),
            Kind::QuantifiedSynchronisation => self.quantified_synchronisation(size),
        }
    }

    /// Two parts, each of which may take the whole width; the right one is sometimes drawn first.
    fn both(&mut self, size: Size) -> (u16, u16) {
        let (one, other) = size.with_nodes_split(self.random);
        self.pair(one, other)
    }

    fn pair(&mut self, left: Size, right: Size) -> (u16, u16) {
        if self.random.percent(80) {
            let left = self.node(left);
            (left, self.node(right))
        } else {
            let right = self.node(right);
            (self.node(left), right)
        }
    }

    fn synchronisation(&mut self, size: Size) -> u16 {
        let (mut left, mut right) = size.under(0).with_nodes_split(self.random);
        left.width = self.random.within(1, size.width - 1);
        right.width = size.width - left.width;
        let (left, right) = self.pair(left, right);
        let labels = self.set();
        self.draft.synchronisation(left, right, &labels)
    }

    fn quantified_choice(&mut self, size: Size) -> u16 {
        if size.binders >= self.palette.binders {
            return self.automaton(size);
        }
        let [ty, _, _] = self.random.pick(&self.palette.types);
        let body = self.node(size.under(1).bound());
        self.draft.quantified_choice(ty, body)
    }

    fn quantified_synchronisation(&mut self, size: Size) -> u16 {
        let [ty, _, count] = self.random.pick(&self.palette.types);
        let width = size.width / usize::from(count.max(1));
        if size.binders >= self.palette.binders || width == 0 {
            return self.automaton(size);
        }
        let body = self.node(
            Size {
                width,
                ..size.under(0)
            }
            .bound(),
        );
        let labels = self.set();
        self.draft.quantified_synchronisation(ty, body, &labels)
    }

    /// A set of labels: mostly some that arrows have.
    fn set(&mut self) -> Vec<u16> {
        let used = self.random.weighted(&[(3, 0), (6, 1), (3, 2), (1, 3)]);
        let mut labels: Vec<u16> = (0..used)
            .map(|_| self.random.pick(&self.palette.labels).number)
            .collect();
        if self.random.percent(4) {
            let more = self.random.within(1, 13);
            labels.extend((0..more).map(|_| self.random.below(256) as u16));
        }
        labels.sort_unstable();
        labels.dedup();
        labels
    }

    fn automaton(&mut self, size: Size) -> u16 {
        let states = self.random.weighted(&[
            (3, 1),
            (8, 2),
            (8, 3),
            (4, 4),
            (2, 5),
            (1, 9),
            (1, 12),
            (1, 32),
        ]);
        let mut nodes_left = size.nodes.saturating_sub(1);
        let states: Vec<State> = (0..states)
            .map(|_| self.state(size, &mut nodes_left))
            .collect();
        let start = match self.random.percent(80) {
            true => 0,
            false => self.random.below(states.len()) as u16,
        };
        let node = self.draft.automaton_from(start, &states);
        self.arrows(node, &states, size.binders);
        node
    }

    /// A state, sometimes with a diagram inside.
    fn state(&mut self, size: Size, nodes_left: &mut usize) -> State {
        let mut child = NONE;
        if *nodes_left > 0 && size.width > 1 && self.random.percent(40) {
            let nodes = self.random.within(1, *nodes_left);
            *nodes_left -= nodes;
            child = self.node(Size {
                nodes,
                width: size.width - 1,
                ..size
            });
        }
        let mark = match self.random.percent(self.palette.finals) {
            true if child != NONE && self.random.percent(60) => 2,
            true => 1,
            false => 0,
        };
        State { mark, child }
    }

    /// Arrows of an automaton: mostly one at least out of each state.
    fn arrows(&mut self, node: u16, states: &[State], binders: usize) {
        for from in 0..states.len() {
            let count = self.random.weighted(&[(1, 0), (6, 1), (4, 2), (2, 3)]);
            for _ in 0..count {
                self.arrow(node, from as u16, states, binders);
            }
        }
    }

    fn arrow(&mut self, node: u16, from: u16, states: &[State], binders: usize) {
        if self.draft.arrow_count() >= self.arrows_left {
            return;
        }
        let label = self.random.pick(&self.palette.labels);
        let to = self.random.below(states.len()) as u16;
        let mut arrow = Arrow::new(node, from, to, label.number);
        arrow.arguments = self.arguments(label, binders);
        arrow.wait = match states[usize::from(from)].child {
            NONE => self.random.percent(8),
            _ => self.random.percent(40),
        };
        if self.random.percent(self.palette.guarded) {
            arrow.guard = self.random.pick(&self.palette.guards);
        }
        match self.random.percent(80) {
            true => self.draft.arrow(arrow),
            false => {
                let behind = node + self.random.below(8) as u16;
                self.draft.arrow_behind(behind, arrow);
            }
        }
        if self.random.percent(4) {
            // The same way once more, by an arrow that differs in its guard alone, or not at all.
            self.draft.arrow_last(Arrow {
                guard: NONE,
                ..arrow
            });
        }
    }

    fn arguments(&mut self, label: Label, binders: usize) -> [Argument; 2] {
        let count = match self.random.percent(92) {
            true => label.arguments,
            false => self.random.below(3),
        };
        let mut arguments = [Argument::Absent; 2];
        for argument in &mut arguments[..count] {
            *argument = self.argument(binders);
        }
        arguments
    }

    fn argument(&mut self, binders: usize) -> Argument {
        let constant = Argument::Constant(self.random.pick(&self.palette.constants));
        match binders {
            0 => constant,
            1 => self.random.weighted(&[(1, constant), (4, Argument::Outer)]),
            _ => self
                .random
                .weighted(&[(1, constant), (3, Argument::Outer), (3, Argument::Inner)]),
        }
    }

    fn plan(self) -> Plan {
        let mut values = self.palette.constants;
        for &[_, first, count] in &self.palette.types {
            values.extend((0..count).map(|place| first + place));
        }
        let mut guards = self.palette.guards;
        guards.sort_unstable();
        guards.dedup();
        Plan {
            draft: self.draft,
            ranges: self.palette.types,
            guards,
            labels: self.palette.labels.iter().map(|l| l.number).collect(),
            values,
            ceilings: CEILINGS.to_vec(),
            most_calls: 60,
            often: None,
        }
    }
}

impl Size {
    /// What is left below a node that takes so many cells itself.
    fn under(self, cells: usize) -> Size {
        Size {
            nodes: self.nodes - 1,
            width: self.width - cells,
            ..self
        }
    }

    fn bound(self) -> Size {
        Size {
            binders: self.binders + 1,
            ..self
        }
    }

    fn with_nodes_split(self, random: &mut Random) -> (Size, Size) {
        // Two parts take two nodes at least, even if there is one too few left.
        let nodes = self.nodes.max(2);
        let left = random.within(1, nodes - 1);
        (
            Size {
                nodes: left,
                ..self
            },
            Size {
                nodes: nodes - left,
                ..self
            },
        )
    }
}
