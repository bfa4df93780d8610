//! Drawing a procedure by hand: nodes and arrows are added one by one, and in the end there is a file.

use crate::record::{
    file_of, Record, ARROW, AUTOMATON, CHOICE, CLOSURE, GUARD, NONE, QUANTIFIED_CHOICE,
    QUANTIFIED_SYNCHRONISATION, SEQUENCE, SYNCHRONISATION,
};

/// A state of an automaton: its mark and its child.
#[derive(Clone, Copy, Debug)]
pub struct State {
    pub mark: u16,
    pub child: u16,
}

impl State {
    /// Not final, without a child.
    pub const PLAIN: State = State {
        mark: 0,
        child: NONE,
    };

    /// Shallow final, without a child.
    pub const FINAL: State = State {
        mark: 1,
        child: NONE,
    };

    /// Final when its child is finished.
    pub fn deep(child: u16) -> State {
        State { mark: 2, child }
    }
}

/// An argument of an arrow.
#[derive(Clone, Copy, Debug, PartialEq, Eq)]
pub enum Argument {
    Absent,
    Constant(u16),
    Outer,
    Inner,
}

impl Argument {
    fn fields(self) -> [u16; 2] {
        match self {
            Argument::Absent => [0, 0],
            Argument::Constant(value) => [1, value],
            Argument::Outer => [2, 0],
            Argument::Inner => [3, 0],
        }
    }
}

/// An arrow of an automaton.
#[derive(Clone, Copy, Debug)]
pub struct Arrow {
    pub node: u16,
    pub from: u16,
    pub to: u16,
    pub label: u16,
    pub wait: bool,
    pub guard: u16,
    pub arguments: [Argument; 2],
}

impl Arrow {
    /// An arrow that does not wait, without guard and arguments.
    pub fn new(node: u16, from: u16, to: u16, label: u16) -> Arrow {
        Arrow {
            node,
            from,
            to,
            label,
            wait: false,
            guard: NONE,
            arguments: [Argument::Absent; 2],
        }
    }

    /// The same with one argument.
    pub fn with(self, argument: Argument) -> Arrow {
        self.with_both(argument, Argument::Absent)
    }

    /// The same with two arguments.
    pub fn with_both(mut self, first: Argument, second: Argument) -> Arrow {
        self.arguments = [first, second];
        self
    }

    /// The same with a guard.
    pub fn guarded(mut self, guard: u16) -> Arrow {
        self.guard = guard;
        self
    }

    /// The same, but waiting for the child of the state that it leaves.
    pub fn waiting(mut self) -> Arrow {
        self.wait = true;
        self
    }

    fn record(&self) -> Record {
        let mut fields = vec![
            self.node,
            self.from,
            self.to,
            self.label,
            u16::from(self.wait),
            self.guard,
        ];
        fields.extend(self.arguments.iter().flat_map(|argument| argument.fields()));
        Record::new(ARROW, fields)
    }
}

/// A procedure that is being drawn. Each call that adds a node answers its number.
#[derive(Clone, Default)]
pub struct Draft {
    nodes: Vec<Record>,
    // Each arrow with the number of the node behind which it is to stand.
    arrows: Vec<(u16, Record)>,
}

impl Draft {
    pub fn new() -> Draft {
        Draft::default()
    }

    pub fn node_count(&self) -> usize {
        self.nodes.len()
    }

    pub fn arrow_count(&self) -> usize {
        self.arrows.len()
    }

    /// An automaton that starts in its first state.
    pub fn automaton(&mut self, states: &[State]) -> u16 {
        self.automaton_from(0, states)
    }

    pub fn automaton_from(&mut self, start: u16, states: &[State]) -> u16 {
        let mut fields = vec![states.len() as u16, start];
        fields.extend(states.iter().flat_map(|state| [state.mark, state.child]));
        self.node(AUTOMATON, fields)
    }

    pub fn sequence(&mut self, first: u16, second: u16) -> u16 {
        self.node(SEQUENCE, vec![first, second])
    }

    pub fn closure(&mut self, body: u16) -> u16 {
        self.node(CLOSURE, vec![body])
    }

    pub fn guard(&mut self, guard: u16, body: u16) -> u16 {
        self.node(GUARD, vec![guard, body])
    }

    pub fn choice(&mut self, left: u16, right: u16) -> u16 {
        self.node(CHOICE, vec![left, right])
    }

    pub fn synchronisation(&mut self, left: u16, right: u16, labels: &[u16]) -> u16 {
        self.node(SYNCHRONISATION, with_set(left, right, labels))
    }

    pub fn quantified_choice(&mut self, ty: u16, body: u16) -> u16 {
        self.node(QUANTIFIED_CHOICE, vec![ty, body])
    }

    pub fn quantified_synchronisation(&mut self, ty: u16, body: u16, labels: &[u16]) -> u16 {
        self.node(QUANTIFIED_SYNCHRONISATION, with_set(ty, body, labels))
    }

    /// The parts joined by synchronisations, one after the other from the left.
    pub fn joined(&mut self, parts: &[u16], labels: &[u16]) -> u16 {
        let (&first, others) = parts.split_first().expect("a part");
        others.iter().fold(first, |left, &right| {
            self.synchronisation(left, right, labels)
        })
    }

    /// An arrow whose record stands behind that of its automaton.
    pub fn arrow(&mut self, arrow: Arrow) {
        self.arrow_behind(arrow.node, arrow);
    }

    /// An arrow whose record stands behind that of a later node.
    pub fn arrow_behind(&mut self, node: u16, arrow: Arrow) {
        self.arrows.push((node, arrow.record()));
    }

    /// An arrow whose record comes last.
    pub fn arrow_last(&mut self, arrow: Arrow) {
        self.arrow_behind(NONE, arrow);
    }

    /// The records in file order.
    pub fn records(&self) -> Vec<Record> {
        let mut records = Vec::new();
        let mut arrows = self.arrows.clone();
        arrows.sort_by_key(|(behind, _)| *behind);
        let mut arrows = arrows.into_iter().peekable();
        for (number, node) in self.nodes.iter().enumerate() {
            records.push(node.clone());
            while let Some((_, arrow)) = arrows.next_if(|(node, _)| usize::from(*node) <= number) {
                records.push(arrow);
            }
        }
        records.extend(arrows.map(|(_, arrow)| arrow));
        records
    }

    pub fn file(&self) -> Vec<u8> {
        file_of(&self.records())
    }

    fn node(&mut self, kind: u16, fields: Vec<u16>) -> u16 {
        self.nodes.push(Record::new(kind, fields));
        self.nodes.len() as u16 - 1
    }
}

fn with_set(one: u16, other: u16, labels: &[u16]) -> Vec<u16> {
    let mut fields = vec![one, other, labels.len() as u16];
    fields.extend(labels);
    fields
}
