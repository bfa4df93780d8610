//! Reads a procedure file: questions 1 to 10.

use std::collections::BTreeSet;

use super::Fault;

const MOST_BYTES: usize = 16_384;
const MOST_NODES: usize = 64;
const MOST_ARROWS: usize = 256;
/// Stands where there is no node and where there is no guard.
const NONE: u16 = 65_535;

/// What a file draws. The last node is the root.
#[derive(Clone, Debug, Default)]
pub struct Procedure {
    pub(super) nodes: Vec<Node>,
    pub(super) arrows: Vec<Arrow>,
    /// For each node, the node whose child it is.
    parents: Vec<Option<usize>>,
}

#[derive(Clone, Debug)]
pub(super) enum Node {
    Automaton {
        start: usize,
        states: Vec<State>,
    },
    Sequence {
        first: usize,
        second: usize,
    },
    Closure {
        body: usize,
    },
    Guard {
        guard: u16,
        body: usize,
    },
    Choice {
        left: usize,
        right: usize,
    },
    Synchronisation {
        left: usize,
        right: usize,
        labels: BTreeSet<u16>,
    },
    QuantifiedChoice {
        ty: u16,
        body: usize,
    },
    QuantifiedSynchronisation {
        ty: u16,
        body: usize,
        labels: BTreeSet<u16>,
    },
}

#[derive(Clone, Copy, Debug)]
pub(super) struct State {
    pub mark: Mark,
    pub child: Option<usize>,
}

#[derive(Clone, Copy, Debug, PartialEq, Eq)]
pub(super) enum Mark {
    None,
    Shallow,
    Deep,
}

#[derive(Clone, Debug)]
pub(super) struct Arrow {
    pub node: usize,
    pub from: usize,
    pub to: usize,
    pub label: u16,
    pub wait: bool,
    pub guard: Option<u16>,
    pub arguments: [Option<Argument>; 2],
}

#[derive(Clone, Copy, Debug, PartialEq, Eq)]
pub(super) enum Argument {
    Constant(u16),
    Outer,
    Inner,
}

impl Node {
    /// The children in the order in which they stand in the record.
    fn children(&self) -> Vec<usize> {
        match self {
            Node::Automaton { states, .. } => {
                states.iter().filter_map(|state| state.child).collect()
            }
            Node::Sequence { first, second } => vec![*first, *second],
            Node::Choice { left, right } | Node::Synchronisation { left, right, .. } => {
                vec![*left, *right]
            }
            Node::Closure { body }
            | Node::Guard { body, .. }
            | Node::QuantifiedChoice { body, .. }
            | Node::QuantifiedSynchronisation { body, .. } => vec![*body],
        }
    }

    /// The type of a binder; none for the other nodes.
    pub(super) fn bound_type(&self) -> Option<u16> {
        match self {
            Node::QuantifiedChoice { ty, .. } | Node::QuantifiedSynchronisation { ty, .. } => {
                Some(*ty)
            }
            _ => None,
        }
    }
}

impl Arrow {
    fn names(&self, argument: Argument) -> bool {
        self.arguments.contains(&Some(argument))
    }
}

impl Procedure {
    pub fn empty() -> Procedure {
        Procedure::default()
    }

    pub fn read(bytes: &[u8]) -> Result<Procedure, Fault> {
        if bytes.len() > MOST_BYTES {
            return Err(Fault::new(1, 0));
        }
        let mut procedure = Procedure::empty();
        let mut rest = bytes;
        let mut number = 0;
        while !rest.is_empty() {
            let (record, after) = split_record(rest).ok_or(Fault::new(2, number))?;
            procedure
                .take(record)
                .map_err(|question| Fault::new(question, number))?;
            rest = after;
            number += 1;
        }
        procedure.ask_of_the_whole()?;
        Ok(procedure)
    }

    pub fn node_count(&self) -> usize {
        self.nodes.len()
    }

    /// The binders above a node, the outermost first.
    pub(super) fn binders_above(&self, node: usize) -> Vec<usize> {
        let mut binders = Vec::new();
        let mut above = self.parents[node];
        while let Some(parent) = above {
            if self.nodes[parent].bound_type().is_some() {
                binders.insert(0, parent);
            }
            above = self.parents[parent];
        }
        binders
    }

    /// Asks questions 3 to 7 of a record, and takes what it draws. Answers the question that
    /// fails.
    fn take(&mut self, record: &[u8]) -> Result<(), u64> {
        let fields: Vec<u16> = record
            .chunks_exact(2)
            .map(|pair| u16::from_le_bytes([pair[0], pair[1]]))
            .collect();
        // Question 2 sees to it that there is a kind.
        let (&kind, body) = fields.split_first().ok_or(2u64)?;
        if !(1..=9).contains(&kind) {
            return Err(3);
        }
        if expected_length(kind, body) != Some(record.len()) {
            return Err(4);
        }
        if kind == 9 {
            self.take_arrow(body)
        } else {
            self.take_node(kind, body)
        }
    }

    fn take_node(&mut self, kind: u16, body: &[u16]) -> Result<(), u64> {
        let node = read_node(kind, body).ok_or(5u64)?;
        if self.nodes.len() == MOST_NODES {
            return Err(5);
        }
        let number = self.nodes.len();
        for child in node.children() {
            // A child that stands twice in this record has a parent by the second time.
            if child >= number || self.parents[child].is_some() {
                return Err(6);
            }
            self.parents[child] = Some(number);
        }
        self.nodes.push(node);
        self.parents.push(None);
        Ok(())
    }

    fn take_arrow(&mut self, body: &[u16]) -> Result<(), u64> {
        let arrow = read_arrow(body).ok_or(5u64)?;
        if self.arrows.len() == MOST_ARROWS {
            return Err(5);
        }
        match self.nodes.get(arrow.node) {
            Some(Node::Automaton { states, .. })
                if arrow.from < states.len() && arrow.to < states.len() =>
            {
                self.arrows.push(arrow);
                Ok(())
            }
            _ => Err(7),
        }
    }

    /// Asks questions 8 to 10, each of all nodes or arrows before the next.
    fn ask_of_the_whole(&self) -> Result<(), Fault> {
        let root = match self.nodes.len() {
            0 => return Err(Fault::new(8, usize::from(NONE))),
            count => count - 1,
        };
        if let Some(lone) = (0..root).find(|&node| self.parents[node].is_none()) {
            return Err(Fault::new(8, lone));
        }
        let too_deep = |&node: &usize| {
            self.nodes[node].bound_type().is_some() && self.binders_above(node).len() > 1
        };
        if let Some(binder) = (0..=root).find(too_deep) {
            return Err(Fault::new(9, binder));
        }
        match self.arrows.iter().position(|arrow| !self.in_scope(arrow)) {
            Some(arrow) => Err(Fault::new(10, arrow)),
            None => Ok(()),
        }
    }

    fn in_scope(&self, arrow: &Arrow) -> bool {
        let binders = self.binders_above(arrow.node).len();
        (!arrow.names(Argument::Outer) || binders >= 1)
            && (!arrow.names(Argument::Inner) || binders >= 2)
    }
}

/// Question 2: the first record, without its length field, and what comes after it.
fn split_record(bytes: &[u8]) -> Option<(&[u8], &[u8])> {
    let [low, high, rest @ ..] = bytes else {
        return None;
    };
    let length = usize::from(u16::from_le_bytes([*low, *high]));
    // A length of at least 2 that the file has behind it holds a whole kind field.
    if length < 2 || length > rest.len() {
        return None;
    }
    Some(rest.split_at(length))
}

/// The length of a record's kind and count; none where its count is not there.
fn expected_length(kind: u16, body: &[u16]) -> Option<usize> {
    let count = |field: usize| body.get(field).map(|&count| usize::from(count));
    match kind {
        1 => Some(6 + 4 * count(0)?),
        3 => Some(4),
        6 | 8 => Some(8 + 2 * count(2)?),
        9 => Some(22),
        _ => Some(6),
    }
}

/// Question 5 for nodes, but for how many there are. Children are taken as they are, since
/// question 6 asks about them.
fn read_node(kind: u16, body: &[u16]) -> Option<Node> {
    match (kind, body) {
        (1, [count, start, pairs @ ..]) => read_automaton(*count, *start, pairs),
        (2, [first, second]) => Some(Node::Sequence {
            first: usize::from(*first),
            second: usize::from(*second),
        }),
        (3, [body]) => Some(Node::Closure {
            body: usize::from(*body),
        }),
        (4, [guard, body]) => (*guard <= 31).then_some(Node::Guard {
            guard: *guard,
            body: usize::from(*body),
        }),
        (5, [left, right]) => Some(Node::Choice {
            left: usize::from(*left),
            right: usize::from(*right),
        }),
        (6, [left, right, _, labels @ ..]) => Some(Node::Synchronisation {
            left: usize::from(*left),
            right: usize::from(*right),
            labels: read_labels(labels)?,
        }),
        (7, [ty, body]) => (*ty <= 7).then_some(Node::QuantifiedChoice {
            ty: *ty,
            body: usize::from(*body),
        }),
        (8, [ty, body, _, labels @ ..]) if *ty <= 7 => Some(Node::QuantifiedSynchronisation {
            ty: *ty,
            body: usize::from(*body),
            labels: read_labels(labels)?,
        }),
        _ => None,
    }
}

fn read_automaton(count: u16, start: u16, pairs: &[u16]) -> Option<Node> {
    if !(1..=32).contains(&count) || start >= count {
        return None;
    }
    let states: Option<Vec<State>> = pairs
        .chunks_exact(2)
        .map(|pair| read_state(pair[0], pair[1]))
        .collect();
    Some(Node::Automaton {
        start: usize::from(start),
        states: states?,
    })
}

fn read_state(mark: u16, child: u16) -> Option<State> {
    let child = (child != NONE).then_some(usize::from(child));
    let mark = match mark {
        0 => Mark::None,
        1 => Mark::Shallow,
        // There is a child wherever the field says one, also one that question 6 will refuse.
        2 if child.is_some() => Mark::Deep,
        _ => return None,
    };
    Some(State { mark, child })
}

fn read_labels(labels: &[u16]) -> Option<BTreeSet<u16>> {
    let in_range = labels.len() <= 16 && labels.iter().all(|&label| label <= 255);
    let rising = labels.windows(2).all(|pair| pair[0] < pair[1]);
    (in_range && rising).then(|| labels.iter().copied().collect())
}

/// Question 5 for arrows, but for how many there are. Node and states are taken as they are,
/// since question 7 asks about them.
fn read_arrow(body: &[u16]) -> Option<Arrow> {
    let &[node, from, to, label, wait, guard, first_kind, first, second_kind, second] = body else {
        return None;
    };
    let arguments = [
        read_argument(first_kind, first)?,
        read_argument(second_kind, second)?,
    ];
    let second_alone = arguments[0].is_none() && arguments[1].is_some();
    if label > 255 || wait > 1 || (guard > 31 && guard != NONE) || second_alone {
        return None;
    }
    Some(Arrow {
        node: usize::from(node),
        from: usize::from(from),
        to: usize::from(to),
        label,
        wait: wait == 1,
        guard: (guard != NONE).then_some(guard),
        arguments,
    })
}

/// An argument in range, which may be an absent one.
fn read_argument(kind: u16, value: u16) -> Option<Option<Argument>> {
    match (kind, value) {
        (0, 0) => Some(None),
        (1, _) => Some(Some(Argument::Constant(value))),
        (2, 0) => Some(Some(Argument::Outer)),
        (3, 0) => Some(Some(Argument::Inner)),
        _ => None,
    }
}
