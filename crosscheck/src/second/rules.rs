//! The rules of diagrams: where a part begins, when it is finished, and how an event moves it.

use std::collections::{BTreeMap, BTreeSet};

use super::reading::{Argument, Arrow, Mark, Node, Procedure, State};
use super::{Event, Fault, Host, Ranges, Variables};

pub(super) type Row = Vec<u16>;
pub(super) type Rows = BTreeSet<Row>;

const MOST_VALUES: usize = 16;
const MOST_CELLS: usize = 48;

/// A procedure under the values of its types. Everything is kept by node number.
#[derive(Clone, Debug)]
pub(super) struct Diagram {
    nodes: Vec<Node>,
    arrows: Vec<Arrow>,
    /// The binders above each node, the outermost first.
    binders_above: Vec<Vec<usize>>,
    /// The values of a binder; empty for the other nodes.
    values: Vec<Vec<u16>>,
    widths: Vec<usize>,
    beginnings: Vec<Row>,
    /// Where to find the arrows of an automaton on a label.
    arrows_on: BTreeMap<(usize, u16), Vec<usize>>,
}

impl Diagram {
    /// Asks questions 11 to 13.
    pub(super) fn open(procedure: &Procedure, ranges: &Ranges) -> Result<Diagram, Fault> {
        let nodes = procedure.nodes.clone();
        if nodes.is_empty() {
            return Err(Fault::new(11, 0));
        }
        let values = values_of_binders(&nodes, ranges)?;
        let widths = widths(&nodes, &values);
        if let Some(wide) = widths.iter().position(|&width| width > MOST_CELLS) {
            return Err(Fault::new(13, wide));
        }
        let binders_above = (0..nodes.len())
            .map(|node| procedure.binders_above(node))
            .collect();
        let mut diagram = Diagram {
            nodes,
            arrows: procedure.arrows.clone(),
            binders_above,
            values,
            widths,
            beginnings: Vec::new(),
            arrows_on: BTreeMap::new(),
        };
        diagram.lay_out_beginnings();
        diagram.sort_arrows();
        Ok(diagram)
    }

    pub(super) fn root(&self) -> usize {
        self.nodes.len() - 1
    }

    pub(super) fn width(&self, node: usize) -> usize {
        self.widths[node]
    }

    pub(super) fn beginning(&self, node: usize) -> &Row {
        &self.beginnings[node]
    }

    /// Children have lower numbers, so their beginnings are there when their parent needs them.
    fn lay_out_beginnings(&mut self) {
        for node in 0..self.nodes.len() {
            let begun = |part: &usize| self.beginnings[*part].clone();
            let cells = match &self.nodes[node] {
                Node::Automaton { start, states } => self.entering(*start, &states[*start]),
                Node::Sequence { first, .. } => tagged(0, begun(first)),
                Node::Synchronisation { left, right, .. } => [begun(left), begun(right)].concat(),
                Node::QuantifiedSynchronisation { body, .. } => {
                    begun(body).repeat(self.values[node].len())
                }
                Node::Closure { .. }
                | Node::Guard { .. }
                | Node::Choice { .. }
                | Node::QuantifiedChoice { .. } => Row::new(),
            };
            self.beginnings.push(padded(cells, self.widths[node]));
        }
    }

    fn sort_arrows(&mut self) {
        for (number, arrow) in self.arrows.iter().enumerate() {
            let place = (arrow.node, arrow.label);
            self.arrows_on.entry(place).or_default().push(number);
        }
    }

    /// The cells of an automaton that comes into a state: its child begins anew.
    fn entering(&self, number: usize, state: &State) -> Row {
        let child = state.child.map(|child| self.beginnings[child].clone());
        tagged(number, child.unwrap_or_default())
    }

    /// The cells of a part that lies behind one cell of its parent's.
    fn behind_tag<'r>(&self, row: &'r [u16], part: usize) -> &'r [u16] {
        &row[1..1 + self.widths[part]]
    }

    fn sides<'r>(&self, row: &'r [u16], left: usize) -> (&'r [u16], &'r [u16]) {
        row.split_at(self.widths[left])
    }

    fn instances<'r>(&self, row: &'r [u16], body: usize) -> std::slice::Chunks<'r, u16> {
        row.chunks(self.widths[body])
    }

    pub(super) fn is_finished(&self, node: usize, row: &[u16]) -> bool {
        let would_be = |part: &usize| self.is_finished(*part, &self.beginnings[*part]);
        let is = |part: &usize| self.is_finished(*part, self.behind_tag(row, *part));
        match &self.nodes[node] {
            Node::Automaton { states, .. } => match states[usize::from(row[0])] {
                state if state.mark == Mark::Shallow => true,
                state if state.mark == Mark::Deep => self.child_is_finished(&state, row),
                _ => false,
            },
            Node::Sequence { first, second } => match row[0] {
                0 => is(first) && would_be(second),
                _ => is(second),
            },
            Node::Closure { body } => row[0] == 0 || is(body),
            Node::Guard { body, .. } => match row[0] {
                0 => would_be(body),
                _ => is(body),
            },
            Node::Choice { left, right } => match row[0] {
                0 => would_be(left) || would_be(right),
                1 => is(left),
                _ => is(right),
            },
            Node::Synchronisation { left, right, .. } => {
                let (left_row, right_row) = self.sides(row, *left);
                self.is_finished(*left, left_row) && self.is_finished(*right, right_row)
            }
            Node::QuantifiedChoice { body, .. } => match row[0] {
                0 => !self.values[node].is_empty() && would_be(body),
                _ => is(body),
            },
            Node::QuantifiedSynchronisation { body, .. } => self
                .instances(row, *body)
                .all(|instance| self.is_finished(*body, instance)),
        }
    }

    /// An elementary state has no child, and counts as finished.
    fn child_is_finished(&self, state: &State, row: &[u16]) -> bool {
        state
            .child
            .is_none_or(|child| self.is_finished(child, self.behind_tag(row, child)))
    }

    /// The events that some arrow can carry under some values of the binders above it.
    pub(super) fn carried_events(&self) -> BTreeSet<Event> {
        let mut events = BTreeSet::new();
        for arrow in &self.arrows {
            for variables in self.variables_at(arrow.node) {
                let values = arrow
                    .arguments
                    .map(|argument| value_of(argument, variables));
                events.insert(Event::of(arrow.label, values));
            }
        }
        events
    }

    /// All values of the variables in scope at a node.
    fn variables_at(&self, node: usize) -> Vec<Variables> {
        let mut found = vec![Variables::default()];
        for &binder in &self.binders_above[node] {
            let values = &self.values[binder];
            found = found
                .iter()
                .flat_map(|variables| values.iter().map(|&value| variables.with(value)))
                .collect();
        }
        found
    }
}

/// Question 12, and the values that it finds.
fn values_of_binders(nodes: &[Node], ranges: &Ranges) -> Result<Vec<Vec<u16>>, Fault> {
    let values = |(number, node): (usize, &Node)| match node.bound_type() {
        None => Ok(Vec::new()),
        Some(ty) => match ranges.values(ty) {
            Some(values) if (1..=MOST_VALUES).contains(&values.len()) => Ok(values.clone()),
            _ => Err(Fault::new(12, number)),
        },
    };
    nodes.iter().enumerate().map(values).collect()
}

/// How many cells each node takes.
fn widths(nodes: &[Node], values: &[Vec<u16>]) -> Vec<usize> {
    let mut widths: Vec<usize> = Vec::new();
    for (node, values) in nodes.iter().zip(values) {
        let width = match node {
            Node::Automaton { states, .. } => {
                let children = states.iter().filter_map(|state| state.child);
                1 + children.map(|child| widths[child]).max().unwrap_or(0)
            }
            Node::Sequence {
                first: left,
                second: right,
            }
            | Node::Choice { left, right } => 1 + widths[*left].max(widths[*right]),
            Node::Closure { body } | Node::Guard { body, .. } => 1 + widths[*body],
            Node::Synchronisation { left, right, .. } => widths[*left] + widths[*right],
            Node::QuantifiedChoice { .. } if values.is_empty() => 1,
            Node::QuantifiedChoice { body, .. } => 1 + widths[*body],
            Node::QuantifiedSynchronisation { body, .. } => values.len() * widths[*body],
        };
        widths.push(width);
    }
    widths
}

/// Tags are state numbers, kinds of a part or positions, all small.
fn tagged(tag: usize, mut cells: Row) -> Row {
    cells.insert(0, tag as u16);
    cells
}

/// What a part does not use of its width is 0.
fn padded(mut cells: Row, width: usize) -> Row {
    cells.resize(width, 0);
    cells
}

/// What an arrow's argument stands for.
fn value_of(argument: Option<Argument>, variables: Variables) -> Option<u16> {
    match argument? {
        Argument::Constant(value) => Some(value),
        Argument::Outer => variables.outer,
        Argument::Inner => variables.inner,
    }
}

/// The successors found so far of one part, of which no more are collected than are wanted.
struct Found {
    rows: Rows,
    wanted: usize,
}

impl Found {
    fn add(&mut self, rows: impl IntoIterator<Item = Row>) {
        for row in rows {
            if self.is_enough() {
                return;
            }
            self.rows.insert(row);
        }
    }

    fn is_enough(&self) -> bool {
        self.rows.len() >= self.wanted
    }
}

/// One event, offered to a diagram, with the guards as one host answers them now.
///
/// Every set of successors here is *cut*: it holds all successors if they are fewer than
/// `wanted`, else `wanted` of them. That is enough at each part. Every rule takes different
/// successors of a part into different successors of the whole, so a whole made of a cut part
/// has as many; and where several parts have to move together, none of them is cut to nothing,
/// since `wanted` is at least 1.
pub(super) struct Offer<'a> {
    diagram: &'a Diagram,
    host: &'a Host,
    event: Event,
    wanted: usize,
    /// What is known of parts at their beginning, by node and variables. Without it, a part
    /// below two binders would be tried again for every held state.
    begun: BTreeMap<(usize, Variables), Rows>,
}

impl<'a> Offer<'a> {
    /// An offer of which `wanted` successors, at least 1, are enough.
    pub(super) fn new(
        diagram: &'a Diagram,
        host: &'a Host,
        event: Event,
        wanted: usize,
    ) -> Offer<'a> {
        Offer {
            diagram,
            host,
            event,
            wanted: wanted.max(1),
            begun: BTreeMap::new(),
        }
    }

    /// The successors of some states of the root, together.
    pub(super) fn successors_of_all(&mut self, held: &Rows) -> Rows {
        let mut found = self.nothing_found();
        for row in held {
            if found.is_enough() {
                break;
            }
            found.add(self.successors(self.diagram.root(), row, Variables::default()));
        }
        found.rows
    }

    fn nothing_found(&self) -> Found {
        Found {
            rows: Rows::new(),
            wanted: self.wanted,
        }
    }

    fn says_yes(&self, guard: u16, variables: Variables) -> bool {
        self.host.says_yes(guard, self.event, variables)
    }

    fn begun_anew(&mut self, node: usize, variables: Variables) -> Rows {
        if let Some(rows) = self.begun.get(&(node, variables)) {
            return rows.clone();
        }
        let diagram = self.diagram;
        let rows = self.successors(node, diagram.beginning(node), variables);
        self.begun.insert((node, variables), rows.clone());
        rows
    }

    fn successors(&mut self, node: usize, row: &[u16], variables: Variables) -> Rows {
        let diagram = self.diagram;
        match &diagram.nodes[node] {
            Node::Automaton { states, .. } => self.automaton(node, states, row, variables),
            Node::Sequence { first, second } => {
                self.sequence(node, *first, *second, row, variables)
            }
            Node::Closure { body } => self.closure(node, *body, row, variables),
            Node::Guard { guard, body } => self.guard(node, *guard, *body, row, variables),
            Node::Choice { left, right } => self.choice(node, *left, *right, row, variables),
            Node::Synchronisation {
                left,
                right,
                labels,
            } => {
                let (left_row, right_row) = diagram.sides(row, *left);
                let parts = [(*left, left_row, variables), (*right, right_row, variables)];
                self.synchronisation(labels, &parts)
            }
            Node::QuantifiedChoice { body, .. } => {
                self.quantified_choice(node, *body, row, variables)
            }
            Node::QuantifiedSynchronisation { body, labels, .. } => {
                let parts: Vec<Part> = diagram
                    .instances(row, *body)
                    .zip(&diagram.values[node])
                    .map(|(instance, &value)| (*body, instance, variables.with(value)))
                    .collect();
                self.synchronisation(labels, &parts)
            }
        }
    }

    /// Moved rows of a part, behind a tag and in the width of its parent.
    fn wrapped(&self, node: usize, tag: usize, moved: Rows) -> impl Iterator<Item = Row> {
        let width = self.diagram.width(node);
        moved
            .into_iter()
            .map(move |cells| padded(tagged(tag, cells), width))
    }

    /// aut-1 and aut-6.
    fn automaton(
        &mut self,
        node: usize,
        states: &[State],
        row: &[u16],
        variables: Variables,
    ) -> Rows {
        let diagram = self.diagram;
        let present = usize::from(row[0]);
        let state = &states[present];
        let mut found = self.nothing_found();
        let arrows = diagram.arrows_on.get(&(node, self.event.label));
        for &number in arrows.into_iter().flatten() {
            let arrow = &diagram.arrows[number];
            if arrow.from == present && self.may_take(arrow, state, row, variables) {
                let cells = diagram.entering(arrow.to, &states[arrow.to]);
                found.add([padded(cells, diagram.width(node))]);
            }
        }
        if let Some(child) = state.child {
            let moved = self.successors(child, diagram.behind_tag(row, child), variables);
            found.add(self.wrapped(node, present, moved));
        }
        found.rows
    }

    fn may_take(&self, arrow: &Arrow, state: &State, row: &[u16], variables: Variables) -> bool {
        let carried = arrow
            .arguments
            .map(|argument| value_of(argument, variables));
        carried == self.event.arguments()
            && arrow
                .guard
                .is_none_or(|guard| self.says_yes(guard, variables))
            && (!arrow.wait || self.diagram.child_is_finished(state, row))
    }

    /// seq-1, seq-2 and seq-3.
    fn sequence(
        &mut self,
        node: usize,
        first: usize,
        second: usize,
        row: &[u16],
        variables: Variables,
    ) -> Rows {
        let diagram = self.diagram;
        let mut found = self.nothing_found();
        if row[0] == 0 {
            let first_row = diagram.behind_tag(row, first);
            let moved = self.successors(first, first_row, variables);
            found.add(self.wrapped(node, 0, moved));
            if diagram.is_finished(first, first_row) {
                let moved = self.begun_anew(second, variables);
                found.add(self.wrapped(node, 1, moved));
            }
        } else {
            let moved = self.successors(second, diagram.behind_tag(row, second), variables);
            found.add(self.wrapped(node, 1, moved));
        }
        found.rows
    }

    /// clo-1 and clo-2.
    fn closure(&mut self, node: usize, body: usize, row: &[u16], variables: Variables) -> Rows {
        let diagram = self.diagram;
        let mut found = self.nothing_found();
        if diagram.is_finished(node, row) {
            let moved = self.begun_anew(body, variables);
            found.add(self.wrapped(node, 1, moved));
        }
        if row[0] == 1 {
            let moved = self.successors(body, diagram.behind_tag(row, body), variables);
            found.add(self.wrapped(node, 1, moved));
        }
        found.rows
    }

    /// gua-1 and gua-2.
    fn guard(
        &mut self,
        node: usize,
        guard: u16,
        body: usize,
        row: &[u16],
        variables: Variables,
    ) -> Rows {
        let moved = if row[0] == 1 {
            self.successors(body, self.diagram.behind_tag(row, body), variables)
        } else if self.says_yes(guard, variables) {
            self.begun_anew(body, variables)
        } else {
            Rows::new()
        };
        self.wrapped(node, 1, moved).collect()
    }

    /// cho-1 to cho-4.
    fn choice(
        &mut self,
        node: usize,
        left: usize,
        right: usize,
        row: &[u16],
        variables: Variables,
    ) -> Rows {
        let mut found = self.nothing_found();
        for (tag, side) in [(1, left), (2, right)] {
            let moved = match usize::from(row[0]) {
                0 => self.begun_anew(side, variables),
                chosen if chosen == tag => {
                    self.successors(side, self.diagram.behind_tag(row, side), variables)
                }
                _ => Rows::new(),
            };
            found.add(self.wrapped(node, tag, moved));
        }
        found.rows
    }

    /// qch-1 and qch-2.
    fn quantified_choice(
        &mut self,
        node: usize,
        body: usize,
        row: &[u16],
        variables: Variables,
    ) -> Rows {
        let diagram = self.diagram;
        let chosen = usize::from(row[0]);
        let mut found = self.nothing_found();
        for (index, &value) in diagram.values[node].iter().enumerate() {
            if found.is_enough() {
                break;
            }
            let position = index + 1;
            let moved = match chosen {
                0 => self.begun_anew(body, variables.with(value)),
                _ if chosen == position => {
                    self.successors(body, diagram.behind_tag(row, body), variables.with(value))
                }
                _ => Rows::new(),
            };
            found.add(self.wrapped(node, position, moved));
        }
        found.rows
    }

    /// syn-1 to syn-3, qsy-1 and qsy-2: sides and instances move by the same rules.
    fn synchronisation(&mut self, labels: &BTreeSet<u16>, parts: &[Part]) -> Rows {
        if labels.contains(&self.event.label) {
            self.all_move(parts)
        } else {
            self.one_moves(parts)
        }
    }

    fn one_moves(&mut self, parts: &[Part]) -> Rows {
        let mut found = self.nothing_found();
        for (index, &(node, row, variables)) in parts.iter().enumerate() {
            if found.is_enough() {
                break;
            }
            let before = joined(&parts[..index]);
            let after = joined(&parts[index + 1..]);
            let moved = self.successors(node, row, variables);
            found.add(
                moved
                    .into_iter()
                    .map(|cells| [&before[..], &cells, &after].concat()),
            );
        }
        found.rows
    }

    /// No product is built before every part is known to move: only then do many successors of
    /// some parts mean as many of the whole.
    fn all_move(&mut self, parts: &[Part]) -> Rows {
        let mut moved = Vec::new();
        for &(node, row, variables) in parts {
            let rows = self.successors(node, row, variables);
            if rows.is_empty() {
                return Rows::new();
            }
            moved.push(rows);
        }
        if moved.is_empty() {
            return Rows::new();
        }
        let nothing_yet = Rows::from([Row::new()]);
        moved
            .iter()
            .fold(nothing_yet, |rows, ends| self.product(&rows, ends))
    }

    fn product(&self, rows: &Rows, ends: &Rows) -> Rows {
        let mut found = self.nothing_found();
        for row in rows {
            if found.is_enough() {
                break;
            }
            found.add(ends.iter().map(|end| [&row[..], end].concat()));
        }
        found.rows
    }
}

/// A side or an instance of a synchronisation: its node, its cells and its variables.
type Part<'r> = (usize, &'r [u16], Variables);

fn joined(parts: &[Part]) -> Row {
    parts.iter().flat_map(|(_, row, _)| *row).copied().collect()
}
