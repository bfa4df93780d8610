//! Procedures of shapes that ask most of an interpreter: many instances, deep nesting, many held states near the ceiling, long menus.

use super::{Plan, CEILINGS};
use crate::draft::{Argument, Arrow, Draft, State};
use crate::random::Random;
use crate::second::Event;

/// The label on which parts move together, that on which one of them moves alone, and a third.
const TOGETHER: u16 = 10;
const ALONE: u16 = 11;
const ASIDE: u16 = 12;

/// The one type of these shapes.
const TYPE: u16 = 3;

/// Draws a procedure of one of the shapes.
pub fn draw(random: &mut Random) -> Plan {
    if random.below(400) == 0 {
        return long(random);
    }
    match random.below(100) {
        0..20 => instances(random),
        20..36 => sides(random),
        36..54 => readings(random),
        54..66 => tower(random),
        66..78 => inside(random),
        78..88 => full_rows(random),
        88..99 => menus(random, 12),
        _ => menus(random, 256),
    }
}

fn plan(draft: Draft, values: u16, labels: &[u16], random: &mut Random) -> Plan {
    let first = random.pick(&[0, 1, 1, 1, 5, 65_520]);
    Plan {
        draft,
        ranges: vec![[TYPE, first, values]],
        guards: vec![0, 31],
        labels: labels.to_vec(),
        values: (0..values.max(1)).map(|place| first + place).collect(),
        ceilings: CEILINGS.to_vec(),
        most_calls: 24,
        often: None,
    }
}

/// Many instances that all must move, with some successors each, the same one several times; at times some of them are stuck.
fn instances(random: &mut Random) -> Plan {
    let values = random.pick(&[2, 3, 5, 7, 8, 15, 16, 16, 16]);
    let states = random.within(2, 4);
    let mut draft = Draft::new();
    let body = draft.automaton(&states_of(random, states));
    for from in 0..states as u16 {
        // The last state is often without a way to go on.
        let stuck = usize::from(from) == states - 1 && random.percent(60);
        let ways = if stuck {
            0
        } else {
            random.pick(&[1, 1, 1, 2, 2, 3])
        };
        for _ in 0..ways {
            let to = random.below(states) as u16;
            let arrow = Arrow::new(body, from, to, TOGETHER);
            for _ in 0..random.pick(&[1, 1, 1, 2, 8]) {
                draft.arrow(maybe_guarded(random, arrow));
            }
        }
        if random.percent(70) {
            let to = random.pick(&[from, states as u16 - 1]);
            draft.arrow(Arrow::new(body, from, to, ALONE).with(Argument::Outer));
        }
        if random.percent(25) {
            draft.arrow(Arrow::new(body, from, random.below(states) as u16, ASIDE));
        }
    }
    let whole = draft.quantified_synchronisation(TYPE, body, &[TOGETHER]);
    if random.percent(25) {
        draft.closure(whole);
    }
    plan(draft, values, &[TOGETHER, ALONE, ASIDE], random)
}

/// Synchronisations within one another, up to as many as there is room for, with the label in all sets, or in nearly all.
fn sides(random: &mut Random) -> Plan {
    let parts = random.pick(&[2, 3, 4, 8, 16, 31, 32, 32, 33]);
    let loose = random.percent(30);
    let mut draft = Draft::new();
    let mut whole = Vec::new();
    for _ in 0..parts {
        let part = moving_part(random, &mut draft, parts);
        whole.push(part);
        // The last parts are joined now and then, so that the tree of synchronisations has any shape.
        while whole.len() > 1 && random.percent(45) {
            join_last(random, &mut draft, &mut whole, loose);
        }
    }
    while whole.len() > 1 {
        join_last(random, &mut draft, &mut whole, loose);
    }
    plan(draft, 1, &[TOGETHER, ALONE, ASIDE], random)
}

fn join_last(random: &mut Random, draft: &mut Draft, whole: &mut Vec<u16>, loose: bool) {
    let right = whole.pop().expect("two parts");
    let left = whole.pop().expect("two parts");
    let set: &[u16] = match random.below(6) {
        0 if loose => &[],
        1 => &[TOGETHER, ASIDE],
        _ => &[TOGETHER],
    };
    whole.push(draft.synchronisation(left, right, set));
}

/// An automaton of one to three states which mostly can move on the common label.
fn moving_part(random: &mut Random, draft: &mut Draft, parts: usize) -> u16 {
    let states = random.within(1, 3);
    let part = draft.automaton(&states_of(random, states));
    for from in 0..states as u16 {
        // Many parts with many ways would have no run that goes on.
        let most = if parts > 7 { 1 } else { 2 };
        let ways = if random.percent(6) {
            0
        } else {
            random.within(1, most)
        };
        for _ in 0..ways {
            let to = random.below(states) as u16;
            draft.arrow(Arrow::new(part, from, to, TOGETHER));
        }
        if random.percent(30) {
            let label = random.pick(&[ALONE, ASIDE]);
            draft.arrow(Arrow::new(part, from, random.below(states) as u16, label));
        }
    }
    part
}

/// Parts that stand side by side, each of which may be in one of several states, so that their product is held; with ceilings near it.
fn readings(random: &mut Random) -> Plan {
    let states = random.pick(&[2, 2, 2, 3, 4, 11]);
    let most = match states {
        2 => 8,
        3 => 5,
        4 => 4,
        _ => 3,
    };
    let parts = random.within(1, most);
    let mut draft = Draft::new();
    let automata: Vec<u16> = (0..parts)
        .map(|number| any_state_part(random, &mut draft, states, number as u16))
        .collect();
    let set: &[u16] = match random.percent(60) {
        true => &[TOGETHER],
        false => &[],
    };
    let whole = draft.joined(&automata, set);
    if random.percent(30) {
        draft.closure(whole);
    }
    let mut labels: Vec<u16> = (0..parts as u16).collect();
    labels.extend([TOGETHER, ALONE]);
    let product = (states as u64).pow(parts as u32);
    let mut plan = plan(draft, 1, &labels, random);
    plan.ceilings = vec![1, 2, 3, 127, 128, 128, 128];
    plan.ceilings.extend([product - 1, product, product + 1]);
    plan
}

/// An automaton that moves from any state to any by the label of its number, often by the common one too, and that some labels lead back.
fn any_state_part(random: &mut Random, draft: &mut Draft, states: usize, number: u16) -> u16 {
    let marks = states_of(random, states);
    let part = draft.automaton(&marks);
    let states = states as u16;
    let common = random.percent(50);
    for from in 0..states {
        for to in 0..states {
            if draft.arrow_count() < 250 {
                draft.arrow(Arrow::new(part, from, to, number));
            }
            if common && states < 5 {
                draft.arrow(maybe_guarded(random, Arrow::new(part, from, to, TOGETHER)));
            }
        }
        if random.percent(50) && draft.arrow_count() < 250 {
            draft.arrow(Arrow::new(part, from, 0, ALONE));
        }
    }
    part
}

/// Operators one above the other, up to as many as a row has cells for.
fn tower(random: &mut Random) -> Plan {
    let mut draft = Draft::new();
    let mut top = draft.automaton(&[State::FINAL, State::FINAL]);
    draft.arrow(Arrow::new(top, 0, 1, TOGETHER));
    draft.arrow(Arrow::new(top, 1, random.below(2) as u16, TOGETHER));
    let levels = random.pick(&[3, 8, 20, 45, 46, 47, 48]);
    let unary = random.pick(&[20, 60, 90, 100]);
    let mut binders = 0;
    for _ in 0..levels {
        if draft.node_count() >= 61 {
            break;
        }
        top = match random.percent(unary) {
            true => over_one(random, &mut draft, top, &mut binders),
            false => over_two(random, &mut draft, top),
        };
    }
    let mut plan = plan(draft, 2, &[TOGETHER, ASIDE], random);
    plan.most_calls = 12;
    plan
}

fn over_one(random: &mut Random, draft: &mut Draft, body: u16, binders: &mut usize) -> u16 {
    match random.below(10) {
        0 if *binders < 2 => {
            *binders += 1;
            draft.quantified_choice(TYPE, body)
        }
        1 | 2 => {
            let guard = random.pick(&[0, 31]);
            draft.guard(guard, body)
        }
        _ => draft.closure(body),
    }
}

/// A sequence, a choice or an automaton with the part on one side, and a small automaton on the other.
fn over_two(random: &mut Random, draft: &mut Draft, part: u16) -> u16 {
    let mark = random.pick(&[State::PLAIN, State::FINAL, State::FINAL]);
    let other = draft.automaton(&[mark, State::FINAL]);
    let label = random.pick(&[TOGETHER, ASIDE]);
    draft.arrow(Arrow::new(other, 0, 1, label));
    match random.below(4) {
        0 => draft.sequence(part, other),
        1 => draft.sequence(other, part),
        2 => draft.choice(part, other),
        _ => draft.choice(other, part),
    }
}

/// Automata within states of automata, with arrows that wait at each level.
fn inside(random: &mut Random) -> Plan {
    let levels = random.pick(&[2, 5, 12, 30, 46, 47, 48]);
    let waiting = random.pick(&[10, 40, 80]);
    let mut draft = Draft::new();
    let mut child = draft.automaton(&[State::PLAIN, State::FINAL]);
    draft.arrow(Arrow::new(child, 0, 1, TOGETHER));
    draft.arrow(Arrow::new(child, 1, 0, ASIDE));
    for _ in 0..levels {
        child = level(random, &mut draft, child, waiting);
    }
    let mut plan = plan(draft, 1, &[TOGETHER, ALONE, ASIDE], random);
    plan.most_calls = 20;
    plan
}

fn level(random: &mut Random, draft: &mut Draft, child: u16, waiting: usize) -> u16 {
    let mark = random.pick(&[0, 1, 2, 2, 2]);
    let states = [State { mark, child }, State::FINAL];
    let node = draft.automaton(&states);
    let label = random.pick(&[TOGETHER, ALONE, ALONE, ASIDE]);
    let mut arrow = Arrow::new(node, 0, random.below(2) as u16, label);
    if random.percent(waiting) {
        arrow = arrow.waiting();
    }
    draft.arrow(arrow);
    if random.percent(50) {
        draft.arrow(Arrow::new(node, 1, 0, label));
    }
    node
}

/// Rows of 46 to 49 cells, most of which belong to instances.
fn full_rows(random: &mut Random) -> Plan {
    let values = random.pick(&[15, 16, 16, 16, 12, 8, 4]);
    let wide = usize::from(values);
    let cells = random.within(46, 49);
    let mut draft = Draft::new();
    let mut parts = Vec::new();
    for _ in 0..(cells / wide).min(6) {
        let body = moving_part(random, &mut draft, 16);
        draft.arrow(Arrow::new(body, 0, 0, ALONE).with(Argument::Outer));
        parts.push(draft.quantified_synchronisation(TYPE, body, &[TOGETHER]));
    }
    for _ in 0..(cells - parts.len() * wide).min(20) {
        parts.push(moving_part(random, &mut draft, 16));
    }
    let set: &[u16] = match random.percent(70) {
        true => &[TOGETHER],
        false => &[],
    };
    draft.joined(&parts, set);
    plan(draft, values, &[TOGETHER, ALONE, ASIDE], random)
}

/// Long menus: arrows with both variables of two binders.
fn menus(random: &mut Random, most: usize) -> Plan {
    let values = random.pick(&[2, 3, 5, 16]);
    let states = random.within(1, 3) as u16;
    let arrows = random.pick(&[1, most / 2, most, most + most / 256]);
    let mut draft = Draft::new();
    let marks = states_of(random, usize::from(states));
    let body = draft.automaton(&marks);
    for number in 0..arrows {
        let label = random.pick(&[number as u16 % 256, number as u16 % 256, TOGETHER]);
        let from = number as u16 % states;
        let to = random.below(usize::from(states)) as u16;
        let (first, second) = two_arguments(random);
        let arrow = Arrow::new(body, from, to, label).with_both(first, second);
        draft.arrow(maybe_guarded(random, arrow));
    }
    let (outer, inner) = (random.percent(60), random.percent(60));
    let within = bound(&mut draft, body, inner);
    let whole = bound(&mut draft, within, outer);
    if random.percent(40) {
        draft.closure(whole);
    }
    let labels: Vec<u16> = (0..arrows as u16).chain([TOGETHER]).collect();
    let mut plan = plan(draft, values, &labels, random);
    if most == 256 {
        plan.most_calls = 5;
    }
    plan
}

fn two_arguments(random: &mut Random) -> (Argument, Argument) {
    random.pick(&[
        (Argument::Outer, Argument::Inner),
        (Argument::Outer, Argument::Inner),
        (Argument::Inner, Argument::Outer),
        (Argument::Inner, Argument::Absent),
        (Argument::Outer, Argument::Constant(1)),
        (Argument::Absent, Argument::Absent),
    ])
}

fn bound(draft: &mut Draft, body: u16, choice: bool) -> u16 {
    if choice {
        draft.quantified_choice(TYPE, body)
    } else {
        draft.quantified_synchronisation(TYPE, body, &[TOGETHER])
    }
}

/// More events of one label than a tally counts up to, and a guard that goes by their number.
fn long(random: &mut Random) -> Plan {
    let mut draft = Draft::new();
    let part = draft.automaton(&[State::FINAL]);
    draft.arrow(Arrow::new(part, 0, 0, ALONE));
    draft.arrow(Arrow::new(part, 0, 0, TOGETHER).guarded(0));
    let mut plan = plan(draft, 1, &[ALONE], random);
    let alone = Event {
        label: ALONE,
        count: 0,
        first: 0,
        second: 0,
    };
    plan.often = Some((alone, random.within(65_533, 65_540)));
    plan
}

/// States without children, about half of them final.
fn states_of(random: &mut Random, count: usize) -> Vec<State> {
    (0..count)
        .map(|_| random.pick(&[State::PLAIN, State::FINAL]))
        .collect()
}

fn maybe_guarded(random: &mut Random, arrow: Arrow) -> Arrow {
    match random.below(12) {
        0 => arrow.guarded(0),
        1 => arrow.guarded(31),
        _ => arrow,
    }
}
