//! Making a case smaller while something still holds of it, as that the two interpreters differ.

use std::time::{Duration, Instant};

use crate::case::{Call, Case};
use crate::record::{
    file_of, records_of, Record, ARROW, AUTOMATON, NONE, QUANTIFIED_SYNCHRONISATION,
    SYNCHRONISATION,
};

/// A smaller case for which `holds` still says yes. It says yes of the case itself.
pub fn smallest(case: Case, limit: Duration, holds: impl Fn(&Case) -> bool) -> Case {
    let mut shrinking = Shrinking {
        case,
        holds,
        end: Instant::now() + limit,
    };
    while shrinking.round() {}
    shrinking.case
}

struct Shrinking<H> {
    case: Case,
    holds: H,
    end: Instant,
}

impl<H: Fn(&Case) -> bool> Shrinking<H> {
    /// Tries every way of making the case smaller, and answers whether one was found.
    fn round(&mut self) -> bool {
        let mut smaller = self.without_noise();
        smaller |= self.drop_from(|case| &mut case.calls);
        smaller |= self.drop_from(|case| &mut case.settings);
        smaller |= self.drop_from(|case| &mut case.ranges);
        smaller |= self.simpler_calls();
        smaller |= match records_of(&self.case.file) {
            Some(_) => self.smaller_records(),
            None => self.smaller_bytes(),
        };
        smaller && !self.is_late()
    }

    fn is_late(&self) -> bool {
        Instant::now() > self.end
    }

    /// Takes over a changed case, if it still holds.
    fn try_case(&mut self, change: impl FnOnce(&mut Case)) -> bool {
        let mut changed = self.case.clone();
        change(&mut changed);
        let better = !self.is_late() && (self.holds)(&changed);
        if better {
            self.case = changed;
        }
        better
    }

    fn without_noise(&mut self) -> bool {
        let mut smaller = false;
        if self.case.noise != 0 {
            smaller |= self.try_case(|case| case.noise = 0);
        }
        if self.case.left_over != 0 {
            smaller |= self.try_case(|case| case.left_over = 0);
        }
        if self.case.host > 1 {
            smaller |= self.try_case(|case| case.host = 1);
        }
        smaller
    }

    /// Drops stretches of a list, long ones first.
    fn drop_from<T>(&mut self, list: impl Fn(&mut Case) -> &mut Vec<T>) -> bool {
        let mut smaller = false;
        let mut stretch = list(&mut self.case).len();
        while stretch > 0 {
            let mut from = 0;
            while from < list(&mut self.case).len() {
                let dropped = self.try_case(|case| {
                    let list = list(case);
                    let to = (from + stretch).min(list.len());
                    list.drain(from..to);
                });
                smaller |= dropped;
                if !dropped {
                    from += stretch;
                }
            }
            stretch /= 2;
        }
        smaller
    }

    fn simpler_calls(&mut self) -> bool {
        let mut smaller = false;
        for place in 0..self.case.calls.len() {
            for call in simpler_call(self.case.calls[place]) {
                smaller |= self.try_case(|case| case.calls[place] = call);
            }
        }
        smaller
    }

    /// Tries files with fewer or simpler records; begins again with each that is found.
    fn smaller_records(&mut self) -> bool {
        let mut smaller = self.fewer_arrows();
        'again: while !self.is_late() {
            let records = records_of(&self.case.file).unwrap_or_default();
            for simpler in simpler_records(&records) {
                if self.try_case(|case| case.file = file_of(&simpler)) {
                    smaller = true;
                    continue 'again;
                }
            }
            break;
        }
        smaller
    }

    fn fewer_arrows(&mut self) -> bool {
        let mut smaller = false;
        let mut place = 0;
        while let Some(mut records) = records_of(&self.case.file) {
            if place >= records.len() {
                break;
            }
            let arrow = records.remove(place).is_arrow();
            let dropped = arrow && self.try_case(|case| case.file = file_of(&records));
            smaller |= dropped;
            if !dropped {
                place += 1;
            }
        }
        smaller
    }

    /// For a file that is no whole records.
    fn smaller_bytes(&mut self) -> bool {
        let mut smaller = self.drop_from(|case| &mut case.file);
        for place in 0..self.case.file.len() {
            if self.case.file[place] != 0 {
                smaller |= self.try_case(|case| case.file[place] = 0);
            }
        }
        smaller
    }
}

fn simpler_call(call: Call) -> Vec<Call> {
    match call {
        Call::Menu(places) if places > 0 => vec![Call::Menu(0)],
        Call::Open(ceiling) if ceiling != 1 => vec![Call::Open(1)],
        _ => vec![],
    }
}

/// Files that are a little simpler than one, each once; nodes are dropped with all that is below them.
fn simpler_records(records: &[Record]) -> Vec<Vec<Record>> {
    let mut found = Vec::new();
    for (place, record) in records.iter().enumerate() {
        if !record.is_arrow() {
            found.extend(with_child_in_place(records, place));
            found.extend(without_child(records, place));
        }
    }
    for (place, record) in records.iter().enumerate() {
        for simpler in simpler_fields(record) {
            let mut changed = records.to_vec();
            changed[place] = simpler;
            found.push(changed);
        }
        // A record that is not needed where it stands, as in a file that is refused.
        let mut shorter = records.to_vec();
        shorter.remove(place);
        found.push(shorter);
    }
    found
}

/// Files in which one of a node's children takes its place.
fn with_child_in_place(records: &[Record], place: usize) -> Vec<Vec<Record>> {
    let node = number_of_node(records, place);
    let root = node_count(records).saturating_sub(1);
    let record = &records[place];
    let children = record.child_fields().into_iter();
    children
        .filter_map(|field| {
            let child = record.fields[field];
            let mut changed = records.to_vec();
            for other in &mut changed {
                for field in other.child_fields() {
                    if usize::from(other.fields[field]) == node {
                        other.fields[field] = child;
                    }
                }
            }
            let root = if node == root {
                usize::from(child)
            } else {
                root
            };
            without_lone_nodes(&changed, root)
        })
        .collect()
}

/// Files in which one of an automaton's states has no child.
fn without_child(records: &[Record], place: usize) -> Vec<Vec<Record>> {
    let record = &records[place];
    if record.kind != AUTOMATON {
        return vec![];
    }
    let root = node_count(records).saturating_sub(1);
    let children = record.child_fields().into_iter();
    children
        .filter_map(|field| {
            let mut changed = records.to_vec();
            let fields = &mut changed[place].fields;
            fields[field] = NONE;
            fields[field - 1] = fields[field - 1].min(1);
            without_lone_nodes(&changed, root)
        })
        .collect()
}

/// The records that a root's tree needs, with new numbers, if they are of one tree at all.
fn without_lone_nodes(records: &[Record], root: usize) -> Option<Vec<Record>> {
    let nodes: Vec<&Record> = records.iter().filter(|record| !record.is_arrow()).collect();
    let mut needed = vec![false; nodes.len()];
    *needed.get_mut(root)? = true;
    for number in (0..=root).rev() {
        if needed[number] {
            for field in nodes[number].child_fields() {
                let child = usize::from(nodes[number].fields[field]);
                if child >= number {
                    return None;
                }
                needed[child] = true;
            }
        }
    }
    Some(renumbered(records, &needed))
}

/// The needed nodes and their arrows, with the numbers that they then have.
fn renumbered(records: &[Record], needed: &[bool]) -> Vec<Record> {
    let number = |old: u16| {
        let before = &needed[..usize::from(old)];
        before.iter().filter(|&&needed| needed).count() as u16
    };
    let is_needed = |old: u16| needed.get(usize::from(old)) == Some(&true);
    let mut kept = Vec::new();
    let mut nodes = 0;
    for record in records {
        let own = if record.is_arrow() {
            record.fields.first().copied().unwrap_or(NONE)
        } else {
            nodes += 1;
            nodes - 1
        };
        if !is_needed(own) {
            continue;
        }
        let mut record = record.clone();
        if record.is_arrow() {
            record.fields[0] = number(own);
        }
        for field in record.child_fields() {
            record.fields[field] = number(record.fields[field]);
        }
        kept.push(record);
    }
    kept
}

fn node_count(records: &[Record]) -> usize {
    records.iter().filter(|record| !record.is_arrow()).count()
}

fn number_of_node(records: &[Record], place: usize) -> usize {
    node_count(&records[..place])
}

/// A record with one field simpler.
fn simpler_fields(record: &Record) -> Vec<Record> {
    let fields = match record.kind {
        ARROW => simpler_arrow(&record.fields),
        AUTOMATON => simpler_automaton(&record.fields),
        SYNCHRONISATION | QUANTIFIED_SYNCHRONISATION => smaller_set(&record.fields),
        _ => vec![],
    };
    let records = fields.into_iter();
    records
        .map(|fields| Record::new(record.kind, fields))
        .collect()
}

/// An arrow that does not wait, has no guard, or has an argument less.
fn simpler_arrow(fields: &[u16]) -> Vec<Vec<u16>> {
    let with = |values: &[(usize, u16)]| {
        let mut simpler = fields.to_vec();
        for &(field, value) in values {
            *simpler.get_mut(field)? = value;
        }
        (simpler != fields).then_some(simpler)
    };
    let ways = [
        with(&[(4, 0)]),
        with(&[(5, NONE)]),
        with(&[(8, 0), (9, 0)]),
        with(&[(6, 0), (7, 0), (8, 0), (9, 0)]),
    ];
    ways.into_iter().flatten().collect()
}

/// An automaton with a mark less, or a state less.
fn simpler_automaton(fields: &[u16]) -> Vec<Vec<u16>> {
    let marks = (2..fields.len()).step_by(2);
    let mut found: Vec<Vec<u16>> = marks
        .filter(|&mark| fields[mark] != 0)
        .map(|mark| {
            let mut simpler = fields.to_vec();
            simpler[mark] = 0;
            simpler
        })
        .collect();
    found.extend(without_last_state(fields));
    found
}

/// An automaton without its last state, if that has no child and is not the start.
fn without_last_state(fields: &[u16]) -> Option<Vec<u16>> {
    let &[states, start, ..] = fields else {
        return None;
    };
    let whole = fields.len() == 2 + 2 * usize::from(states);
    if !whole || states < 2 || start == states - 1 || fields.last() != Some(&NONE) {
        return None;
    }
    let mut fewer = fields[..fields.len() - 2].to_vec();
    fewer[0] -= 1;
    Some(fewer)
}

/// A set with a label less.
fn smaller_set(fields: &[u16]) -> Vec<Vec<u16>> {
    (3..fields.len())
        .map(|label| {
            let mut smaller = fields.to_vec();
            smaller.remove(label);
            smaller[2] = smaller[2].saturating_sub(1);
            smaller
        })
        .collect()
}
