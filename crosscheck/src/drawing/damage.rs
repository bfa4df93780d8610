//! Damaging a file: mostly a little, so that only one question is answered no.

use crate::random::Random;
use crate::record::{
    file_of, records_of, Record, ARROW, AUTOMATON, CHOICE, CLOSURE, GUARD, NONE, QUANTIFIED_CHOICE,
    QUANTIFIED_SYNCHRONISATION, SEQUENCE, SYNCHRONISATION,
};

/// Numbers at the bounds of fields, and next to them.
const BOUNDS: [u16; 24] = [
    0, 1, 2, 3, 4, 7, 8, 9, 10, 15, 16, 17, 31, 32, 33, 63, 64, 65, 255, 256, 257, 65_533, 65_534,
    65_535,
];

/// The lengths of files around the longest that is read.
const LENGTHS: [usize; 6] = [16_382, 16_383, 16_384, 16_385, 16_386, 20_000];

/// Damages a file once, or sometimes twice.
pub fn damage(random: &mut Random, file: &mut Vec<u8>) {
    once(random, file);
    if random.percent(15) {
        once(random, file);
    }
}

fn once(random: &mut Random, file: &mut Vec<u8>) {
    match random.below(10) {
        0 => flip(random, file),
        1 => cut(random, file),
        2 => lengthen(random, file),
        3..5 => change_field(random, file),
        _ => match records_of(file) {
            Some(mut records) if !records.is_empty() => {
                change_records(random, &mut records);
                *file = file_of(&records);
            }
            _ => flip(random, file),
        },
    }
}

fn flip(random: &mut Random, file: &mut [u8]) {
    if file.is_empty() {
        return;
    }
    for _ in 0..random.within(1, 3) {
        let place = random.below(file.len());
        file[place] ^= match random.percent(50) {
            true => 1 << random.below(8),
            false => random.number() as u8,
        };
    }
}

fn cut(random: &mut Random, file: &mut Vec<u8>) {
    let length = match random.below(8) {
        0 => 0,
        1..4 => random.below(file.len() + 1),
        _ => file.len().saturating_sub(random.within(1, 4)),
    };
    file.truncate(length);
}

/// Lengthens a file by a few bytes, or by many.
fn lengthen(random: &mut Random, file: &mut Vec<u8>) {
    if random.percent(70) || file.is_empty() {
        for _ in 0..random.within(1, 6) {
            file.push(random.pick(&[0, 0, 1, 2, 4, 9, 255]));
        }
        return;
    }
    let length = random.pick(&LENGTHS);
    let whole = file.clone();
    while file.len() < length {
        file.extend(&whole);
    }
    file.truncate(length);
}

/// Changes two bytes that stand where a field may, a length or a kind as well.
fn change_field(random: &mut Random, file: &mut [u8]) {
    let fields = file.len() / 2;
    if fields == 0 {
        return;
    }
    let place = 2 * random.below(fields);
    let old = u16::from_le_bytes([file[place], file[place + 1]]);
    file[place..place + 2].copy_from_slice(&other_number(random, old).to_le_bytes());
}

fn other_number(random: &mut Random, old: u16) -> u16 {
    match random.below(4) {
        0 => old.wrapping_add(1),
        1 => old.wrapping_sub(1),
        _ => random.pick(&BOUNDS),
    }
}

fn change_records(random: &mut Random, records: &mut Vec<Record>) {
    let place = random.below(records.len());
    let other = random.below(records.len());
    match random.below(8) {
        0 => records.swap(place, other),
        1 => {
            let record = records[place].clone();
            records.insert(other, record);
        }
        2 => {
            records.remove(place);
        }
        3 => {
            let record = records.remove(place);
            records.insert(other.min(records.len()), record);
        }
        4 => change_kind(random, &mut records[place]),
        5 => change_length(random, &mut records[place]),
        6 => change_count(random, &mut records[place]),
        _ => change_body(random, &mut records[place]),
    }
}

/// Gives a record another kind, mostly one whose records have the same length.
fn change_kind(random: &mut Random, record: &mut Record) {
    let alike: &[u16] = match record.fields.len() {
        1 => &[CLOSURE],
        2 => &[
            SEQUENCE,
            GUARD,
            CHOICE,
            QUANTIFIED_CHOICE,
            QUANTIFIED_CHOICE,
        ],
        _ if record.is_arrow() => &[ARROW],
        _ => &[AUTOMATON, SYNCHRONISATION, QUANTIFIED_SYNCHRONISATION],
    };
    record.kind = match random.percent(75) {
        true => random.pick(alike),
        false => random.within(0, 10) as u16,
    };
    if [QUANTIFIED_CHOICE, QUANTIFIED_SYNCHRONISATION].contains(&record.kind) {
        // What stood there was a node, or a guard; a type is less.
        if let Some(ty) = record.fields.first_mut() {
            *ty %= 8;
        }
    }
}

/// Gives a record a field more or less, so that its count does not fit its length.
fn change_length(random: &mut Random, record: &mut Record) {
    if random.percent(50) {
        record.fields.push(random.pick(&BOUNDS));
    } else {
        record.fields.pop();
    }
}

/// Gives a record as many states or labels as are just allowed, or just not, with a length that fits.
fn change_count(random: &mut Random, record: &mut Record) {
    match record.kind {
        AUTOMATON if record.fields.len() >= 2 => {
            let states = random.pick(&[0, 1, 31, 32, 33]);
            record.fields[0] = states;
            let fields = 2 + 2 * usize::from(states);
            record.fields.truncate(fields);
            while record.fields.len() < fields {
                record.fields.extend([1, NONE]);
            }
        }
        SYNCHRONISATION | QUANTIFIED_SYNCHRONISATION if record.fields.len() >= 3 => {
            let labels: u16 = random.pick(&[0, 1, 15, 16, 17]);
            let first: u16 = random.pick(&[0, 100, 239, 240, 241]);
            record.fields[2] = labels;
            record.fields.truncate(3);
            record.fields.extend(first..first + labels);
        }
        _ => change_length(random, record),
    }
}

fn change_body(random: &mut Random, record: &mut Record) {
    if record.fields.is_empty() {
        return;
    }
    let place = random.below(record.fields.len());
    record.fields[place] = other_number(random, record.fields[place]);
}
