//! Questions 1 to 10.

use super::*;

fn leaf() -> Record {
    automaton(0, &[PLAIN])
}

/// The question that refuses a file of leaves, numbered from 0, and a last record.
fn asked_after(leaves: usize, last: Record) -> Option<u64> {
    let mut records = vec![leaf(); leaves];
    records.push(last);
    refused(&file(&records)).map(|(number, place)| {
        if number < 8 {
            assert_eq!(place, leaves as u64);
        }
        number
    })
}

#[test]
fn question_1_is_about_the_length_alone() {
    assert_eq!(Procedure::read(&[0; 16_385]).err(), Some(fault(1, 1, 0)));
    assert_eq!(refused(&[0; 16_384]), Some((2, 0)));
}

#[test]
fn question_2_asks_for_whole_records() {
    let sound = bytes_of(&leaf());
    assert_eq!(refused(&sound), None);
    for length in 1..sound.len() {
        assert_eq!(refused(&sound[..length]), Some((2, 0)));
    }
    for tail in [
        &[7][..],
        &[0, 0],
        &[1, 0, 3],
        &[2, 0],
        &[2, 0, 3],
        &[255, 255, 1, 0],
    ] {
        assert_eq!(refused(&[&sound, tail].concat()), Some((2, 1)));
    }
}

#[test]
fn question_3_asks_for_a_kind() {
    for kind in [0, 10, 265, 65_535] {
        assert_eq!(asked_after(1, vec![kind]), Some(3));
        assert_eq!(asked_after(1, vec![kind, 0, 0]), Some(3));
    }
    // A length of 3 holds a kind and a half field.
    assert_eq!(refused(&[3, 0, 10, 0, 0]), Some((3, 0)));
    assert_eq!(refused(&[3, 0, 1, 0, 0]), Some((4, 0)));
}

#[test]
fn question_4_asks_for_the_length() {
    let records = [
        leaf(),
        sequence(0, 1),
        closure(0),
        guard(0, 0),
        choice(0, 1),
        synchronisation(0, 1, &[1, 2]),
        some(0, 0),
        every(0, 0, &[3]),
        arrow(0, 0, 0, 1),
    ];
    for record in records {
        let longer = [&record[..], &[0]].concat();
        assert_eq!(asked_after(2, longer), Some(4));
        for length in 1..record.len() {
            assert_eq!(asked_after(2, record[..length].to_vec()), Some(4));
        }
        // An odd length, with the file long enough.
        let mut odd = bytes_of(&record);
        odd[0] -= 1;
        assert_eq!(refused(&odd), Some((4, 0)));
    }
    // The count need not be in range, and wraps nowhere: 6 + 4 * 16,384 is 6 in two bytes.
    assert_eq!(asked_after(0, vec![1, 0, 0]), Some(5));
    assert_eq!(asked_after(0, vec![1, 16_384, 0]), Some(4));
    assert_eq!(asked_after(2, vec![6, 0, 1, 32_768]), Some(4));
    assert_eq!(asked_after(1, vec![8, 0, 0, 32_768]), Some(4));
}

#[test]
fn question_5_asks_for_ranges_of_automata() {
    assert_eq!(asked_after(0, automaton(31, &[PLAIN; 32])), None);
    assert_eq!(asked_after(0, automaton(0, &[PLAIN; 33])), Some(5));
    assert_eq!(asked_after(0, automaton(32, &[PLAIN; 32])), Some(5));
    assert_eq!(asked_after(0, automaton(1, &[PLAIN])), Some(5));
    assert_eq!(asked_after(0, automaton(0, &[FINAL])), None);
    assert_eq!(asked_after(0, automaton(0, &[(2, NONE)])), Some(5));
    assert_eq!(asked_after(0, automaton(0, &[(3, NONE)])), Some(5));
    assert_eq!(asked_after(1, automaton(0, &[(2, 0)])), None);
    assert_eq!(asked_after(1, automaton(0, &[(3, 0)])), Some(5));
    // A child that is no node is still a child here; the next question refuses it.
    assert_eq!(asked_after(1, automaton(0, &[(2, 1)])), Some(6));
}

#[test]
fn question_5_asks_for_ranges_of_operators() {
    assert_eq!(asked_after(1, guard(31, 0)), None);
    assert_eq!(asked_after(1, guard(32, 0)), Some(5));
    assert_eq!(asked_after(1, guard(NONE, 0)), Some(5));
    assert_eq!(asked_after(1, some(7, 0)), None);
    assert_eq!(asked_after(1, some(8, 0)), Some(5));
    assert_eq!(asked_after(1, every(7, 0, &[])), None);
    assert_eq!(asked_after(1, every(8, 0, &[])), Some(5));
}

#[test]
fn question_5_asks_for_sets_of_labels() {
    let sixteen: Vec<u16> = (240..=255).collect();
    let seventeen: Vec<u16> = (239..=255).collect();
    let sets: [(&[u16], Option<u64>); 6] = [
        (&[], None),
        (&sixteen, None),
        (&seventeen, Some(5)),
        (&[256], Some(5)),
        (&[3, 3], Some(5)),
        (&[4, 3], Some(5)),
    ];
    for (labels, expected) in sets {
        assert_eq!(asked_after(2, synchronisation(0, 1, labels)), expected);
        assert_eq!(asked_after(1, every(0, 0, labels)), expected);
    }
}

#[test]
fn question_5_asks_for_ranges_of_arrows() {
    let plain = arrow(0, 0, 0, 255);
    assert_eq!(asked_after(1, plain.clone()), None);
    assert_eq!(asked_after(1, but(plain.clone(), 4, 256)), Some(5));
    assert_eq!(asked_after(1, but(plain.clone(), 5, 1)), None);
    assert_eq!(asked_after(1, but(plain.clone(), 5, 2)), Some(5));
    assert_eq!(asked_after(1, but(plain.clone(), 6, 31)), None);
    assert_eq!(asked_after(1, but(plain.clone(), 6, 32)), Some(5));
    assert_eq!(asked_after(1, but(plain.clone(), 6, 65_534)), Some(5));
    let with = |first, second| asked_after(1, arrow_with(0, 0, 0, 1, first, second));
    assert_eq!(with((1, 65_535), (1, 0)), None);
    assert_eq!(with((0, 1), ABSENT), Some(5));
    assert_eq!(with((2, 1), ABSENT), Some(5));
    assert_eq!(with((3, 1), ABSENT), Some(5));
    assert_eq!(with((4, 0), ABSENT), Some(5));
    assert_eq!(with((1, 1), (0, 1)), Some(5));
    assert_eq!(with((1, 1), (4, 0)), Some(5));
    assert_eq!(with(ABSENT, (1, 1)), Some(5));
}

#[test]
fn question_5_counts_nodes_and_arrows() {
    let mut records = vec![leaf()];
    records.extend((0..63).map(closure));
    assert_eq!(refused(&file(&records)), None);
    records.push(closure(63));
    assert_eq!(refused(&file(&records)), Some((5, 64)));

    let mut records = vec![leaf()];
    records.extend(vec![arrow(0, 0, 0, 1); 256]);
    assert_eq!(refused(&file(&records)), None);
    records.push(arrow(9, 0, 0, 1));
    assert_eq!(refused(&file(&records)), Some((5, 257)));
}

#[test]
fn question_6_asks_for_children() {
    assert_eq!(asked_after(2, sequence(0, 1)), None);
    assert_eq!(asked_after(2, sequence(0, 2)), Some(6));
    assert_eq!(asked_after(2, sequence(0, 0)), Some(6));
    assert_eq!(asked_after(1, closure(NONE)), Some(6));
    assert_eq!(asked_after(1, guard(0, 1)), Some(6));
    assert_eq!(asked_after(2, choice(2, 0)), Some(6));
    assert_eq!(asked_after(2, synchronisation(1, 1, &[])), Some(6));
    assert_eq!(asked_after(1, some(0, 1)), Some(6));
    assert_eq!(asked_after(1, every(0, 1, &[])), Some(6));
    assert_eq!(asked_after(1, automaton(0, &[(0, 0), (0, 0)])), Some(6));
    assert_eq!(asked_after(1, automaton(0, &[(0, 1)])), Some(6));
    let twice = [leaf(), closure(0), closure(0)];
    assert_eq!(refused(&file(&twice)), Some((6, 2)));
}

#[test]
fn question_7_asks_for_an_automaton_and_states() {
    assert_eq!(asked_after(1, arrow(0, 1, 0, 1)), Some(7));
    assert_eq!(asked_after(1, arrow(0, 0, 1, 1)), Some(7));
    assert_eq!(asked_after(1, arrow(1, 0, 0, 1)), Some(7));
    assert_eq!(asked_after(1, arrow(NONE, 0, 0, 1)), Some(7));
    // The automaton has to come before the arrow, and has to be one.
    let early = [leaf(), arrow(1, 0, 0, 1), automaton(0, &[(0, 0)])];
    assert_eq!(refused(&file(&early)), Some((7, 1)));
    let operator = [leaf(), closure(0), arrow(1, 0, 0, 1)];
    assert_eq!(refused(&file(&operator)), Some((7, 2)));
}

#[test]
fn question_8_asks_for_one_tree() {
    assert_eq!(Procedure::read(&[]).err(), Some(fault(8, 1, 65_535)));
    assert_eq!(refused(&file(&[leaf(), leaf(), closure(0)])), Some((8, 1)));
    assert_eq!(refused(&file(&[leaf(), leaf()])), Some((8, 0)));
    assert_eq!(refused(&file(&[leaf()])), None);
}

#[test]
fn question_9_asks_of_binders_above_binders() {
    let two = [leaf(), some(0, 0), every(0, 1, &[])];
    assert_eq!(refused(&file(&two)), None);
    let three = [leaf(), some(0, 0), closure(1), every(0, 2, &[]), some(0, 3)];
    assert_eq!(refused(&file(&three)), Some((9, 1)));
}

#[test]
fn question_10_asks_for_variables_in_scope() {
    let under = |binders: u16, first, second| {
        let mut records = vec![leaf(), arrow(0, 0, 0, 1)];
        records.push(arrow_with(0, 0, 0, 1, first, second));
        records.extend((0..binders).map(|body| some(0, body)));
        refused(&file(&records))
    };
    assert_eq!(under(0, OUTER, ABSENT), Some((10, 1)));
    assert_eq!(under(1, OUTER, ABSENT), None);
    assert_eq!(under(1, (1, 1), INNER), Some((10, 1)));
    assert_eq!(under(1, INNER, ABSENT), Some((10, 1)));
    assert_eq!(under(2, INNER, OUTER), None);
    // A binder elsewhere in the tree is none above the automaton.
    let beside = [
        leaf(),
        some(0, 0),
        leaf(),
        arrow_with(2, 0, 0, 1, OUTER, ABSENT),
        choice(1, 2),
    ];
    assert_eq!(refused(&file(&beside)), Some((10, 0)));
}

#[test]
fn questions_go_record_by_record_and_then_to_the_whole() {
    // Question 7 of an early record comes before question 2 of a later one.
    let early = [file(&[leaf(), arrow(0, 0, 1, 1)]), vec![9]].concat();
    assert_eq!(refused(&early), Some((7, 1)));
    // Within a record, the lower question comes first.
    assert_eq!(asked_after(1, vec![7, 8, 9]), Some(5));
    // Of the whole, 8 comes before 9, and 9 before 10.
    let deep = |more: &[Record]| {
        let mut records = vec![leaf(), arrow_with(0, 0, 0, 1, OUTER, ABSENT)];
        records.extend_from_slice(more);
        refused(&file(&records))
    };
    let binders = [some(0, 0), some(0, 1), some(0, 2)];
    assert_eq!(deep(&binders), Some((9, 1)));
    assert_eq!(deep(&[&binders[..], &[leaf()]].concat()), Some((8, 3)));
}

#[test]
fn damaged_samples_are_refused_as_the_pages_say() {
    let brakes = super::examples::brakes();
    let cut = &brakes[..brakes.len() - 1];
    assert_eq!(refused(cut), Some((2, 11)));
    let without_closure = &brakes[..brakes.len() - 6];
    let twice = [without_closure, &bytes_of(&closure(3))].concat();
    assert_eq!(refused(&twice), Some((6, 11)));
    let lone = [without_closure, &bytes_of(&leaf())].concat();
    assert_eq!(refused(&lone), Some((8, 4)));
    let mut inner = brakes.clone();
    let kind_of_first_argument = 20 + 24 + 16;
    inner[kind_of_first_argument] = 3;
    assert_eq!(refused(&inner), Some((10, 1)));
}
