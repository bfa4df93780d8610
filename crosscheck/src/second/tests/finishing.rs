//! When a part is finished, and what may move when it is.

use super::*;

/// An automaton that stays where it is, final or not.
fn rest(is_final: bool) -> Record {
    automaton(0, &[if is_final { FINAL } else { PLAIN }])
}

fn is_finished(records: &[Record]) -> bool {
    Bench::new(records, &[(0, 1, 2)], Host::limits())
        .run
        .is_finished()
}

#[test]
fn parts_not_begun() {
    for left in [false, true] {
        assert!(is_finished(&[rest(left), closure(0)]));
        assert_eq!(is_finished(&[rest(left), guard(0, 0)]), left);
        assert_eq!(is_finished(&[rest(left), some(0, 0)]), left);
        assert_eq!(is_finished(&[rest(left), every(0, 0, &[])]), left);
        for right in [false, true] {
            let both = |operator: Record| is_finished(&[rest(left), rest(right), operator]);
            assert_eq!(both(choice(0, 1)), left || right);
            assert_eq!(both(sequence(0, 1)), left && right);
            assert_eq!(both(synchronisation(0, 1, &[])), left && right);
        }
    }
}

#[test]
fn marks_and_children() {
    for child in [false, true] {
        let marked = |mark| is_finished(&[rest(child), automaton(0, &[(mark, 0)])]);
        assert!(!marked(0));
        assert!(marked(1));
        assert_eq!(marked(2), child);
    }
}

/// Not final at first; 1 leads to a state that is, and 2 to one that is not.
fn stepper(node: u16) -> Vec<Record> {
    vec![
        automaton(0, &[PLAIN, FINAL, PLAIN]),
        arrow(node, 0, 1, 1),
        arrow(node, 0, 2, 2),
    ]
}

/// Whether the operator over one stepper is finished after the event.
fn finished_after(operator: Record, label: u16) -> bool {
    let mut records = stepper(0);
    records.push(operator);
    let mut bench = Bench::new(&records, &[(0, 1, 2)], tally(0, 9, 1));
    bench.take(label, &[]);
    bench.run.is_finished()
}

#[test]
fn parts_begun() {
    for operator in [closure(0), guard(0, 0), some(0, 0), every(0, 0, &[1, 2])] {
        assert!(finished_after(operator.clone(), 1));
        assert!(!finished_after(operator, 2));
    }
    // One instance that is finished is not enough.
    assert!(!finished_after(every(0, 0, &[]), 1));
}

#[test]
fn a_choice_begun_is_finished_by_the_chosen_side() {
    let after = |label, left: u16, right: u16| {
        let mut records = stepper(0);
        records.push(rest(true));
        records.push(choice(left, right));
        let mut bench = Bench::plain(&records);
        assert!(bench.run.is_finished());
        bench.take(label, &[]);
        bench.run.is_finished()
    };
    for (left, right) in [(0, 1), (1, 0)] {
        assert!(after(1, left, right));
        assert!(!after(2, left, right));
    }
}

#[test]
fn one_side_that_is_finished_is_not_enough() {
    let mut records = stepper(0);
    records.extend([automaton(0, &[PLAIN, FINAL]), arrow(1, 0, 1, 3)]);
    records.push(synchronisation(0, 1, &[]));
    let mut bench = Bench::plain(&records);
    bench.take(1, &[]);
    assert!(!bench.run.is_finished());
    bench.take(3, &[]);
    assert!(bench.run.is_finished());
}

#[test]
fn a_sequence_goes_on_only_from_a_finished_first_part() {
    let mut records = stepper(0);
    records.extend([automaton(0, &[PLAIN, FINAL]), arrow(1, 0, 1, 3)]);
    records.push(sequence(0, 1));
    let mut bench = Bench::plain(&records);
    assert!(bench.is_stuck(3, &[]));
    let mut other = Bench::plain(&records);
    bench.take(1, &[]);
    assert_eq!(bench.take(3, &[]), [[1, 1]]);
    assert!(bench.run.is_finished());
    other.take(2, &[]);
    assert!(other.is_stuck(3, &[]));
}

#[test]
fn a_second_part_keeps_its_variable_and_begins_in_its_start_state() {
    let mut bench = Bench::new(
        &[
            rest(true),
            automaton(1, &[PLAIN, PLAIN]),
            arrow_with(1, 1, 0, 4, OUTER, (1, 7)),
            sequence(0, 1),
            some(0, 2),
        ],
        &[(0, 1, 2)],
        Host::limits(),
    );
    assert_eq!(bench.menu(), [event(4, &[1, 7]), event(4, &[2, 7])]);
    assert_eq!(bench.take(4, &[2, 7]), [[2, 1, 0]]);
    assert_eq!(bench.menu(), []);
}

#[test]
fn arrow_and_child_may_both_take_an_event() {
    // The child's state is kept under the same state, and begins anew under another one.
    let mut bench = Bench::plain(&[
        automaton(0, &[PLAIN, PLAIN]),
        arrow(0, 0, 1, 1),
        automaton(1, &[PLAIN, PLAIN]),
        automaton(0, &[(0, 0), (0, 1)]),
        arrow(2, 0, 1, 1),
    ]);
    assert_eq!(bench.take(1, &[]), [[0, 1], [1, 1]]);
    assert_eq!(bench.take(1, &[]), [[1, 1]]);
}
