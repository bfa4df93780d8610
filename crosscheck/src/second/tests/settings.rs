//! Settings and what hosts answer.

use super::*;

#[test]
fn ranges_have_bounds() {
    let mut ranges = Ranges::new();
    let wrong = |field| Err(fault(19, 4, field));
    assert_eq!(ranges.set(7, 0, 0), Ok(()));
    assert_eq!(ranges.set(8, 0, 17), wrong(0));
    assert_eq!(ranges.set(0, 65_520, 16), Ok(()));
    assert_eq!(ranges.set(0, 65_535, 1), Ok(()));
    assert_eq!(ranges.set(0, 65_521, 16), wrong(2));
    assert_eq!(ranges.set(0, 65_535, 2), wrong(2));
    assert_eq!(ranges.set(0, 65_535, 65_535), wrong(2));
    assert_eq!(ranges.set(0, 0, 17), wrong(2));
    assert_eq!(ranges.set(0, 0, 16), Ok(()));
}

#[test]
fn a_refused_setting_changes_nothing() {
    let mut ranges = ranges(&[(0, 5, 1)]);
    assert!(ranges.set(0, 0, 17).is_err());
    let mut run = Run::new();
    let procedure = read(&[
        automaton(0, &[PLAIN, PLAIN]),
        arrow_with(0, 0, 1, 1, OUTER, ABSENT),
        some(0, 0),
    ]);
    assert_eq!(run.open(&procedure, &ranges, 1), Ok(1));
    assert_eq!(run.menu(&Host::limits(), 1).1, [event(1, &[5])]);
}

#[test]
fn limits_have_bounds() {
    let mut host = Host::limits();
    let wrong = |field| Err(fault(19, 4, field));
    assert_eq!(host.set(31, 1, 0, 0), Ok(()));
    assert_eq!(host.set(31, 4, 2, 65_535), Ok(()));
    assert_eq!(host.set(32, 0, 3, 0), wrong(0));
    assert_eq!(host.set(31, 0, 3, 0), wrong(1));
    assert_eq!(host.set(31, 5, 3, 0), wrong(1));
    assert_eq!(host.set(31, 4, 3, 0), wrong(2));
}

#[test]
fn tallies_have_bounds() {
    let mut host = Host::tallies();
    let wrong = |field| Err(fault(19, 4, field));
    assert_eq!(host.set(31, 255, 65_535, 65_535), Ok(()));
    assert_eq!(host.set(32, 256, 0, 0), wrong(0));
    assert_eq!(host.set(31, 256, 0, 0), wrong(1));
}

/// Which arguments one guarded arrow for each count takes under a limit.
fn taken(operand: u16, comparison: u16, constant: u16) -> Vec<Event> {
    let mut host = Host::limits();
    host.set(0, operand, comparison, constant).expect("a limit");
    let step = |first, second| guarded(arrow_with(0, 0, 1, 1, first, second), 0);
    let bench = Bench::new(
        &[
            automaton(0, &[PLAIN, PLAIN]),
            step(ABSENT, ABSENT),
            step(OUTER, ABSENT),
            step((1, 0), OUTER),
            some(0, 0),
        ],
        &[(0, 4, 3)],
        host,
    );
    bench.menu()
}

#[test]
fn limits_compare_operands() {
    // The first argument: absent where there is none, which is not the same as 0.
    assert_eq!(
        taken(3, 0, 5),
        [
            event(1, &[4]),
            event(1, &[0, 4]),
            event(1, &[0, 5]),
            event(1, &[0, 6])
        ]
    );
    assert_eq!(taken(3, 1, 5), [event(1, &[5])]);
    assert_eq!(taken(3, 2, 5), [event(1, &[6])]);
    // The second one: absent also where there is a first.
    assert_eq!(taken(4, 0, 6), [event(1, &[0, 4]), event(1, &[0, 5])]);
    // The inner variable is not in scope.
    assert_eq!(taken(2, 0, 65_535), []);
    // The outer one is, also for an event without arguments.
    assert_eq!(
        taken(1, 1, 6),
        [event(1, &[]), event(1, &[6]), event(1, &[0, 6])]
    );
    assert_eq!(taken(1, 2, 6), []);
}

#[test]
fn a_guard_above_a_binder_has_no_variable() {
    let above = |guard_above: bool| {
        let mut host = Host::limits();
        host.set(0, 1, 0, 65_535).expect("a limit");
        let body = [automaton(0, &[PLAIN, PLAIN]), arrow(0, 0, 1, 1)];
        let tops = if guard_above {
            [some(0, 0), guard(0, 1)]
        } else {
            [guard(0, 0), some(0, 1)]
        };
        let bench = Bench::new(&[&body[..], &tops].concat(), &[(0, 4, 1)], host);
        bench.menu().len()
    };
    assert_eq!(above(true), 0);
    assert_eq!(above(false), 1);
}

#[test]
fn a_guard_not_set_is_no() {
    let records = [
        automaton(0, &[PLAIN, PLAIN]),
        guarded(arrow(0, 0, 1, 1), 31),
    ];
    for mut host in [Host::limits(), Host::tallies()] {
        host.set(30, 1, 1, 1).expect("another guard");
        assert_eq!(Bench::new(&records, &[], host).menu(), []);
    }
}

#[test]
fn setting_a_tally_again_forgets_what_was_told() {
    let records = [automaton(0, &[PLAIN]), guarded(arrow(0, 0, 0, 8), 0)];
    let mut bench = Bench::new(&records, &[], tally(0, 8, 2));
    bench.take(8, &[]);
    bench.take(8, &[]);
    assert!(bench.is_stuck(8, &[]));
    bench.host.set(0, 8, 1, 0).expect("a tally");
    bench.take(8, &[]);
    assert!(bench.is_stuck(8, &[]));
}

#[test]
fn a_refused_event_is_not_told() {
    let records = [
        automaton(0, &[PLAIN, PLAIN]),
        arrow(0, 0, 1, 9),
        guarded(arrow(0, 1, 1, 8), 0),
    ];
    let mut bench = Bench::new(&records, &[], tally(0, 8, 1));
    assert!(bench.is_stuck(8, &[]));
    bench.take(9, &[]);
    bench.take(8, &[]);
    assert!(bench.is_stuck(8, &[]));
}

#[test]
fn what_a_host_was_told_before_an_opening_counts() {
    let records = [automaton(0, &[PLAIN]), guarded(arrow(0, 0, 0, 8), 0)];
    let mut bench = Bench::new(&records, &[], tally(0, 8, 1));
    bench.take(8, &[]);
    bench
        .run
        .open(&read(&records), &Ranges::new(), 1)
        .expect("an opening");
    assert!(bench.is_stuck(8, &[]));
}
