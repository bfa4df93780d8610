//! Questions 11 to 14.

use super::*;

fn open(records: &[Record], settings: &[(u16, u16, u16)], ceiling: usize) -> Result<usize, Fault> {
    Run::new().open(&read(records), &ranges(settings), ceiling)
}

/// A chain of closures over an automaton that takes `width` cells.
fn as_wide_as(width: u16) -> Vec<Record> {
    let mut records = vec![automaton(0, &[PLAIN])];
    records.extend((0..width - 1).map(closure));
    records
}

#[test]
fn question_11_asks_for_a_node() {
    let answer = Run::new().open(&Procedure::empty(), &Ranges::new(), 0);
    assert_eq!(answer, Err(fault(11, 2, 0)));
    assert_eq!(Procedure::empty().node_count(), 0);
}

#[test]
fn question_12_asks_for_values() {
    let records = [
        automaton(0, &[PLAIN]),
        some(3, 0),
        every(4, 1, &[]),
        closure(2),
    ];
    let no = |place| Err(fault(12, 2, place));
    assert_eq!(open(&records, &[], 0), no(1));
    assert_eq!(open(&records, &[(4, 0, 1)], 0), no(1));
    assert_eq!(open(&records, &[(3, 0, 16)], 1), no(2));
    assert_eq!(open(&records, &[(3, 0, 1), (4, 0, 0)], 1), no(2));
    assert_eq!(open(&records, &[(3, 0, 16), (4, 0, 16)], 1), Ok(1));
    // A type that no binder names is not asked about.
    assert_eq!(open(&records, &[(3, 0, 1), (4, 0, 1), (5, 0, 0)], 1), Ok(1));
}

#[test]
fn question_13_asks_for_widths() {
    assert_eq!(open(&as_wide_as(48), &[], 1), Ok(1));
    assert_eq!(open(&as_wide_as(49), &[], 1), Err(fault(13, 2, 48)));
    assert_eq!(open(&as_wide_as(50), &[], 0), Err(fault(13, 2, 48)));
    // Three cells for each of sixteen values, and one more.
    let mut records = as_wide_as(3);
    records.push(every(0, 2, &[]));
    assert_eq!(open(&records, &[(0, 0, 16)], 1), Ok(1));
    records.push(guard(0, 3));
    assert_eq!(open(&records, &[(0, 0, 16)], 1), Err(fault(13, 2, 4)));
    assert_eq!(open(&records, &[(0, 0, 15)], 1), Ok(1));
    // Values come first: 16 times 16 times 3 cells are not looked at without them.
    let mut records = as_wide_as(3);
    records.extend([every(0, 2, &[]), every(1, 3, &[])]);
    assert_eq!(open(&records, &[(0, 0, 16)], 1), Err(fault(12, 2, 4)));
    assert_eq!(
        open(&records, &[(0, 0, 16), (1, 0, 16)], 1),
        Err(fault(13, 2, 4))
    );
}

#[test]
fn widths_are_those_of_the_page() {
    let width = |records: &[Record], settings: &[(u16, u16, u16)]| {
        Bench::new(records, settings, Host::limits()).run.width()
    };
    // Parts of one, two and three cells to put together.
    let parts = [
        automaton(0, &[PLAIN]),
        automaton(0, &[PLAIN]),
        closure(1),
        automaton(0, &[PLAIN]),
        closure(3),
        closure(4),
        choice(2, 5),
    ];
    let with = |last: Record| [&parts[..], &[last]].concat();
    assert_eq!(width(&with(automaton(0, &[(0, 0), PLAIN, (0, 6)])), &[]), 5);
    assert_eq!(width(&with(sequence(0, 6)), &[]), 5);
    assert_eq!(width(&with(choice(6, 0)), &[]), 5);
    assert_eq!(width(&with(synchronisation(0, 6, &[])), &[]), 5);
    let bound = |binder| [automaton(0, &[PLAIN]), guard(0, 0), binder];
    assert_eq!(width(&bound(some(0, 1)), &[(0, 0, 5)]), 3);
    assert_eq!(width(&bound(every(0, 1, &[])), &[(0, 0, 5)]), 10);
}

#[test]
fn question_14_asks_for_a_ceiling() {
    let records = as_wide_as(1);
    for ceiling in [1, 128] {
        assert_eq!(open(&records, &[], ceiling), Ok(1));
    }
    for ceiling in [0, 129, 65_536, usize::MAX] {
        let refusal = fault(14, 2, ceiling as u64);
        assert_eq!(open(&records, &[], ceiling), Err(refusal));
    }
}

#[test]
fn a_refused_opening_leaves_the_run() {
    let records = [automaton(0, &[PLAIN, PLAIN]), arrow(0, 0, 1, 1)];
    let mut bench = Bench::plain(&records);
    bench.take(1, &[]);
    let procedure = read(&records);
    assert!(bench.run.open(&procedure, &Ranges::new(), 0).is_err());
    assert_eq!(bench.run.rows(), [[1]]);
    assert_eq!(bench.run.open(&procedure, &Ranges::new(), 1), Ok(1));
    assert_eq!(bench.run.rows(), [[0]]);
}

#[test]
fn what_begins_nested_begins_in_place() {
    // Under two binders, each instance has its own cells, in roster order.
    let bench = Bench::new(
        &[
            automaton(2, &[PLAIN, PLAIN, PLAIN]),
            automaton(1, &[PLAIN, (0, 0)]),
            every(0, 1, &[]),
            automaton(0, &[PLAIN]),
            sequence(2, 3),
            every(1, 4, &[]),
        ],
        &[(0, 0, 2), (1, 0, 2)],
        Host::limits(),
    );
    assert_eq!(bench.run.rows(), [[0, 1, 2, 1, 2, 0, 1, 2, 1, 2]]);
}
