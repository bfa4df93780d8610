//! The examples of RULES.md and LAW.md, with the rows and menus that the pages give.

use super::*;

fn two_steps(label: u16) -> [Record; 2] {
    [automaton(0, &[PLAIN, PLAIN]), arrow(0, 0, 1, label)]
}

#[test]
fn axle() {
    let mut bench = Bench::new(
        &[
            automaton(0, &[PLAIN, PLAIN, FINAL]),
            arrow_with(0, 0, 1, 2, OUTER, ABSENT),
            arrow_with(0, 1, 1, 3, OUTER, ABSENT),
            arrow(0, 1, 2, 4),
            some(0, 0),
            closure(1),
        ],
        &[(0, 1, 3)],
        Host::limits(),
    );
    let first = [event(2, &[1]), event(2, &[2]), event(2, &[3])];
    assert_eq!(bench.run.rows(), [[0, 0, 0]]);
    assert_eq!(bench.run.width(), 3);
    assert!(bench.run.is_finished());
    assert_eq!(bench.menu(), first);
    assert_eq!(bench.take(2, &[2]), [[1, 2, 1]]);
    assert!(!bench.run.is_finished());
    assert_eq!(bench.menu(), [event(3, &[2]), event(4, &[])]);
    assert!(bench.is_stuck(3, &[1]));
    assert_eq!(bench.take(4, &[]), [[1, 2, 2]]);
    assert!(bench.run.is_finished());
    assert_eq!(bench.menu(), first);
}

fn two_sides(labels: &[u16]) -> Bench {
    Bench::plain(&[
        automaton(0, &[PLAIN, PLAIN]),
        arrow(0, 0, 1, 5),
        automaton(0, &[PLAIN, PLAIN]),
        arrow(1, 0, 1, 5),
        synchronisation(0, 1, labels),
    ])
}

#[test]
fn sides_apart_and_together() {
    let mut apart = two_sides(&[]);
    assert_eq!(apart.take(5, &[]), [[0, 1], [1, 0]]);
    assert_eq!(apart.take(5, &[]), [[1, 1]]);
    let mut together = two_sides(&[5]);
    assert_eq!(together.take(5, &[]), [[1, 1]]);
    assert!(together.is_stuck(5, &[]));
    assert_eq!(together.menu(), []);
}

#[test]
fn uneven_sides() {
    let bench = Bench::plain(&[
        automaton(1, &[PLAIN, PLAIN]),
        automaton(0, &[PLAIN]),
        synchronisation(0, 1, &[]),
    ]);
    assert_eq!(bench.run.rows(), [[1, 0]]);
}

fn handing(onwards: &[Record]) -> Bench {
    let mut records = vec![
        automaton(0, &[PLAIN, FINAL]),
        arrow(0, 0, 1, 6),
        arrow(0, 1, 1, 6),
        automaton(0, &[PLAIN, PLAIN]),
        arrow(1, 0, 1, 6),
    ];
    records.extend_from_slice(onwards);
    records.push(sequence(0, 1));
    Bench::plain(&records)
}

#[test]
fn handing_over_and_on() {
    let mut over = handing(&[]);
    assert_eq!(over.take(6, &[]), [[0, 1]]);
    assert_eq!(over.take(6, &[]), [[0, 1], [1, 1]]);
    assert!(!over.run.is_finished());
    let mut on = handing(&[arrow(1, 1, 0, 3)]);
    on.take(6, &[]);
    on.take(6, &[]);
    assert_eq!(on.take(3, &[]), [[1, 0]]);
}

#[test]
fn either_side_and_deciding() {
    let deciding = || {
        Bench::plain(&[
            automaton(0, &[PLAIN, PLAIN]),
            arrow(0, 0, 1, 7),
            arrow(0, 1, 0, 3),
            automaton(0, &[PLAIN, FINAL]),
            arrow(1, 0, 1, 7),
            arrow(1, 1, 0, 4),
            choice(0, 1),
        ])
    };
    let mut bench = deciding();
    assert_eq!(bench.run.rows(), [[0, 0]]);
    assert!(!bench.run.is_finished());
    assert_eq!(bench.take(7, &[]), [[1, 1], [2, 1]]);
    assert!(bench.run.is_finished());
    assert_eq!(bench.take(3, &[]), [[1, 0]]);
    assert!(!bench.run.is_finished());
    let mut other = deciding();
    other.take(7, &[]);
    assert_eq!(other.take(4, &[]), [[2, 0]]);
}

#[test]
fn the_law_has_an_example() {
    let mut bench = Bench::plain(&[
        automaton(0, &[PLAIN, PLAIN]),
        arrow(0, 0, 1, 7),
        automaton(0, &[PLAIN, PLAIN, PLAIN]),
        arrow(1, 0, 1, 7),
        arrow(1, 1, 2, 8),
        choice(0, 1),
    ]);
    assert_eq!(bench.take(7, &[]), [[1, 1], [2, 1]]);
    assert_eq!(bench.menu(), [event(8, &[])]);
    assert_eq!(bench.offer(9, &[]), Err(fault(16, 3, 2)));
    assert_eq!(bench.take(8, &[]), [[2, 2]]);
}

#[test]
fn guarded_steps() {
    let records = [
        automaton(0, &[PLAIN, PLAIN, PLAIN]),
        arrow(0, 0, 1, 8),
        arrow(0, 1, 2, 8),
        guard(0, 0),
    ];
    let mut bench = Bench::new(&records, &[], tally(0, 8, 1));
    bench.take(8, &[]);
    assert_eq!(bench.take(8, &[]), [[1, 2]]);
    assert!(bench.is_stuck(8, &[]));
}

#[test]
fn guarded_again() {
    let records = [
        automaton(0, &[PLAIN, FINAL]),
        arrow(0, 0, 1, 8),
        guard(0, 0),
        closure(1),
    ];
    let mut bench = Bench::new(&records, &[], tally(0, 8, 1));
    assert_eq!(bench.take(8, &[]), [[1, 1, 1]]);
    assert!(bench.run.is_finished());
    assert!(bench.is_stuck(8, &[]));
}

#[test]
fn guarded_way() {
    let records = [
        automaton(0, &[PLAIN, PLAIN]),
        guarded(arrow(0, 0, 1, 8), 0),
        arrow(0, 1, 0, 9),
    ];
    let mut bench = Bench::new(&records, &[], tally(0, 8, 1));
    bench.take(8, &[]);
    assert_eq!(bench.take(9, &[]), [[0]]);
    assert!(bench.is_stuck(8, &[]));
    assert_eq!(bench.menu(), []);
}

#[test]
fn wheels() {
    let mut bench = Bench::new(
        &[
            automaton(0, &[PLAIN, PLAIN, PLAIN]),
            arrow_with(0, 0, 1, 9, OUTER, ABSENT),
            arrow(0, 1, 2, 10),
            every(0, 0, &[10]),
        ],
        &[(0, 1, 2)],
        Host::limits(),
    );
    assert!(bench.is_stuck(10, &[]));
    assert_eq!(bench.take(9, &[1]), [[1, 0]]);
    assert!(bench.is_stuck(10, &[]));
    assert_eq!(bench.take(9, &[2]), [[1, 1]]);
    assert_eq!(bench.take(10, &[]), [[2, 2]]);
}

fn with_a_child(mark: u16) -> Vec<Record> {
    vec![
        automaton(0, &[PLAIN, FINAL]),
        arrow(0, 0, 1, 11),
        automaton(0, &[(mark, 0), PLAIN]),
        waiting(arrow(1, 0, 1, 12)),
    ]
}

#[test]
fn waiting_for_a_child() {
    let mut bench = Bench::plain(&with_a_child(0));
    assert!(bench.is_stuck(12, &[]));
    assert_eq!(bench.take(11, &[]), [[0, 1]]);
    assert_eq!(bench.take(12, &[]), [[1, 0]]);
}

#[test]
fn coming_back() {
    let mut records = with_a_child(2);
    records.push(arrow(1, 0, 0, 13));
    let mut bench = Bench::plain(&records);
    assert!(!bench.run.is_finished());
    assert_eq!(bench.take(11, &[]), [[0, 1]]);
    assert!(bench.run.is_finished());
    assert_eq!(bench.take(13, &[]), [[0, 0]]);
    assert!(!bench.run.is_finished());
}

#[test]
fn waiting_alone() {
    let [node, step] = two_steps(12);
    let mut bench = Bench::plain(&[node, waiting(step)]);
    assert_eq!(bench.take(12, &[]), [[1]]);
}

#[test]
fn shift() {
    let mut bench = Bench::plain(&[
        automaton(0, &[PLAIN, FINAL]),
        arrow(0, 0, 1, 6),
        automaton(0, &[PLAIN, FINAL]),
        arrow(1, 0, 1, 7),
        sequence(0, 1),
        closure(2),
    ]);
    assert_eq!(bench.take(6, &[]), [[1, 0, 1]]);
    assert!(!bench.run.is_finished());
    assert!(bench.is_stuck(6, &[]));
    assert_eq!(bench.take(7, &[]), [[1, 1, 1]]);
    assert_eq!(bench.take(6, &[]), [[1, 0, 1]]);
}

#[test]
fn fork() {
    let forked = || {
        Bench::plain(&[
            automaton(1, &[PLAIN, PLAIN, PLAIN]),
            arrow(0, 1, 0, 5),
            arrow(0, 1, 0, 5),
            arrow(0, 1, 2, 6),
            arrow(0, 1, 0, 6),
        ])
    };
    assert_eq!(forked().run.rows(), [[1]]);
    assert_eq!(forked().take(5, &[]), [[0]]);
    assert_eq!(forked().take(6, &[]), [[0], [2]]);
    assert_eq!(forked().menu(), [event(5, &[]), event(6, &[])]);
}

#[test]
fn nested() {
    let nested = || {
        Bench::new(
            &[
                automaton(0, &[PLAIN, PLAIN]),
                arrow_with(0, 0, 1, 5, OUTER, INNER),
                some(0, 0),
                some(1, 1),
            ],
            // The inner binder is over 7 alone, the outer one over 7 to 9.
            &[(0, 7, 1), (1, 7, 3)],
            Host::limits(),
        )
    };
    assert_eq!(nested().take(5, &[9, 7]), [[3, 1, 1]]);
    assert_eq!(nested().take(5, &[7, 7]), [[1, 1, 1]]);
    assert!(nested().is_stuck(5, &[9]));
    assert!(nested().is_stuck(5, &[7, 9]));
}

#[test]
fn choosy() {
    let choosy = || {
        let mut host = Host::limits();
        host.set(0, 1, 2, 8).expect("a limit");
        host.set(1, 2, 1, 7).expect("a limit");
        Bench::new(
            &[
                automaton(0, &[PLAIN, PLAIN]),
                guarded(arrow_with(0, 0, 1, 5, OUTER, INNER), 1),
                guard(0, 0),
                some(0, 1),
                some(0, 2),
            ],
            &[(0, 7, 3)],
            host,
        )
    };
    assert_eq!(choosy().take(5, &[9, 7]), [[3, 1, 1, 1]]);
    assert!(choosy().is_stuck(5, &[7, 7]));
    assert!(choosy().is_stuck(5, &[9, 9]));
    assert_eq!(choosy().menu(), [event(5, &[9, 7])]);
}

/// The file of the example in FORMAT.md, as its table gives it.
const BRAKES: &str = "
    1200 0100 0300 0000 0000 ffff 0000 ffff 0100 ffff
    1600 0900 0000 0000 0100 0200 0000 ffff 0000 0000 0000 0000
    1600 0900 0000 0100 0200 0300 0000 ffff 0000 0000 0000 0000
    1200 0100 0300 0000 0000 ffff 0000 ffff 0100 ffff
    1600 0900 0100 0000 0100 0200 0000 ffff 0000 0000 0000 0000
    1600 0900 0100 0100 0200 0400 0000 ffff 0000 0000 0000 0000
    0a00 0600 0000 0100 0100 0200
    1200 0100 0300 0000 0000 ffff 0200 0200 0100 ffff
    1600 0900 0300 0000 0100 0100 0000 ffff 0200 0000 0000 0000
    1600 0900 0300 0100 0200 0500 0100 ffff 0000 0000 0000 0000
    0600 0700 0000 0300
    0400 0300 0400";

pub(super) fn brakes() -> Vec<u8> {
    let digits: Vec<u8> = BRAKES
        .chars()
        .filter_map(|digit| digit.to_digit(16))
        .map(|digit| digit as u8)
        .collect();
    digits
        .chunks(2)
        .map(|pair| 16 * pair[0] + pair[1])
        .collect()
}

#[test]
fn brake_test() {
    assert_eq!(brakes().len(), 230);
    let procedure = Procedure::read(&brakes()).expect("a sound file");
    assert_eq!(procedure.node_count(), 6);
    let mut run = Run::new();
    run.open(&procedure, &ranges(&[(0, 1, 2)]), 1)
        .expect("an opening");
    let mut host = Host::limits();
    let mut take = |label, arguments: &[u16]| {
        run.offer(&mut host, event(label, arguments))
            .map(|_| run.rows()[0].clone())
    };
    for axle in [2, 1] {
        assert_eq!(take(1, &[axle]), Ok(vec![1, axle, 1, 0, 0]));
        assert_eq!(take(2, &[]), Ok(vec![1, axle, 1, 1, 1]));
        assert_eq!(take(4, &[]), Ok(vec![1, axle, 1, 1, 2]));
        assert_eq!(take(5, &[]), Err(fault(16, 3, 1)));
        assert_eq!(take(3, &[]), Ok(vec![1, axle, 1, 2, 2]));
        assert_eq!(take(5, &[]), Ok(vec![1, axle, 2, 0, 0]));
    }
    assert!(run.is_finished());
}
