//! Questions 15 to 18, the ceiling, and diagrams with very many successors.

use std::time::{Duration, Instant};

use super::*;

/// Milliseconds in an optimised build; without cutting it would be hours. The bound leaves room
/// for slow builds on a busy machine.
fn quickly(work: impl FnOnce()) {
    let begin = Instant::now();
    work();
    assert!(begin.elapsed() < Duration::from_secs(10));
}

#[test]
fn question_15_asks_for_the_form() {
    let mut host = Host::limits();
    let mut bench = Bench::plain(&[automaton(0, &[PLAIN]), arrow(0, 0, 0, 255)]);
    let raw = |label, count, first, second| Event {
        label,
        count,
        first,
        second,
    };
    let cases = [
        (raw(256, 3, 1, 1), 0),
        (raw(255, 3, 0, 0), 1),
        (raw(255, 3, 7, 7), 1),
        (raw(255, 0, 1, 1), 2),
        (raw(255, 0, 0, 1), 3),
        (raw(255, 1, 5, 1), 3),
    ];
    for (event, field) in cases {
        let refusal = Err(fault(15, 3, field));
        assert_eq!(bench.run.offer(&mut host, event), refusal);
        assert_eq!(Run::new().offer(&mut host, event), refusal);
    }
    assert_eq!(bench.offer(255, &[]), Ok(1));
    assert_eq!(bench.offer(255, &[0, 0]), Err(fault(16, 3, 1)));
    assert_eq!(bench.offer(255, &[65_535, 65_535]), Err(fault(16, 3, 1)));
}

#[test]
fn a_run_never_opened_holds_nothing() {
    let mut run = Run::new();
    let mut host = Host::tallies();
    assert_eq!(run.offer(&mut host, event(1, &[])), Err(fault(16, 3, 0)));
    assert_eq!(run.menu(&host, 0), (Ok(0), vec![]));
    assert_eq!(run.rows(), Vec::<Vec<u16>>::new());
    assert_eq!(run.width(), 0);
    assert!(!run.is_finished());
}

/// An automaton with arrows from state 0 to each of the states after it, on 5.
fn fan(node: u16, targets: u16) -> Vec<Record> {
    let mut records = vec![automaton(0, &vec![PLAIN; usize::from(targets) + 1])];
    records.extend((1..=targets).map(|to| arrow(node, 0, to, 5)));
    records
}

#[test]
fn question_17_asks_for_the_ceiling() {
    for (ceiling, answer) in [
        (1, Err(fault(17, 3, 1))),
        (2, Err(fault(17, 3, 2))),
        (3, Ok(3)),
    ] {
        let mut bench = Bench::with_ceiling(&fan(0, 3), &[], Host::limits(), ceiling);
        assert_eq!(bench.offer(5, &[]), answer);
        let held = if answer.is_ok() { 3 } else { 1 };
        assert_eq!(bench.run.rows().len(), held);
    }
}

/// Two sides that move together to `left` times `right` successors.
fn product(left: u16, right: u16, ceiling: usize) -> Result<usize, Fault> {
    let records = [
        fan(0, left),
        fan(1, right),
        vec![synchronisation(0, 1, &[5])],
    ]
    .concat();
    Bench::with_ceiling(&records, &[], Host::limits(), ceiling).offer(5, &[])
}

#[test]
fn products_at_the_ceiling() {
    assert_eq!(product(16, 8, 128), Ok(128));
    assert_eq!(product(16, 8, 127), Err(fault(17, 3, 127)));
    assert_eq!(product(3, 31, 93), Ok(93));
    assert_eq!(product(3, 31, 92), Err(fault(17, 3, 92)));
    assert_eq!(product(13, 10, 128), Err(fault(17, 3, 128)));
    assert_eq!(product(31, 0, 1), Err(fault(16, 3, 1)));
    assert_eq!(product(0, 31, 1), Err(fault(16, 3, 1)));
}

#[test]
fn the_ceiling_is_asked_of_all_held_states_together() {
    // Each of 8 held states leads to the same 12, and to 12 more of its own.
    let mut records = vec![automaton(0, &[PLAIN; 32])];
    records.extend((1..=8).map(|to| arrow(0, 0, to, 5)));
    for from in 1..=8 {
        records.extend((20..32).map(|to| arrow(0, from, to, 6)));
    }
    let mut bench = Bench::with_ceiling(&records, &[], Host::limits(), 12);
    assert_eq!(bench.offer(5, &[]), Ok(8));
    assert_eq!(bench.offer(6, &[]), Ok(12));
    let mut low = Bench::with_ceiling(&records, &[], Host::limits(), 11);
    assert_eq!(low.offer(5, &[]), Ok(8));
    assert_eq!(low.offer(6, &[]), Err(fault(17, 3, 11)));
    assert_eq!(low.offer(7, &[]), Err(fault(16, 3, 8)));
}

/// Sixteen instances that move together on 5, each to two states; 6 with the instance's value
/// stops it. Each is an automaton with some closures around it.
fn crowd(around: u16) -> Vec<Record> {
    let mut records = fan(0, 2);
    records.push(arrow_with(0, 0, 2, 6, OUTER, ABSENT));
    records.extend((0..around).map(closure));
    records.push(every(0, around, &[5]));
    records
}

#[test]
fn a_crowd_has_too_many_successors() {
    quickly(|| {
        let mut bench = Bench::new(&crowd(2), &[(0, 1, 16)], Host::limits());
        assert_eq!(bench.offer(5, &[]), Err(fault(17, 3, 128)));
        assert!(bench.menu().contains(&event(5, &[])));
    });
}

#[test]
fn one_stuck_instance_holds_the_crowd() {
    quickly(|| {
        for stuck in 1..=16 {
            let mut bench = Bench::new(&crowd(0), &[(0, 1, 16)], Host::limits());
            assert_eq!(bench.offer(6, &[stuck]), Ok(1));
            assert!(bench.is_stuck(5, &[]));
            assert!(!bench.menu().contains(&event(5, &[])));
        }
    });
}

#[test]
fn nested_crowds() {
    quickly(|| {
        // Three instances of 16 each, all together: 2^48 successors.
        let mut records = fan(0, 2);
        records.push(arrow_with(0, 0, 2, 6, OUTER, INNER));
        records.extend([every(0, 0, &[5]), every(1, 1, &[5])]);
        let settings = [(0, 1, 16), (1, 1, 3)];
        let mut bench = Bench::new(&records, &settings, Host::limits());
        assert_eq!(bench.offer(5, &[]), Err(fault(17, 3, 128)));
        assert_eq!(bench.offer(6, &[3, 16]), Ok(1));
        assert!(bench.is_stuck(5, &[]));
        assert_eq!(bench.menu().len(), 47);
    });
}

#[test]
fn sides_nested_to_the_full_width() {
    quickly(|| {
        // 32 automata in a row of synchronisations: 63 nodes with their operators, 2^32 successors.
        let chain = |stuck: Option<u16>| {
            let mut records = Vec::new();
            for node in 0..32 {
                let targets = if stuck == Some(node) { 0 } else { 2 };
                records.extend(fan(node, targets));
            }
            records.push(synchronisation(0, 1, &[5]));
            records.extend((2..32).map(|node| synchronisation(node + 30, node, &[5])));
            Bench::plain(&records)
        };
        assert_eq!(chain(None).offer(5, &[]), Err(fault(17, 3, 128)));
        for stuck in [0, 15, 31] {
            assert!(chain(Some(stuck)).is_stuck(5, &[]));
        }
    });
}

#[test]
fn many_alternatives_inside_a_stuck_whole_are_none() {
    // The left side alone has 31 successors, but the right one cannot move with it.
    let records = [
        fan(0, 31),
        vec![
            automaton(0, &[PLAIN]),
            synchronisation(0, 1, &[5]),
            closure(2),
        ],
    ]
    .concat();
    for ceiling in [1, 128] {
        let mut bench = Bench::with_ceiling(&records, &[], Host::limits(), ceiling);
        assert!(bench.is_stuck(5, &[]));
    }
}

#[test]
fn different_ways_to_one_successor_count_once() {
    // A loop on both sides: moving left or right gives the same row.
    let mut bench = Bench::with_ceiling(
        &[
            automaton(0, &[PLAIN]),
            arrow(0, 0, 0, 5),
            automaton(0, &[PLAIN]),
            arrow(1, 0, 0, 5),
            synchronisation(0, 1, &[]),
        ],
        &[],
        Host::limits(),
        1,
    );
    assert_eq!(bench.offer(5, &[]), Ok(1));
}

#[test]
fn menus_need_places() {
    let records = [
        automaton(0, &[PLAIN]),
        arrow(0, 0, 0, 8),
        arrow_with(0, 0, 0, 8, (1, 1), ABSENT),
        arrow_with(0, 0, 0, 8, (1, 0), (1, 0)),
        arrow_with(0, 0, 0, 8, (1, 0), ABSENT),
        arrow(0, 0, 0, 8),
        arrow(0, 0, 0, 7),
    ];
    let bench = Bench::plain(&records);
    let all = [
        event(7, &[]),
        event(8, &[]),
        event(8, &[0]),
        event(8, &[1]),
        event(8, &[0, 0]),
    ];
    assert_eq!(bench.menu(), all);
    for places in 0..5 {
        let refusal = Err(fault(18, 3, places as u64));
        let listed = all[..places].to_vec();
        assert_eq!(bench.run.menu(&bench.host, places), (refusal, listed));
    }
    assert_eq!(bench.run.menu(&bench.host, 5), (Ok(5), all.to_vec()));
    let empty = Bench::plain(&records[..1]);
    assert_eq!(empty.run.menu(&empty.host, 0), (Ok(0), vec![]));
}

/// 256 arrows with 16 times 16 values each.
fn longest_menu() -> Bench {
    let mut records = vec![automaton(0, &[PLAIN])];
    records.extend((0..256).map(|label| arrow_with(0, 0, 0, label, INNER, OUTER)));
    records.extend([some(0, 0), some(0, 1)]);
    Bench::new(&records, &[(0, 65_520, 16)], Host::limits())
}

#[test]
fn the_longest_menu() {
    let begin = Instant::now();
    let bench = longest_menu();
    let (answer, events) = bench.run.menu(&bench.host, 65_536);
    assert_eq!(answer, Ok(65_536));
    assert!(events.windows(2).all(|pair| pair[0] < pair[1]));
    let (answer, events) = bench.run.menu(&bench.host, 65_535);
    assert_eq!(answer, Err(fault(18, 3, 65_535)));
    assert_eq!(events.len(), 65_535);
    assert!(begin.elapsed() < Duration::from_secs(60));
}

#[test]
fn deep_towers_over_two_binders() {
    quickly(|| {
        // Every closure of a finished tower starts again, down to 256 values each time.
        let mut records = vec![
            automaton(0, &[FINAL, FINAL]),
            arrow_with(0, 0, 1, 5, OUTER, INNER),
            arrow_with(0, 1, 1, 5, OUTER, INNER),
            arrow(0, 0, 1, 6),
        ];
        records.extend((0..15).map(closure));
        records.push(some(0, 15));
        records.extend((16..30).map(closure));
        records.push(some(0, 30));
        records.extend((31..46).map(closure));
        let mut bench = Bench::new(&records, &[(0, 1, 16)], Host::limits());
        assert_eq!(bench.run.width(), 47);
        assert_eq!(bench.offer(5, &[16, 16]), Ok(1));
        assert_eq!(bench.offer(5, &[1, 16]), Ok(1));
        assert_eq!(bench.offer(6, &[]), Err(fault(17, 3, 128)));
        assert!(bench.is_stuck(7, &[]));
        assert_eq!(bench.menu().len(), 257);
    });
}
