//! Small diagrams, drawn as records by FORMAT.md.

mod examples;
mod finishing;
mod openings;
mod random;
mod readings;
mod runs;
mod settings;

use super::{Event, Fault, Host, Procedure, Ranges, Run};

/// The kind of a record and its body; the length is added when it is put into a file.
type Record = Vec<u16>;

const NONE: u16 = 65_535;

/// An elementary state without a mark.
const PLAIN: (u16, u16) = (0, NONE);
/// An elementary state that is final.
const FINAL: (u16, u16) = (1, NONE);

const ABSENT: (u16, u16) = (0, 0);
const OUTER: (u16, u16) = (2, 0);
const INNER: (u16, u16) = (3, 0);

fn automaton(start: u16, states: &[(u16, u16)]) -> Record {
    let pairs = states.iter().flat_map(|&(mark, child)| [mark, child]);
    [1, states.len() as u16, start]
        .into_iter()
        .chain(pairs)
        .collect()
}

fn sequence(first: u16, second: u16) -> Record {
    vec![2, first, second]
}

fn closure(body: u16) -> Record {
    vec![3, body]
}

fn guard(guard: u16, body: u16) -> Record {
    vec![4, guard, body]
}

fn choice(left: u16, right: u16) -> Record {
    vec![5, left, right]
}

fn synchronisation(left: u16, right: u16, labels: &[u16]) -> Record {
    [&[6, left, right, labels.len() as u16], labels].concat()
}

fn some(ty: u16, body: u16) -> Record {
    vec![7, ty, body]
}

fn every(ty: u16, body: u16, labels: &[u16]) -> Record {
    [&[8, ty, body, labels.len() as u16], labels].concat()
}

fn arrow(node: u16, from: u16, to: u16, label: u16) -> Record {
    arrow_with(node, from, to, label, ABSENT, ABSENT)
}

fn arrow_with(
    node: u16,
    from: u16,
    to: u16,
    label: u16,
    first: (u16, u16),
    second: (u16, u16),
) -> Record {
    vec![
        9, node, from, to, label, 0, NONE, first.0, first.1, second.0, second.1,
    ]
}

/// The record with another value in one field, the kind being field 0.
fn but(mut record: Record, field: usize, value: u16) -> Record {
    record[field] = value;
    record
}

fn waiting(arrow: Record) -> Record {
    but(arrow, 5, 1)
}

fn guarded(arrow: Record, guard: u16) -> Record {
    but(arrow, 6, guard)
}

fn bytes_of(record: &[u16]) -> Vec<u8> {
    let length = 2 * record.len() as u16;
    let fields = [length].into_iter().chain(record.iter().copied());
    fields.flat_map(u16::to_le_bytes).collect()
}

fn file(records: &[Record]) -> Vec<u8> {
    records.iter().flat_map(|record| bytes_of(record)).collect()
}

fn read(records: &[Record]) -> Procedure {
    Procedure::read(&file(records)).expect("a sound file")
}

/// What refuses a file: the question's number and its place.
fn refused(bytes: &[u8]) -> Option<(u64, u64)> {
    Procedure::read(bytes)
        .err()
        .map(|fault| (fault.number, fault.place))
}

fn ranges(settings: &[(u16, u16, u16)]) -> Ranges {
    let mut ranges = Ranges::new();
    for &(ty, first, count) in settings {
        ranges.set(ty, first, count).expect("a range");
    }
    ranges
}

fn tally(guard: u16, label: u16, bound: u16) -> Host {
    let mut host = Host::tallies();
    host.set(guard, label, bound, 0).expect("a tally");
    host
}

fn event(label: u16, arguments: &[u16]) -> Event {
    Event {
        label,
        count: arguments.len() as u16,
        first: arguments.first().copied().unwrap_or(0),
        second: arguments.get(1).copied().unwrap_or(0),
    }
}

fn fault(number: u64, layer: u64, place: u64) -> Fault {
    Fault {
        number,
        layer,
        place,
    }
}

/// A run with its host.
struct Bench {
    run: Run,
    host: Host,
}

impl Bench {
    fn new(records: &[Record], settings: &[(u16, u16, u16)], host: Host) -> Bench {
        Bench::with_ceiling(records, settings, host, 128)
    }

    fn with_ceiling(
        records: &[Record],
        settings: &[(u16, u16, u16)],
        host: Host,
        ceiling: usize,
    ) -> Bench {
        let mut run = Run::new();
        run.open(&read(records), &ranges(settings), ceiling)
            .expect("an opening");
        Bench { run, host }
    }

    /// A diagram without binders and guards.
    fn plain(records: &[Record]) -> Bench {
        Bench::new(records, &[], Host::limits())
    }

    fn offer(&mut self, label: u16, arguments: &[u16]) -> Result<usize, Fault> {
        self.run.offer(&mut self.host, event(label, arguments))
    }

    /// Takes an event, and says which rows are held then.
    fn take(&mut self, label: u16, arguments: &[u16]) -> Vec<Vec<u16>> {
        let held = self.offer(label, arguments).expect("a successor");
        let rows = self.run.rows();
        assert_eq!(held, rows.len());
        rows
    }

    /// Whether an event has no successor; nothing changes then.
    fn is_stuck(&mut self, label: u16, arguments: &[u16]) -> bool {
        let before = self.run.rows();
        let answer = self.offer(label, arguments);
        answer == Err(fault(16, 3, before.len() as u64)) && self.run.rows() == before
    }

    fn menu(&self) -> Vec<Event> {
        let (answer, events) = self.run.menu(&self.host, 65_536);
        assert_eq!(answer, Ok(events.len()));
        events
    }
}
