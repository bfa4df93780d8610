//! The benchmark: how long offers and menus take, in the product and in the second interpreter, on the same calls in one run.

use std::hint::black_box;
use std::process::ExitCode;
use std::time::{Duration, Instant};

use crosscheck::case::{text_of_second, Case};
use crosscheck::hunt::with_stack;
use crosscheck::lines::{all, Line};
use crosscheck::product;

/// How long the plays of a line are to take together, and one play of either interpreter at most.
const ALL_PLAYS: Duration = Duration::from_millis(300);
const ONE_PLAY: Duration = Duration::from_millis(100);
const ONE_PLAY_OF_SECOND: Duration = Duration::from_millis(500);

/// Single calls are the best of so many, or of as many as fit into this time.
const TRIES: usize = 7;
const ALL_TRIES: Duration = Duration::from_secs(2);

const HEAD: &str = "\
Both interpreters make the same calls, and must say the same. A play reads a file, opens it, makes the calls that lead to where the
line's calls are made, and then many of these; its time is divided by their number, and nothing is taken off. The product writes into
room that was there and was cleared before; the second interpreter's text grows as it comes. Times are microseconds a call, in the mean of
some plays. *Longest call*: of the line's different calls, that which takes the product longest when it is made once, after the shortest
list of calls that leads there; this is the time of that whole play, with reading, opening and leading calls, the best of up to 7.

| line | calls a play | product | second | product : second | product, calls a second | second, calls a second | longest call |
|---|--:|--:|--:|--:|--:|--:|--:|";

fn main() -> ExitCode {
    // Menus and deep diagrams need more stack than the first thread may have.
    let thread = with_stack().spawn(table).expect("a thread");
    if thread.join().expect("no panic") {
        ExitCode::SUCCESS
    } else {
        ExitCode::FAILURE
    }
}

/// Prints the table, and answers whether both agree on every line.
fn table() -> bool {
    println!("{HEAD}");
    let mut agree = true;
    for line in all() {
        match row(&line) {
            Some(row) => println!("{row}"),
            None => {
                agree = false;
                println!("| {} | they differ |", line.name);
            }
        }
    }
    agree
}

/// A row of the table, unless the two differ.
fn row(line: &Line) -> Option<String> {
    let calls = calls_a_play(line)?;
    let play = Play::new(line, calls)?;
    let product = micros(mean(&mut play.product())) / calls as f64;
    let second = micros(mean(&mut play.second())) / calls as f64;
    let longest = micros(longest_call(line)?);
    Some(format!(
        "| {} | {calls} | {product:.3} | {second:.3} | 1 : {:.2} | {} | {} | {longest:.1} |",
        line.name,
        second / product,
        rate(product),
        rate(second),
    ))
}

/// Calls a second where one takes so many microseconds.
fn rate(micros: f64) -> String {
    let rate = 1e6 / micros;
    match rate < 100.0 {
        true => format!("{rate:.2}"),
        false => format!("{rate:.0}"),
    }
}

/// As many calls as both can make in the time of a play, in whole cycles.
fn calls_a_play(line: &Line) -> Option<usize> {
    let mut cycles = 1;
    loop {
        let calls = cycles * line.cycle.len();
        let play = Play::new(line, calls)?;
        let more = (2 * cycles).min(line.most_cycles);
        let is_enough = 2 * play.product()() > ONE_PLAY || 2 * play.second()() > ONE_PLAY_OF_SECOND;
        if is_enough || more == cycles {
            return Some(calls);
        }
        cycles = more;
    }
}

/// The longest of the line's different calls in the product.
fn longest_call(line: &Line) -> Option<Duration> {
    let mut longest = Duration::ZERO;
    for calls in 1..=line.singles {
        let play = Play::new(line, calls)?;
        longest = longest.max(best(&mut play.product()));
    }
    Some(longest)
}

/// The mean of the times that something takes.
fn mean(play: &mut impl FnMut() -> Duration) -> Duration {
    let mut plays = 0;
    let mut time = Duration::ZERO;
    while time < ALL_PLAYS {
        time += play();
        plays += 1;
    }
    time / plays
}

/// The best of the times that something takes.
fn best(play: &mut impl FnMut() -> Duration) -> Duration {
    let mut best = Duration::MAX;
    let mut time = Duration::ZERO;
    for _ in 0..TRIES {
        if time > ALL_TRIES {
            break;
        }
        let once = play();
        time += once;
        best = best.min(once);
    }
    best
}

/// A list of calls on which both agree.
struct Play {
    case: Case,
    room: usize,
}

impl Play {
    /// Plays with both, and answers nothing if they differ.
    fn new(line: &Line, calls: usize) -> Option<Play> {
        let case = line.case(calls);
        let text = text_of_second(&case);
        let room = text.len();
        (product::play(&case.input(), room) == text).then_some(Play { case, room })
    }

    /// Plays of the product, by the time that each takes.
    fn product(&self) -> impl FnMut() -> Duration {
        let input = self.case.input();
        let mut out = vec![1; self.room];
        // Each place is written once, so that the memory is there.
        out.fill(0);
        move || timed(|| product::play_into(&input, &mut out))
    }

    /// Plays of the second interpreter, by the time that each takes.
    fn second(&self) -> impl FnMut() -> Duration + '_ {
        || timed(|| text_of_second(&self.case))
    }
}

fn timed<T>(work: impl FnOnce() -> T) -> Duration {
    let start = Instant::now();
    black_box(work());
    start.elapsed()
}

fn micros(time: Duration) -> f64 {
    time.as_secs_f64() * 1e6
}
