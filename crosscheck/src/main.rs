//! The comparison: random cases until the time is over, or one case by its number.

use std::env;
use std::panic;
use std::process::ExitCode;
use std::thread;
use std::time::Duration;

use crosscheck::case::{text_of_second, Call};
use crosscheck::compare::{shown_case, shown_difference};
use crosscheck::counts::Counts;
use crosscheck::hunt::{compared, hunt, smaller, with_stack, Found, Hunt, Length};

const USAGE: &str =
    "usage: crosscheck [--seed N] [--seconds S] [--cases N] [--threads N] [--announce]
       crosscheck [--seed N] --case N";

const SEED: u64 = 1;
const SECONDS: u64 = 60;
const CALLS: u64 = 200_000;

struct Options {
    seed: u64,
    seconds: u64,
    cases: Option<u64>,
    case: Option<u64>,
    threads: usize,
    announce: bool,
}

fn main() -> ExitCode {
    let Some(options) = options() else {
        eprintln!("{USAGE}");
        return ExitCode::from(2);
    };
    // A panic is a difference, and is shown as one.
    panic::set_hook(Box::new(|_| {}));
    let found = match options.case {
        Some(number) => with_room(move || one(options.seed, number)),
        None => many(&options),
    };
    match found {
        None => ExitCode::SUCCESS,
        Some(found) => {
            with_room(move || show(options.seed, found));
            ExitCode::FAILURE
        }
    }
}

fn options() -> Option<Options> {
    let mut options = Options {
        seed: SEED,
        seconds: SECONDS,
        cases: None,
        case: None,
        threads: thread::available_parallelism().map_or(1, usize::from),
        announce: false,
    };
    let mut words = env::args().skip(1);
    while let Some(word) = words.next() {
        if word == "--announce" {
            options.announce = true;
            continue;
        }
        let number: u64 = words.next()?.parse().ok()?;
        match word.as_str() {
            "--seed" => options.seed = number,
            "--seconds" => options.seconds = number,
            "--cases" => options.cases = Some(number),
            "--case" => options.case = Some(number),
            "--threads" => options.threads = (number as usize).max(1),
            _ => return None,
        }
    }
    Some(options)
}

/// Does something on a stack that has room for both interpreters.
fn with_room<T: Send + 'static>(work: impl FnOnce() -> T + Send + 'static) -> T {
    let thread = with_stack().spawn(work).expect("a thread");
    thread.join().expect("no panic")
}

/// Compares many cases, and prints a summary.
fn many(options: &Options) -> Option<Found> {
    let length = match options.cases {
        Some(cases) => Length::Cases(cases),
        None => Length::Time {
            time: Duration::from_secs(options.seconds),
            calls: CALLS,
        },
    };
    let hunt = hunt(options.seed, length, options.threads, options.announce);
    summarise(options, &hunt);
    hunt.found
}

fn summarise(options: &Options, hunt: &Hunt) {
    for line in hunt.counts.lines() {
        println!("{line}");
    }
    let (number, time) = hunt.slowest;
    println!(
        "slowest case: {number}, {:.2} s for drawing and both interpreters",
        time.as_secs_f64()
    );
    let verdict = match hunt.found {
        None => "no difference",
        Some(_) => "a difference",
    };
    println!(
        "crosscheck: {verdict}; seed {}, {} calls compared in {:.1} s",
        options.seed,
        hunt.counts.calls(),
        hunt.time.as_secs_f64()
    );
}

/// Compares one case, and prints it.
fn one(seed: u64, number: u64) -> Option<Found> {
    let (case, difference) = compared(seed, number, &mut Counts::default());
    println!("case {number} of seed {seed}");
    print!("{}", shown_case(&case));
    let Some(difference) = difference else {
        let told = case.calls.iter().filter(|&&call| call == Call::Tell);
        println!(
            "no difference: {} calls, {} of which tell, and texts of {} numbers",
            case.calls.len(),
            told.count(),
            text_of_second(&case).len()
        );
        return None;
    };
    Some(Found {
        number,
        case,
        difference,
    })
}

/// Prints a difference, made smaller as far as that goes.
fn show(seed: u64, found: Found) {
    let number = found.number;
    let before = found.case.calls.len();
    let found = smaller(found);
    println!();
    println!(
        "difference in case {number} of seed {seed}; repeat it by --seed {seed} --case {number}"
    );
    println!(
        "the smallest case found, with {} calls of {before}:",
        found.case.calls.len()
    );
    print!("{}", shown_case(&found.case));
    print!("{}", shown_difference(&found.case, &found.difference));
}
