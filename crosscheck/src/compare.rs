//! Comparing the two interpreters on a case, and showing where they differ.

use std::any::Any;
use std::fmt::Write;
use std::panic::{catch_unwind, AssertUnwindSafe};

use crate::case::{reading_of_second, text_of_answer, text_of_second, Call, Case, Player};
use crate::counts::Counts;
use crate::product;
use crate::record::{records_of, KINDS};

/// Longer texts are shown around their first difference only.
const LONGEST_SHOWN: usize = 600;

/// What one of the two made of a case: a text, or a panic with its message.
pub type Outcome = Result<Vec<u64>, String>;

/// Two outcomes that are not the same.
#[derive(Clone, Debug)]
pub struct Difference {
    /// The call of the library that differs.
    pub call: &'static str,
    pub product: Outcome,
    pub second: Outcome,
}

/// The first difference on a case, if there is one.
pub fn difference(case: &Case) -> Option<Difference> {
    difference_from(case, guarded(|| text_of_second(case)))
}

/// The same where the second interpreter's outcome is there already.
pub fn difference_from(case: &Case, second: Outcome) -> Option<Difference> {
    difference_of_reading(case, &mut Counts::default())
        .or_else(|| of_play(case, second.clone()))
        .or_else(|| second.ok().and_then(|text| of_little_room(case, text)))
}

/// Does something, and answers a panic's message if it panics.
pub fn guarded<T>(work: impl FnOnce() -> T) -> Result<T, String> {
    catch_unwind(AssertUnwindSafe(work)).map_err(|panic| message_of(panic.as_ref()))
}

fn message_of(panic: &(dyn Any + Send)) -> String {
    let text = panic.downcast_ref::<&str>().map(|text| text.to_string());
    text.or_else(|| panic.downcast_ref::<String>().cloned())
        .unwrap_or_else(|| "a panic without a message".to_string())
}

/// The difference on the reading of a case's file, which is counted.
pub fn difference_of_reading(case: &Case, counts: &mut Counts) -> Option<Difference> {
    let second = guarded(|| reading_of_second(&case.file));
    if let Ok(answer) = &second {
        counts.reading(answer);
    }
    compared(
        "cutholyar_read",
        guarded(|| product::read(&case.file)),
        second.map(text_of_answer),
    )
}

fn of_play(case: &Case, second: Outcome) -> Option<Difference> {
    let expected = second.as_ref().map_or(0, Vec::len);
    compared(
        "cutholyar_play",
        guarded(|| product::play(&case.input(), expected)),
        second,
    )
}

/// With less room than the text takes, its first places are written and nothing else. This is tried on short texts, since it takes
/// several plays.
fn of_little_room(case: &Case, mut text: Vec<u64>) -> Option<Difference> {
    let room = match text.len() {
        0..40 => text.len() - 1,
        40..80 => text.len() / 2,
        80..120 => 0,
        _ => return None,
    };
    text.truncate(room);
    compared(
        "cutholyar_play with less room than the text takes",
        guarded(|| product::beginning_of_play(&case.input(), room)),
        Ok(text),
    )
}

fn compared(call: &'static str, product: Outcome, second: Outcome) -> Option<Difference> {
    match (&product, &second) {
        (Ok(one), Ok(other)) if one == other => None,
        _ => Some(Difference {
            call,
            product,
            second,
        }),
    }
}

/// The case, line by line.
pub fn shown_case(case: &Case) -> String {
    let mut lines = String::new();
    let host = if case.host == 0 { "limits" } else { "tallies" };
    let _ = writeln!(lines, "host {} ({host})", case.host);
    let _ = writeln!(
        lines,
        "file of {} bytes: {}",
        case.file.len(),
        hex(&case.file)
    );
    lines += &shown_records(&case.file);
    for [ty, first, count] in &case.ranges {
        let _ = writeln!(lines, "range: type {ty}, first {first}, count {count}");
    }
    for [guard, one, two, three] in &case.settings {
        let _ = writeln!(lines, "setting: guard {guard}, then {one}, {two}, {three}");
    }
    lines += &shown_calls(&case.calls);
    if case.noise != 0 || case.left_over != 0 {
        let _ = writeln!(
            lines,
            "noise {}, numbers left over: {}",
            case.noise, case.left_over
        );
    }
    lines
}

/// The calls, one a line; many like calls in a row have one line.
fn shown_calls(calls: &[Call]) -> String {
    let mut lines = String::new();
    let mut number = 0;
    for like in calls.chunk_by(|one, next| one == next) {
        let last = number + like.len() - 1;
        let _ = match like {
            [call] => writeln!(lines, "call {number}: {call}"),
            _ => writeln!(lines, "calls {number} to {last}: {}", like[0]),
        };
        number = last + 1;
    }
    lines
}

/// Both outcomes, and the first place where they differ.
pub fn shown_difference(case: &Case, difference: &Difference) -> String {
    let place = first_place(difference);
    let mut lines = String::new();
    let _ = writeln!(lines, "they differ in what {} says", difference.call);
    let _ = writeln!(lines, "product: {}", shown(&difference.product, place));
    let _ = writeln!(lines, "second:  {}", shown(&difference.second, place));
    if let Some(place) = place {
        let _ = writeln!(
            lines,
            "first different place: {place}, {}",
            whose_place(case, difference, place)
        );
    }
    lines
}

fn hex(bytes: &[u8]) -> String {
    bytes.iter().map(|byte| format!("{byte:02x}")).collect()
}

fn shown_records(file: &[u8]) -> String {
    let mut lines = String::new();
    let (mut nodes, mut arrows) = (0, 0);
    for (number, record) in records_of(file).unwrap_or_default().iter().enumerate() {
        let counted = if record.is_arrow() {
            &mut arrows
        } else {
            &mut nodes
        };
        let what = if record.is_arrow() { "arrow" } else { "node" };
        let kind = KINDS.get(usize::from(record.kind)).unwrap_or(&"?");
        let _ = writeln!(
            lines,
            "record {number}, {what} {counted}: {kind} {:?}",
            record.fields
        );
        *counted += 1;
    }
    lines
}

fn first_place(difference: &Difference) -> Option<usize> {
    let one = difference.product.as_ref().ok()?;
    let other = difference.second.as_ref().ok()?;
    let common = one.iter().zip(other).take_while(|(x, y)| x == y).count();
    Some(common)
}

fn shown(outcome: &Outcome, place: Option<usize>) -> String {
    match outcome {
        Err(message) => format!("panicked: {message}"),
        Ok(text) if text.len() <= LONGEST_SHOWN => format!("{text:?}"),
        Ok(text) => {
            let place = place.unwrap_or(0).min(text.len());
            let from = place.saturating_sub(LONGEST_SHOWN / 2);
            let to = (place + LONGEST_SHOWN / 2).min(text.len());
            let length = text.len();
            format!("{:?} (places {from} to {to} of {length})", &text[from..to])
        }
    }
}

/// Which answer of the second interpreter a place of the play's text belongs to.
fn whose_place(case: &Case, difference: &Difference, place: usize) -> String {
    if difference.call == "cutholyar_read" {
        return "in the reading's answer".to_string();
    }
    let starts = guarded(|| {
        let mut player = Player::new(case);
        for call in &case.calls {
            player.make(call);
        }
        player.starts().to_vec()
    });
    let call = starts
        .unwrap_or_default()
        .iter()
        .rposition(|&start| start <= place);
    match call {
        Some(number) => format!("in what call {number} says ({})", case.calls[number]),
        None => "before what the calls say".to_string(),
    }
}
